//! Sockets of one process: one connection to each other one for what it sends, and one from each for what it gets.
//!
//! Nothing here is reliable: what is sent to a process that is down, or whose queue is full, is lost. Hosts send again.

use std::io::{self, Write};
use std::net::{Ipv4Addr, TcpListener, TcpStream};
use std::path::{Path, PathBuf};
use std::sync::mpsc::{sync_channel, Receiver, SyncSender};
use std::sync::Arc;
use std::time::Duration;
use std::{fs, thread};

use crate::card::{Signature, Signer, Statement, Verifier};
use crate::frame;
use crate::state;

const QUEUE: usize = 4096;
const RETRY: Duration = Duration::from_millis(5);

pub enum Event {
    /// Bytes of a frame, from the process that the connection's greeting named.
    Frame { from: u16, bytes: Vec<u8> },
    /// A connection to this process stands, for the first time or again.
    Connected(u16),
}

pub struct Net {
    pub events: Receiver<Event>,
    peers: Vec<Option<SyncSender<Arc<[u8]>>>>,
}

impl Net {
    /// Listens on a port that the system picks, publishes it in the folder, and connects to all others as they come
    /// up. Without a verifier whoever connects is believed.
    pub fn start(folder: &Path, n: u16, signer: &Signer, verifier: Option<Verifier>) -> io::Result<Net> {
        let (sender, events) = sync_channel(QUEUE);
        let own = signer.own;
        let listener = TcpListener::bind((Ipv4Addr::LOCALHOST, 0))?;
        state::replace(&port_file(folder, own), listener.local_addr()?.port().to_string().as_bytes(), false)?;
        let incoming = sender.clone();
        thread::spawn(move || accept_all(&listener, own, n, verifier, &incoming));
        let peers = (0..n).map(|to| (to != own).then(|| connect(folder, to, signer, sender.clone()))).collect();
        Ok(Net { events, peers })
    }

    /// Puts a frame into a process's queue.
    pub fn send(&self, to: u16, frame: &Arc<[u8]>) {
        if let Some(Some(peer)) = self.peers.get(usize::from(to)) {
            _ = peer.try_send(frame.clone());
        }
    }
}

fn port_file(folder: &Path, own: u16) -> PathBuf {
    folder.join(format!("port.{own}"))
}

fn accept_all(listener: &TcpListener, own: u16, n: u16, verifier: Option<Verifier>, events: &SyncSender<Event>) {
    for stream in listener.incoming().flatten() {
        let (verifier, events) = (verifier.clone(), events.clone());
        thread::spawn(move || read_all(stream, own, n, verifier, &events));
    }
}

/// Reads frames from one connection until it ends. One that doesn't greet rightly is dropped.
fn read_all(mut stream: TcpStream, own: u16, n: u16, verifier: Option<Verifier>, events: &SyncSender<Event>) {
    let greeted = frame::read_bytes(&mut stream).ok().and_then(|bytes| greeted(&bytes, own, n, verifier));
    let Some(from) = greeted else { return };
    while let Ok(bytes) = frame::read_bytes(&mut stream) {
        if events.send(Event::Frame { from, bytes }).is_err() {
            return;
        }
    }
}

/// Who greets: a number and the signature of the greeting.
fn greeted(bytes: &[u8], own: u16, n: u16, verifier: Option<Verifier>) -> Option<u16> {
    let (number, signature) = bytes.split_first_chunk()?;
    let from = u16::from_le_bytes(*number);
    let signature: Signature = signature.try_into().ok()?;
    let statement = Statement::greeting(from, own);
    let is_right = verifier.is_none_or(|verifier| verifier.verifies(&statement, &signature));
    (from < n && from != own && is_right).then_some(from)
}

/// The greeting of a connection, with its length.
pub fn greeting(from: u16, signature: Signature) -> Vec<u8> {
    let body = [&from.to_le_bytes()[..], &signature].concat();
    [&(body.len() as u32).to_le_bytes()[..], &body].concat()
}

/// A thread that keeps up the connection to one process and writes to it what is put into the queue.
fn connect(folder: &Path, to: u16, signer: &Signer, events: SyncSender<Event>) -> SyncSender<Arc<[u8]>> {
    let (sender, queue) = sync_channel::<Arc<[u8]>>(QUEUE);
    let signature = signer.sign(&Statement::greeting(signer.own, to).bytes);
    let greeting = greeting(signer.own, signature);
    let folder = folder.to_path_buf();
    thread::spawn(move || loop {
        match dial(&folder, to, &greeting) {
            Ok(mut stream) => {
                if events.send(Event::Connected(to)).is_err() {
                    return;
                }
                while queue.recv().is_ok_and(|frame| stream.write_all(&frame).is_ok()) {}
            }
            Err(_) => thread::sleep(RETRY),
        }
        while queue.try_recv().is_ok() {}
    });
    sender
}

/// A connection to a process at the port that it published last.
pub fn dial(folder: &Path, to: u16, greeting: &[u8]) -> io::Result<TcpStream> {
    let port = fs::read_to_string(port_file(folder, to))?;
    let port = port.parse().map_err(|error| io::Error::new(io::ErrorKind::InvalidData, error))?;
    let mut stream = TcpStream::connect((Ipv4Addr::LOCALHOST, port))?;
    stream.set_nodelay(true)?;
    stream.write_all(greeting)?;
    Ok(stream)
}

#[cfg(test)]
mod tests {
    use super::*;

    /// What a process takes from a greeting of 1 to 2 that was signed with this key.
    fn greeted_by(key: u8, from: u16, own: u16) -> Option<u16> {
        let signature = Signer { own: 1, key: [key; 16] }.sign(&Statement::greeting(1, 2).bytes);
        let verifier = Verifier { keys: (0..3).map(|key| [key; 16]).collect() };
        greeted(&greeting(from, signature)[4..], own, 3, Some(verifier))
    }

    #[test]
    fn a_greeting_is_signed_for_one_receiver() {
        assert_eq!(greeted_by(1, 1, 2), Some(1));
        assert_eq!(greeted_by(0, 1, 2), None, "another's key");
        assert_eq!(greeted_by(1, 0, 2), None, "another's number");
        assert_eq!(greeted_by(1, 1, 0), None, "a greeting to another");
    }
}
