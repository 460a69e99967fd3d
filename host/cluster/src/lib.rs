//! A small real cluster: six processes on loopback sockets, one of them Byzantine, others killed and restarted.
//!
//! Each honest process is a host around the proved library ([`host`]): sockets ([`net`]), a clock, and a state file
//! that is replaced before anything is sent ([`state`]). The supervisor ([`supervisor`]) starts them, kills some, and
//! at the end compares the rows of releases ([`rows`]); all along it looks for an honest replica that signed two
//! records of a kind for a view, or sent one before it was saved ([`promises`]).
//!
//! What a real host has, and what stands for it here: for signatures keyed hashes ([`card`]), for the network loopback.
//! A host hands a record in only if every signature in it is right, if it comes from its sender (kinds 1, 2, 5, 7), and
//! a proposal or a block only with its contents ([`contents`]): the library checks its name.

pub mod byzantine;
pub mod card;
pub mod clock;
pub mod codec;
pub mod contents;
pub mod frame;
pub mod host;
pub mod net;
pub mod promises;
pub mod rows;
pub mod state;
pub mod supervisor;

use std::io;
use std::path::{Path, PathBuf};

use oracle::{regions, Faults, Protocol};
use replica::{raw, Counters, Replica, Settings};

pub const SETTINGS: Settings = Settings { f: 1, c: 1, k: 0, n: 6 };
/// The number of replicas.
pub const N: u16 = SETTINGS.n as u16;

/// An opened replica of the cluster: each leads in its turn.
pub fn open(own: u16) -> io::Result<Replica> {
    Replica::open(SETTINGS, own.into(), &SETTINGS.in_turn()).map_err(io::Error::other)
}

/// The quorums of the cluster.
pub fn protocol() -> Protocol {
    let settings = oracle::Settings::new(SETTINGS.f, SETTINGS.c, SETTINGS.k).expect("settings that opening takes");
    Protocol::new(settings, Faults::default())
}

/// The certificate by which a replica entered its view, as the record that stands in its memory.
pub fn entry_record(replica: &Replica) -> Vec<u8> {
    let saved = replica.save();
    let memory = &saved[size_of::<Counters>()..][..raw::MEMORY];
    let length = usize::from(oracle::wire::u16_at(memory, regions::ENTRY_LENGTH));
    memory[regions::ENTRY..][..length].to_vec()
}

/// Where a process that stands still says so.
pub fn halted_file(folder: &Path, own: u16) -> PathBuf {
    folder.join(format!("halted.{own}"))
}

/// All keys, for honest processes.
pub fn keys_file(folder: &Path) -> PathBuf {
    folder.join("keys")
}

/// One key, for the Byzantine process.
pub fn key_file(folder: &Path, own: u16) -> PathBuf {
    folder.join(format!("key.{own}"))
}
