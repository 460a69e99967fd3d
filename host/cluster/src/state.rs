//! What a host saves before it sends: one file, replaced as a whole.
//!
//! Beside the replica's own state it holds the releases and the last frames sent, so a process that is killed between
//! the save and the sending loses nothing: releases stand in the file, and the frames are sent again on every new
//! connection. The row is written whole each time, which is good for the short rows of a test only.

use std::fs::{self, File};
use std::io::{self, Write};
use std::path::{Path, PathBuf};

use oracle::Name;

use crate::card::{Signature, Statement};
use crate::codec::{Reader, Writer};
use crate::contents::FullBlock;

/// What happened so far, for the summary.
#[derive(Clone, Debug, Default, PartialEq, Eq)]
pub struct Counts {
    /// Accepted calls.
    pub calls: u64,
    /// Records sent, once for each receiver.
    pub sent: u64,
    /// Refused calls, by number.
    pub refused: [u64; 18],
    /// Frames that no call was made for: no frame at all, or one that nobody asked for.
    pub no_frame: u64,
    /// Records straight from another than their sender.
    pub foreign: u64,
    /// Records with a signature missing or wrong.
    pub unsigned: u64,
    /// Proposals without their block's contents.
    pub without_contents: u64,
    /// Own records that couldn't be sent for want of another's signature: there should be none.
    pub unbacked: u64,
}

impl Counts {
    fn numbers(&mut self) -> Vec<&mut u64> {
        let Counts { calls, sent, refused, no_frame, foreign, unsigned, without_contents, unbacked } = self;
        [calls, sent, no_frame, foreign, unsigned, without_contents, unbacked].into_iter().chain(refused).collect()
    }

    pub fn add(&mut self, mut other: Counts) {
        for (sum, number) in self.numbers().into_iter().zip(other.numbers()) {
            *sum += *number;
        }
    }
}

/// One release of a row, as the replica wrote it.
#[derive(Clone, Copy, Debug, PartialEq, Eq)]
pub struct Release {
    pub view: u64,
    pub name: Name,
    pub height: u64,
}

/// A frame that was sent, and to whom; none for all others.
#[derive(Clone, Debug, PartialEq, Eq)]
pub struct Sending {
    pub to: Option<u16>,
    pub frame: Vec<u8>,
}

#[derive(Clone, Debug, PartialEq, Eq)]
pub struct Saved {
    pub counts: Counts,
    pub view: u64,
    pub row: Vec<Release>,
    pub blocks: Vec<FullBlock>,
    pub replica: Vec<u8>,
    pub outbox: Vec<Sending>,
    pub signatures: Vec<(Statement, Signature)>,
}

impl Saved {
    pub fn encode(&self) -> Vec<u8> {
        let mut out = Writer::default();
        out.list(self.counts.clone().numbers().into_iter(), |out, number| _ = out.number(*number));
        out.number(self.view);
        out.list(self.row.iter(), |out, release| {
            out.number(release.view).fixed(&release.name).number(release.height);
        });
        out.list(self.blocks.iter(), |out, block| block.write(out));
        out.bytes(&self.replica);
        out.list(self.outbox.iter(), |out, sending| {
            out.list(sending.to.iter(), |out, to| _ = out.number(u64::from(*to))).bytes(&sending.frame);
        });
        out.list(self.signatures.iter(), |out, (statement, signature)| {
            out.number(u64::from(statement.signer)).bytes(&statement.bytes).fixed(signature);
        });
        out.0
    }

    /// None for bytes that `encode` didn't write.
    pub fn decode(bytes: &[u8]) -> Option<Saved> {
        let mut bytes = Reader(bytes);
        let mut counts = Counts::default();
        let numbers = bytes.list(Reader::number)?;
        for (count, number) in counts.numbers().into_iter().zip(numbers) {
            *count = number;
        }
        let view = bytes.number()?;
        let row = bytes
            .list(|bytes| Some(Release { view: bytes.number()?, name: bytes.fixed()?, height: bytes.number()? }))?;
        let blocks = bytes.list(FullBlock::read)?;
        let replica = bytes.bytes()?.to_vec();
        let outbox = bytes.list(|bytes| {
            let to = bytes.list(read_u16)?.pop();
            Some(Sending { to, frame: bytes.bytes()?.to_vec() })
        })?;
        let signatures = bytes.list(|bytes| {
            let statement = Statement { signer: read_u16(bytes)?, bytes: bytes.bytes()?.to_vec() };
            Some((statement, bytes.fixed()?))
        })?;
        bytes.end(Saved { counts, view, row, blocks, replica, outbox, signatures })
    }
}

fn read_u16(bytes: &mut Reader<'_>) -> Option<u16> {
    u16::try_from(bytes.number()?).ok()
}

pub fn state_file(folder: &Path, own: u16) -> PathBuf {
    folder.join(format!("state.{own}"))
}

/// What a replica saved last; none before its first save.
pub fn load(folder: &Path, own: u16) -> io::Result<Option<Saved>> {
    match fs::read(state_file(folder, own)) {
        Ok(bytes) => {
            let damaged = || io::Error::new(io::ErrorKind::InvalidData, format!("replica {own}: a damaged state"));
            Saved::decode(&bytes).ok_or_else(damaged).map(Some)
        }
        Err(error) if error.kind() == io::ErrorKind::NotFound => Ok(None),
        Err(error) => Err(error),
    }
}

/// Replaces a file as a whole: whoever reads it finds the old bytes or the new ones. With `sync` they outlast the
/// machine too.
pub fn replace(path: &Path, bytes: &[u8], sync: bool) -> io::Result<()> {
    let written = write_beside(path, bytes, sync)?;
    put_in_place(&written, path, sync)
}

/// The first half of `replace`: the new bytes in a file of their own.
pub fn write_beside(path: &Path, bytes: &[u8], sync: bool) -> io::Result<PathBuf> {
    let beside = path.with_added_extension("new");
    let mut file = File::create(&beside)?;
    file.write_all(bytes)?;
    if sync {
        file.sync_all()?;
    }
    Ok(beside)
}

/// The second half.
pub fn put_in_place(written: &Path, path: &Path, sync: bool) -> io::Result<()> {
    fs::rename(written, path)?;
    match path.parent().filter(|_| sync) {
        Some(folder) => File::open(folder)?.sync_all(),
        None => Ok(()),
    }
}

#[cfg(test)]
mod tests {
    use super::*;

    fn saved() -> Saved {
        let mut counts = Counts { calls: 1, sent: 2, ..Counts::default() };
        counts.refused[17] = 3;
        let block = FullBlock { parent: [4; 32], height: 5, contents: vec![6; 7] };
        Saved {
            counts,
            view: 8,
            row: vec![Release { view: 9, name: [10; 32], height: 11 }],
            blocks: vec![block; 2],
            replica: vec![12; 100],
            outbox: vec![Sending { to: None, frame: vec![13] }, Sending { to: Some(5), frame: vec![] }],
            signatures: vec![(Statement { signer: 14, bytes: vec![15; 48] }, [16; 16])],
        }
    }

    #[test]
    fn what_is_saved_is_loaded() {
        let bytes = saved().encode();
        assert_eq!(Saved::decode(&bytes), Some(saved()));
        assert_eq!(Saved::decode(&bytes[..bytes.len() - 1]), None);
        assert_eq!(Saved::decode(&[&bytes[..], &[0]].concat()), None);
    }
}
