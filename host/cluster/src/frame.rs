//! What hosts send each other.

use std::io::{self, Read};

use oracle::Name;

use crate::card::Signature;
use crate::codec::{Reader, Writer};
use crate::contents::FullBlock;

/// The longest frame that is read: an honest one has at most 120 blocks of 4,096 bytes.
const LONGEST: u32 = 1 << 20;

#[derive(Clone, Debug, PartialEq, Eq)]
pub enum Frame {
    /// A record with its signatures. A proposal and a vote have the block with them, its contents too: who voted for a
    /// block hands it on.
    Record { record: Vec<u8>, signatures: Vec<Signature>, block: Option<FullBlock> },
    /// Asks for a block and those below it, down to above a height.
    Ask { above: u64, name: Name },
    /// The answer: blocks from the highest down, each the parent of the one before.
    Chain(Vec<FullBlock>),
}

impl Frame {
    /// The frame as it stands on the socket, its length first.
    pub fn encode(&self) -> Vec<u8> {
        let mut out = Writer(vec![0; 4]);
        match self {
            Frame::Record { record, signatures, block } => {
                out.number(0).bytes(record);
                out.list(signatures.iter(), |out, signature| _ = out.fixed(signature));
                out.list(block.iter(), |out, block| block.write(out));
            }
            Frame::Ask { above, name } => _ = out.number(1).number(*above).fixed(name),
            Frame::Chain(chain) => _ = out.number(2).list(chain.iter(), |out, block| block.write(out)),
        }
        let length = (out.0.len() - 4) as u32;
        out.0[..4].copy_from_slice(&length.to_le_bytes());
        out.0
    }

    /// Reads a frame without its length; none for bytes that are no frame.
    pub fn decode(bytes: &[u8]) -> Option<Frame> {
        let mut bytes = Reader(bytes);
        let frame = match bytes.number()? {
            0 => {
                let record = bytes.bytes()?.to_vec();
                let signatures = bytes.list(Reader::fixed)?;
                Frame::Record { record, signatures, block: bytes.list(FullBlock::read)?.pop() }
            }
            1 => Frame::Ask { above: bytes.number()?, name: bytes.fixed()? },
            2 => Frame::Chain(bytes.list(FullBlock::read)?),
            _ => return None,
        };
        bytes.end(frame)
    }
}

/// The bytes of the next frame of a socket, without their length.
pub fn read_bytes(from: &mut impl Read) -> io::Result<Vec<u8>> {
    let mut length = [0; 4];
    from.read_exact(&mut length)?;
    let length = u32::from_le_bytes(length);
    if length > LONGEST {
        return Err(io::Error::new(io::ErrorKind::InvalidData, "a frame too long"));
    }
    let mut bytes = vec![0; length as usize];
    from.read_exact(&mut bytes)?;
    Ok(bytes)
}

#[cfg(test)]
mod tests {
    use super::*;

    #[test]
    fn what_is_written_is_read() {
        let block = FullBlock { parent: [1; 32], height: 2, contents: vec![3; 4] };
        let empty = FullBlock { contents: Vec::new(), ..block.clone() };
        let record = |block| Frame::Record { record: vec![5; 48], signatures: vec![[6; 16], [7; 16]], block };
        let ask = Frame::Ask { above: 8, name: [9; 32] };
        for frame in [record(None), record(Some(block.clone())), record(Some(empty)), ask, Frame::Chain(vec![block; 3])]
        {
            let bytes = frame.encode();
            let read = read_bytes(&mut bytes.as_slice()).expect("a whole frame");
            assert_eq!(Frame::decode(&read), Some(frame));
            assert_eq!(Frame::decode(&read[1..]), None);
            assert_eq!(Frame::decode(&read[..read.len() - 1]), None);
        }
    }

    #[test]
    fn a_long_frame_is_not_read() {
        assert!(read_bytes(&mut [0xFF; 8].as_slice()).is_err());
    }
}
