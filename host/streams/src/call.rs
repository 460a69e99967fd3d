//! A call on a replica.

use oracle::{literal, wire, Name, Replica, Reply, View};

#[derive(Clone, Debug, PartialEq, Eq)]
pub enum Call {
    Record(Vec<u8>),
    Timer(u64),
    Propose(Name),
    /// A record and contents.
    RecordWith(Vec<u8>, Vec<u8>),
    /// A name and contents.
    ProposeWith(Name, Vec<u8>),
}

impl Call {
    /// Makes the call; output is appended.
    pub fn make(&self, replica: &mut Replica, out: &mut Vec<u8>) -> Reply {
        match self {
            Call::Record(bytes) => replica.record(bytes, out),
            Call::Timer(view) => replica.timer(View(*view), out),
            Call::Propose(name) => replica.propose(*name, out),
            Call::RecordWith(bytes, contents) => replica.record_with(bytes, contents, out),
            Call::ProposeWith(name, contents) => replica.propose_with(*name, contents, out),
        }
    }

    /// The same with 01's loop to the letter.
    pub fn make_literally(&self, replica: &mut Replica, out: &mut Vec<u8>, ran: &mut literal::Ran) -> Reply {
        match self {
            Call::Record(bytes) | Call::RecordWith(bytes, _) => {
                literal::record(replica, bytes, self.contents(), out, ran)
            }
            Call::Timer(view) => literal::timer(replica, View(*view), out, ran),
            Call::Propose(name) | Call::ProposeWith(name, _) => {
                literal::propose(replica, *name, self.contents(), out, ran)
            }
        }
    }

    /// The record that is handed in, with contents or without.
    pub fn record(&self) -> Option<&[u8]> {
        match self {
            Call::Record(bytes) | Call::RecordWith(bytes, _) => Some(bytes),
            _ => None,
        }
    }

    /// The contents that come with it; empty ones are some.
    pub fn contents(&self) -> Option<&[u8]> {
        match self {
            Call::RecordWith(_, contents) | Call::ProposeWith(_, contents) => Some(contents),
            _ => None,
        }
    }

    /// The same call with contents; a timer has none.
    pub fn with(self, contents: Vec<u8>) -> Call {
        match self {
            Call::Record(bytes) | Call::RecordWith(bytes, _) => Call::RecordWith(bytes, contents),
            Call::Propose(name) | Call::ProposeWith(name, _) => Call::ProposeWith(name, contents),
            Call::Timer(_) => self,
        }
    }

    /// The same call without contents.
    pub fn without_contents(&self) -> Call {
        match self {
            Call::RecordWith(bytes, _) => Call::Record(bytes.clone()),
            Call::ProposeWith(name, _) => Call::Propose(*name),
            plain => plain.clone(),
        }
    }

    /// The call as bytes for the run program, which takes no contents: they are left out.
    pub fn encode(&self) -> Vec<u8> {
        let mut bytes = Vec::new();
        match self {
            Call::Record(record) | Call::RecordWith(record, _) => return record.clone(),
            Call::Timer(view) => wire::write_timer(&mut bytes, View(*view)),
            Call::Propose(name) | Call::ProposeWith(name, _) => wire::write_propose(&mut bytes, *name),
        }
        bytes
    }
}
