//! A replica with regions of its own.

use std::cmp::Reverse;
use std::fmt;

use crate::contents::Contents;
use crate::raw::{self, Lent, Reply};
use crate::record::{leader_after, u16_at, Progress, Receiver, Record};
use crate::refusal::Refusal;
use crate::types::{Block, Certificate, Counters, Name, Settings, View, Vote};

/// A name that is no digest of contents that anyone knows.
const UNUSED: Name = Name { bytes: [0xFF; 32] };

/// One replica: its state and the output of its last call.
///
/// It can't be cloned: two that go on from one state may vote twice. A host that stops and resumes uses [`Replica::save`]
/// and [`Replica::restore`].
///
/// ```compile_fail,E0599
/// # use replica::{Replica, Settings};
/// # let replica = Replica::open(Settings { f: 1, c: 1, k: 0, n: 6 }, 0, &[0, 1, 2, 3, 4, 5]).unwrap();
/// let second = replica.clone();
/// ```
pub struct Replica {
    counters: Counters,
    memory: Box<[u8]>,
    store: Box<[Block]>,
    output: Box<[u8]>,
}

impl Replica {
    /// How many bytes [`Replica::save`] gives.
    pub const SAVED: usize = size_of::<Counters>() + raw::MEMORY + raw::STORE * size_of::<Block>();

    /// Opens the replica `own` of a cluster. Each number is opened once, all with the same settings and the same leader list:
    /// 1 to 64 replica numbers, and the leader of view v is entry (v − 1) mod its length. A replica may stand in it several
    /// times or not at all; [`Settings::in_turn`] has each once.
    ///
    /// ```
    /// use replica::{Refusal, Replica, Settings, View};
    ///
    /// let settings = Settings { f: 1, c: 1, k: 0, n: 6 };
    /// let leaders = settings.in_turn();
    /// assert!(Replica::open(settings, 5, &leaders).is_ok());
    /// assert_eq!(Replica::open(settings, 6, &leaders).err(), Some(Refusal::Settings));
    /// assert_eq!(Replica::open(Settings { n: 7, ..settings }, 0, &leaders).err(), Some(Refusal::Settings));
    /// ```
    ///
    /// Replica 0 leads every other view:
    ///
    /// ```
    /// # use replica::{Refusal, Replica, Settings, View};
    /// # let settings = Settings { f: 1, c: 1, k: 0, n: 6 };
    /// let replica = Replica::open(settings, 5, &[0, 1, 0, 2])?;
    /// assert_eq!([1, 2, 3, 4, 5].map(|view| replica.leader(View(view))), [0, 1, 0, 2, 0].map(Some));
    /// assert_eq!(Replica::open(settings, 5, &[]).err(), Some(Refusal::Settings));
    /// assert_eq!(Replica::open(settings, 5, &[0, 6]).err(), Some(Refusal::Settings));
    /// # Ok::<(), Refusal>(())
    /// ```
    pub fn open(settings: Settings, own: u64, leaders: &[u8]) -> Result<Replica, Refusal> {
        let mut replica = Replica::empty();
        accept(raw::open(&mut replica.counters, &mut replica.memory, &replica.store, settings, own, leaders))?;
        Ok(replica)
    }

    /// Regions that hold no replica yet.
    fn empty() -> Replica {
        Replica {
            counters: Counters::default(),
            memory: vec![0; raw::MEMORY].into(),
            store: vec![Block::default(); raw::STORE].into(),
            output: vec![0; raw::OUTPUT].into(),
        }
    }

    /// Takes a record of any bytes. Its signatures, those inside it too, are checked before.
    ///
    /// ```
    /// # use replica::{Refusal, Replica, Settings};
    /// # let mut replica = Replica::open(Settings { f: 1, c: 1, k: 0, n: 6 }, 0, &[0, 1, 2, 3, 4, 5]).unwrap();
    /// assert_eq!(replica.record(b"no record").err(), Some(Refusal::Length));
    /// ```
    pub fn record(&mut self, record: &[u8]) -> Result<Accepted<'_>, Refusal> {
        let reply = self.lent().record(record);
        self.accepted(reply)
    }

    /// Takes a record of any bytes that comes with contents. Of a proposal (kind 7) or a block (kind 8) they are the block's,
    /// and the call checks that its name is [`block_name`](crate::block_name) of its parent, its height and them: if not,
    /// it is refused by [`Refusal::NameWrong`], held or not. Beside any other kind only their length is judged.
    ///
    /// Where every honest replica of a cluster takes only blocks that come with their contents, no name has two parents or
    /// two heights as long as no two blocks have one digest.
    ///
    /// ```
    /// use replica::{block_name, Contents, Height, Name, Refusal, Replica, Settings};
    ///
    /// # let mut replica = Replica::open(Settings { f: 1, c: 1, k: 0, n: 6 }, 0, &[0, 1, 2, 3, 4, 5])?;
    /// let name = block_name(Name::GENESIS, Height(1), b"title 7 issued")?;
    /// let mut block = [0; 80];
    /// block[..8].copy_from_slice(&[80, 0, 0, 0, 8, 0, 2, 0]); // length 80, kind 8, sender 2
    /// block[8..40].copy_from_slice(&name.bytes); // on genesis, whose name is zeros
    /// block[72] = 1; // its height
    /// assert_eq!(replica.record_with(&block, Contents(b"title 8 issued")).err(), Some(Refusal::NameWrong));
    /// assert_eq!(replica.record_with(&block, Contents(b"")).err(), Some(Refusal::NameWrong));
    /// assert!(replica.record_with(&block, Contents(b"title 7 issued")).is_ok());
    /// assert_eq!(replica.held()[0].name, name);
    /// # Ok::<(), Refusal>(())
    /// ```
    pub fn record_with(&mut self, record: &[u8], contents: Contents<'_>) -> Result<Accepted<'_>, Refusal> {
        let reply = self.lent().record_with(record, contents.0);
        self.accepted(reply)
    }

    /// The clock of a view ran out.
    ///
    /// ```
    /// # use replica::{Refusal, Replica, Settings, View};
    /// # let mut replica = Replica::open(Settings { f: 1, c: 1, k: 0, n: 6 }, 0, &[0, 1, 2, 3, 4, 5]).unwrap();
    /// assert!(replica.timer(View(1)).is_ok());
    /// assert_eq!(replica.timed(), View(1));
    /// assert_eq!(replica.timer(View(1)).err(), Some(Refusal::Repeated));
    /// ```
    ///
    /// A height is no view:
    ///
    /// ```compile_fail,E0308
    /// # use replica::{Height, Refusal, Replica, Settings, View};
    /// # let mut replica = Replica::open(Settings { f: 1, c: 1, k: 0, n: 6 }, 0, &[0, 1, 2, 3, 4, 5]).unwrap();
    /// assert!(replica.timer(Height(1)).is_ok());
    /// ```
    pub fn timer(&mut self, view: View) -> Result<Accepted<'_>, Refusal> {
        let reply = self.lent().timer(view.0);
        self.accepted(reply)
    }

    /// Proposes a block of this name in the current view, on the safe block of [`Replica::entry`]. No one checks how the name
    /// was made: it has one parent and one height, or the host sees to it. [`Replica::propose_contents`] makes the name.
    ///
    /// ```
    /// # use replica::{Content, Name, Replica, Settings};
    /// # let mut replica = Replica::open(Settings { f: 1, c: 1, k: 0, n: 6 }, 0, &[0, 1, 2, 3, 4, 5]).unwrap();
    /// let output = replica.propose(Name { bytes: [1; 32] })?.unsaved();
    /// let written: Vec<Content> = output.records().map(|record| record.content).collect();
    /// assert!(matches!(written[..], [Content::Proposal(_), Content::Vote(_)]));
    /// # Ok::<(), replica::Refusal>(())
    /// ```
    pub fn propose(&mut self, name: Name) -> Result<Accepted<'_>, Refusal> {
        let reply = self.lent().propose(name);
        self.accepted(reply)
    }

    /// The same for a name that was made from these contents: the call checks that it is [`block_name`](crate::block_name) of
    /// the safe block, the height above it and them, and refuses it by [`Refusal::NameWrong`] if not.
    ///
    /// ```
    /// # use replica::{block_name, Contents, Height, Name, Refusal, Replica, Settings};
    /// # let mut replica = Replica::open(Settings { f: 1, c: 1, k: 0, n: 6 }, 0, &[0, 1, 2, 3, 4, 5]).unwrap();
    /// let contents = Contents(b"title 7 issued");
    /// let name = block_name(Name::GENESIS, Height(1), contents.0)?;
    /// let other = block_name(name, Height(2), contents.0)?; // not on genesis, which is the safe block
    /// assert_eq!(replica.propose_with(other, contents).err(), Some(Refusal::NameWrong));
    /// assert!(replica.propose_with(name, contents).is_ok());
    /// # Ok::<(), Refusal>(())
    /// ```
    pub fn propose_with(&mut self, name: Name, contents: Contents<'_>) -> Result<Accepted<'_>, Refusal> {
        let reply = self.lent().propose_with(name, contents.0);
        self.accepted(reply)
    }

    /// Proposes a block with these contents. Its name is made by the library, and comes back with what the call wrote: a host
    /// needs no hash of its own, and doesn't ask which block is safe.
    ///
    /// The safe block is held and named in the entry certificate, or the call is refused by [`Refusal::ParentMissing`]. The
    /// name is made on each block that may be it, and the library takes the one that is right: on any other block it isn't
    /// the digest, and a refused call changes nothing. If the safe block is held and so is the block that these contents make
    /// on it, the refusal is [`Refusal::Conflicting`].
    ///
    /// ```
    /// use replica::{Contents, Content, Refusal, Replica, Settings};
    ///
    /// let settings = Settings { f: 1, c: 1, k: 0, n: 6 };
    /// let mut leader = Replica::open(settings, 0, &settings.in_turn())?;
    /// let (name, accepted) = leader.propose_contents(Contents(b"title 7 issued"))?;
    /// let Some(Content::Proposal(proposal)) = accepted.unsaved().records().next().map(|record| record.content) else {
    ///     panic!("what is proposed is written first");
    /// };
    /// assert_eq!(proposal.block.name, name);
    /// assert_eq!(leader.propose_contents(Contents(b"title 8 issued")).err(), Some(Refusal::Turn)); // one a view
    /// # Ok::<(), Refusal>(())
    /// ```
    pub fn propose_contents(&mut self, contents: Contents<'_>) -> Result<(Name, Accepted<'_>), Refusal> {
        for parent in self.possible_parents() {
            // Of contents that are too long the name is zero, and the call refuses them in its own order.
            let name = raw::name(parent.name, parent.height.0.wrapping_add(1), contents.0).name;
            let reply = self.lent().propose_with(name, contents.0);
            if !matches!(accept(reply), Err(Refusal::NameWrong | Refusal::Conflicting)) {
                return self.accepted(reply).map(|accepted| (name, accepted));
            }
        }
        // What they make on the safe block is held, or that block is missing: another name says which.
        match self.propose_with(UNUSED, contents) {
            Err(Refusal::NameWrong) => Err(Refusal::Conflicting),
            reply => reply.map(|accepted| (UNUSED, accepted)),
        }
    }

    /// Held blocks that the entry certificate names, the highest first: its safe block is one of them, if it is held. If none
    /// is, it is the tip, on which the call is refused as on any other.
    fn possible_parents(&self) -> Vec<Block> {
        let names = self.entry().map(|entry| entry.names()).unwrap_or_default();
        let held = [self.tip()].into_iter().chain(self.held().iter().copied());
        let mut named: Vec<Block> = held.filter(|block| names.contains(&block.name)).collect();
        named.sort_by_key(|block| Reverse(block.height));
        if named.is_empty() {
            named.push(self.tip());
        }
        named
    }

    fn lent(&mut self) -> Lent<'_> {
        Lent {
            counters: &mut self.counters,
            memory: &mut self.memory,
            store: &mut self.store,
            output: &mut self.output,
        }
    }

    fn accepted(&self, reply: Reply) -> Result<Accepted<'_>, Refusal> {
        let written = accept(reply)?;
        Ok(Accepted { replica: self, bytes: self.output.get(..written).unwrap_or_default() })
    }

    /// The current view.
    pub fn view(&self) -> View {
        self.counters.view
    }

    /// The highest view that a timeout was sent for, 0 if none was.
    pub fn timed(&self) -> View {
        self.counters.timed
    }

    /// The last vote sent.
    pub fn high_vote(&self) -> Option<Vote> {
        (self.counters.high_vote.view > View(0)).then_some(self.counters.high_vote)
    }

    /// The highest block certificate adopted; at first the genesis certificate, of view 0.
    pub fn lock(&self) -> Certificate {
        self.counters.lock
    }

    /// The highest weak certificate adopted.
    pub fn best_weak(&self) -> Option<Certificate> {
        (self.counters.best_weak.view > View(0)).then_some(self.counters.best_weak)
    }

    /// The last block released; at first genesis.
    pub fn tip(&self) -> Block {
        self.counters.tip
    }

    /// All counters.
    pub fn counters(&self) -> &Counters {
        &self.counters
    }

    /// The blocks held above the tip, in the order in which they came.
    pub fn held(&self) -> &[Block] {
        let count = usize::from(self.number_at(8));
        self.store.get(..count).unwrap_or_default()
    }

    /// The certificate by which the current view was entered; at first the genesis certificate.
    ///
    /// ```
    /// # use replica::{Certificate, Progress, Replica, Settings};
    /// # let replica = Replica::open(Settings { f: 1, c: 1, k: 0, n: 6 }, 0, &[0, 1, 2, 3, 4, 5]).unwrap();
    /// assert_eq!(replica.entry(), Some(Progress::Block(Certificate::default())));
    /// ```
    pub fn entry(&self) -> Option<Progress<'_>> {
        let length = usize::from(self.number_at(10));
        Progress::read(self.memory.get(80..)?.get(..length)?)
    }

    /// The cluster's settings.
    pub fn settings(&self) -> Settings {
        let [f, c, k] = [0, 2, 4].map(|at| u64::from(self.number_at(at)));
        Settings { f, c, k, n: 3 * f + 2 * c + k + 1 }
    }

    /// The replica's own number.
    pub fn own(&self) -> u16 {
        self.number_at(6)
    }

    /// The leader list that it was opened with.
    pub fn leaders(&self) -> &[u8] {
        let length = usize::from(self.number_at(12));
        self.memory.get(16..).and_then(|place| place.get(..length)).unwrap_or_default()
    }

    /// Who leads a view; nobody leads view 0.
    ///
    /// ```
    /// # use replica::{Replica, Settings, View};
    /// # let replica = Replica::open(Settings { f: 1, c: 1, k: 0, n: 6 }, 0, &[0, 1, 2, 3, 4, 5]).unwrap();
    /// assert_eq!(replica.leader(replica.view()), Some(replica.own()));
    /// assert_eq!(replica.leader(View(0)), None);
    /// ```
    pub fn leader(&self, view: View) -> Option<u16> {
        leader_after(self.leaders(), View(view.0.checked_sub(1)?))
    }

    /// A number in the head of the memory.
    fn number_at(&self, at: usize) -> u16 {
        u16_at(&self.memory, at).unwrap_or_default()
    }

    /// The whole state as bytes: counters, memory, store. The output isn't part of it.
    ///
    /// ```
    /// # use replica::{Name, Replica, Settings};
    /// # let mut replica = Replica::open(Settings { f: 1, c: 1, k: 0, n: 6 }, 0, &[0, 1, 2, 3, 4, 5])?;
    /// # let name = Name { bytes: [1; 32] };
    /// let saved = replica.propose(name)?.replica().save();
    /// let resumed = Replica::restore(&saved)?;
    /// assert_eq!(resumed.high_vote(), replica.high_vote());
    /// assert_eq!(resumed.save(), saved);
    /// # Ok::<(), replica::Refusal>(())
    /// ```
    pub fn save(&self) -> Vec<u8> {
        [raw::counters_bytes(&self.counters), &self.memory, raw::block_bytes(&self.store)].concat()
    }

    /// A replica that goes on from what was saved after its last finished call; from an older save it may vote twice. Refusal
    /// 2 where the length isn't that of a save or the content breaks a rule. Other damage isn't noticed here.
    ///
    /// ```
    /// # use replica::{Refusal, Replica};
    /// assert_eq!(Replica::restore(b"cut off").err(), Some(Refusal::Regions));
    /// assert_eq!(Replica::restore(&[0; Replica::SAVED]).err(), Some(Refusal::Regions));
    /// ```
    pub fn restore(saved: &[u8]) -> Result<Replica, Refusal> {
        if saved.len() != Replica::SAVED {
            return Err(Refusal::Regions);
        }
        let mut replica = Replica::empty();
        let (counters, rest) = saved.split_at(size_of::<Counters>());
        let (memory, store) = rest.split_at(raw::MEMORY);
        raw::counters_bytes_mut(&mut replica.counters).copy_from_slice(counters);
        replica.memory.copy_from_slice(memory);
        raw::block_bytes_mut(&mut replica.store).copy_from_slice(store);
        replica.judge_regions()?;
        Ok(replica)
    }

    /// Whether the content passes refusal 2. The timer of view 0 is refused in any case, and by 2 first.
    fn judge_regions(&mut self) -> Result<(), Refusal> {
        match accept(self.lent().timer(0)) {
            Err(Refusal::Regions) => Err(Refusal::Regions),
            _ => Ok(()),
        }
    }
}

/// Who it is and where it stands.
impl fmt::Debug for Replica {
    fn fmt(&self, f: &mut fmt::Formatter<'_>) -> fmt::Result {
        f.debug_struct("Replica")
            .field("settings", &self.settings())
            .field("own", &self.own())
            .field("leaders", &self.leaders())
            .field("counters", &self.counters)
            .field("held", &self.held().len())
            .finish_non_exhaustive()
    }
}

/// The bytes written, or the refusal.
fn accept(reply: Reply) -> Result<usize, Refusal> {
    Refusal::judge(reply.refusal).map(|()| reply.written)
}

/// An accepted call. The state is saved before any byte that it wrote is sent; so the output is only to be had by
/// saying how the state is saved, or that it isn't.
///
/// ```
/// # use replica::{Refusal, Replica, Settings, View};
/// # let mut replica = Replica::open(Settings { f: 1, c: 1, k: 0, n: 6 }, 0, &[0, 1, 2, 3, 4, 5]).unwrap();
/// let mut disk = Vec::new();
/// let written = replica.timer(View(1))?.saved(|state| std::io::Write::write_all(&mut disk, &state.save()));
/// assert_eq!(written.map(|output| output.bytes().len()).ok(), Some(112));
/// assert_eq!(disk, replica.save());
/// # Ok::<(), Refusal>(())
/// ```
#[derive(Debug)]
#[must_use = "save the state, then send what was written"]
pub struct Accepted<'a> {
    replica: &'a Replica,
    bytes: &'a [u8],
}

impl<'a> Accepted<'a> {
    /// The replica after the call.
    pub fn replica(&self) -> &'a Replica {
        self.replica
    }

    /// Saves the state; the output, if that succeeded.
    pub fn saved<E>(self, save: impl FnOnce(&Replica) -> Result<(), E>) -> Result<Output<'a>, E> {
        save(self.replica)?;
        Ok(self.unsaved())
    }

    /// The output, for a host that never resumes this replica.
    pub fn unsaved(self) -> Output<'a> {
        Output { bytes: self.bytes, leaders: self.replica.leaders() }
    }
}

/// What a call wrote. It stands until the next call.
///
/// ```compile_fail,E0499
/// # use replica::{Replica, Settings, View};
/// # let mut replica = Replica::open(Settings { f: 1, c: 1, k: 0, n: 6 }, 0, &[0, 1, 2, 3, 4, 5]).unwrap();
/// let output = replica.timer(View(1)).unwrap().unsaved();
/// let _ = replica.timer(View(2));
/// println!("{}", output.bytes().len());
/// ```
#[derive(Clone, Copy, Debug)]
#[must_use = "what was written is to be sent"]
pub struct Output<'a> {
    bytes: &'a [u8],
    leaders: &'a [u8],
}

impl<'a> Output<'a> {
    /// All records, one behind the other.
    pub fn bytes(&self) -> &'a [u8] {
        self.bytes
    }

    /// Record by record.
    pub fn records(&self) -> impl Iterator<Item = Record<'a>> {
        let mut rest = self.bytes;
        std::iter::from_fn(move || {
            let (record, left) = Record::cut(rest)?;
            rest = left;
            Some(record)
        })
    }

    /// Record by record, with the one whom it goes to.
    pub fn sendings(&self) -> impl Iterator<Item = (Receiver, Record<'a>)> {
        let leaders = self.leaders;
        self.records().map(move |record| (record.receiver(leaders), record))
    }
}
