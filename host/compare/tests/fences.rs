//! No call reads or writes a byte outside of what it is lent: each region stands against a page that can't be touched,
//! once with its first byte and once with its last.

#![cfg(all(target_os = "linux", target_arch = "x86_64"))]

use std::ffi::{c_int, c_long, c_void};
use std::hint::black_box;
use std::marker::PhantomData;
use std::os::unix::process::ExitStatusExt;
use std::process::Command;

use compare::{AnyCall, Kind, Library, Run, Step};
use replica::raw::{self, Lent, Reply};
use replica::{Block, Counters, Name, Settings};
use streams::{Call, DecisiveStream, NameStream};

extern "C" {
    fn mmap(at: *mut c_void, length: usize, allow: c_int, flags: c_int, file: c_int, offset: c_long) -> *mut c_void;
    fn mprotect(at: *mut c_void, length: usize, allow: c_int) -> c_int;
}

const PAGE: usize = 4096;
const NOTHING: c_int = 0;
const READ_AND_WRITE: c_int = 3;
const PRIVATE_AND_EMPTY: c_int = 0x22;
const SEGMENTATION_FAULT: c_int = 11;

/// Room for items of a type of which any bits are a value, between two pages that can't be touched.
struct Fenced<T> {
    first: *mut u8,
    bytes: usize,
    items: PhantomData<T>,
}

impl<T: Copy> Fenced<T> {
    fn new(most: usize) -> Fenced<T> {
        let bytes = (most * size_of::<T>()).next_multiple_of(PAGE);
        // SAFETY: new pages, of which those between the fences are opened.
        let first = unsafe {
            let fence = mmap(std::ptr::null_mut(), bytes + 2 * PAGE, NOTHING, PRIVATE_AND_EMPTY, -1, 0);
            assert_ne!(fence as isize, -1, "pages");
            let first = fence.cast::<u8>().add(PAGE);
            assert_eq!(mprotect(first.cast(), bytes, READ_AND_WRITE), 0);
            first
        };
        Fenced { first, bytes, items: PhantomData }
    }

    /// These items, against the fence behind or the one before them.
    fn hold(&mut self, items: &[T], behind: bool) -> &mut [T] {
        let length = size_of_val(items);
        assert!(length <= self.bytes);
        let gap = if behind { self.bytes - length } else { 0 };
        // SAFETY: inside the open pages, borrowed with self, and aligned: pages are, and so is a whole number of items
        // before their end.
        let place = unsafe { std::slice::from_raw_parts_mut(self.first.add(gap).cast::<T>(), items.len()) };
        place.copy_from_slice(items);
        place
    }
}

struct Regions {
    counters: Fenced<Counters>,
    memory: Fenced<u8>,
    store: Fenced<Block>,
    output: Fenced<u8>,
    record: Fenced<u8>,
    contents: Fenced<u8>,
    leaders: Fenced<u8>,
}

impl Regions {
    fn new() -> Regions {
        Regions {
            counters: Fenced::new(1),
            memory: Fenced::new(2 * raw::MEMORY),
            store: Fenced::new(2 * raw::STORE),
            output: Fenced::new(2 * raw::OUTPUT),
            record: Fenced::new(1 << 17),
            contents: Fenced::new(1 << 17),
            leaders: Fenced::new(PAGE),
        }
    }

    /// The call on copies of what the library has; what it leaves in them.
    fn step(&mut self, library: &Library, step: &Step, behind: bool) -> (Reply, [Vec<u8>; 4]) {
        let (counters, memory, store, output) = library.lent(step.lent);
        let lent = &mut Lent {
            counters: &mut self.counters.hold(&[counters], behind)[0],
            memory: self.memory.hold(memory, behind),
            store: self.store.hold(store, behind),
            output: self.output.hold(output, behind),
        };
        let reply = match &step.call {
            AnyCall::Open([f, c, k, n, own], leaders) => {
                let settings = Settings { f: *f, c: *c, k: *k, n: *n };
                let leaders = self.leaders.hold(leaders, behind);
                raw::open(lent.counters, lent.memory, lent.store, settings, *own, leaders)
            }
            AnyCall::Call(Call::Record(bytes)) => lent.record(self.record.hold(bytes, behind)),
            AnyCall::Call(Call::Timer(view)) => lent.timer(*view),
            AnyCall::Call(Call::Propose(name)) => lent.propose(Name { bytes: *name }),
            AnyCall::Call(Call::RecordWith(bytes, contents)) => {
                let (record, held) = (self.record.hold(bytes, behind), self.contents.hold(contents, behind));
                let reply = lent.record_with(record, held);
                assert!(black_box(record) == bytes && black_box(held) == contents); // else they count as unchanged
                reply
            }
            AnyCall::Call(Call::ProposeWith(name, contents)) => {
                let held = self.contents.hold(contents, behind);
                let reply = lent.propose_with(Name { bytes: *name }, held);
                assert!(black_box(held) == contents);
                reply
            }
        };
        let left = [
            raw::counters_bytes(lent.counters).to_vec(),
            lent.memory.to_vec(),
            raw::block_bytes(lent.store).to_vec(),
            lent.output.to_vec(),
        ];
        (reply, left)
    }
}

/// The fences stand: a child that touches the byte behind or before a region is ended by the system.
#[test]
fn fences_stand() {
    const TOUCH: &str = "FENCES_TOUCH";
    if let Ok(place) = std::env::var(TOUCH) {
        let region = Fenced::<u8>::new(1);
        let at = if place == "behind" { region.bytes as isize } else { -1 };
        // SAFETY: none: this is what must end the process.
        unsafe { region.first.offset(at).read_volatile() };
        return;
    }
    for place in ["behind", "before"] {
        let mut child = Command::new(std::env::current_exe().expect("this test"));
        let ended = child.args(["--exact", "fences_stand"]).env(TOUCH, place).output().expect("a child");
        assert_eq!(ended.status.signal(), Some(SEGMENTATION_FAULT));
    }
}

/// A call that went over a fence would end the test; each must also leave what it leaves elsewhere.
#[test]
fn calls_stay_inside_what_is_lent() {
    let mut regions = Regions::new();
    for (kind, seeds) in [(Kind::Opened, 4), (Kind::Garbage, 200)] {
        for seed in 0..seeds {
            let run = Run { kind, seed };
            let mut library = Library::new(&run.start());
            for step in run.steps(kind.calls() as usize) {
                let fenced = [true, false].map(|behind| regions.step(&library, &step, behind));
                let reply = library.step(&step);
                let (counters, memory, store, output) = library.lent(step.lent);
                let left = [raw::counters_bytes(&counters), memory, raw::block_bytes(store), output];
                for (fenced_reply, fenced_left) in fenced {
                    assert!(fenced_reply == reply && fenced_left == left, "{run}: {step}");
                }
            }
        }
    }
}

/// The same of the call that names the decisive timeout, which is lent a record alone.
#[test]
fn decisive_stays_inside_the_record() {
    let mut fenced = Fenced::new(1 << 17);
    for call in (0..400).flat_map(|seed| DecisiveStream::new(seed).take(20)) {
        let [f, c, k, n] = call.settings;
        let settings = Settings { f, c, k, n };
        let answer = raw::decisive(settings, &call.record);
        for behind in [true, false] {
            assert_eq!(raw::decisive(settings, fenced.hold(&call.record, behind)), answer, "{call:?}");
        }
    }
}

/// The same of the call that names a block, which is lent its contents alone and leaves them.
#[test]
fn name_stays_inside_the_contents() {
    let mut fenced = Fenced::new(2 * raw::CONTENTS);
    for call in NameStream::new(0) {
        let name = |contents: &[u8]| raw::name(Name { bytes: call.parent }, call.height.0, contents);
        let answer = name(&call.contents);
        for behind in [true, false] {
            let contents = fenced.hold(&call.contents, behind);
            assert_eq!(name(contents), answer, "{call:?}");
            assert_eq!(black_box(contents), call.contents); // else what is lent for reading counts as unchanged
        }
    }
}
