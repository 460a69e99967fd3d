//! The library's calls on lent regions of any length and any content, and the two that touch no replica. No call has a
//! precondition: what is too short or breaks a rule gets refusal 2, and a refused call leaves every byte.

use crate::types::{Block, Counters, Name, Settings};

/// The least lengths that calls take: memory in bytes, store in blocks, output in bytes.
pub const MEMORY: usize = 34_568;
pub const STORE: usize = 128;
pub const OUTPUT: usize = 32_768;
/// The most entries of a leader list.
pub const LEADERS: usize = 64;
/// The most bytes of a block's contents.
pub const CONTENTS: usize = 4_096;

/// What a call answers: refusal 0 is acceptance with the number of bytes written.
#[derive(Clone, Copy, Debug, PartialEq, Eq)]
#[repr(C)]
pub struct Reply {
    pub refusal: u64,
    pub written: usize,
}

/// What [`decisive`] answers: refusal 0 is a good timeout certificate. `sender` is 0 where none is found.
#[derive(Clone, Copy, Debug, PartialEq, Eq)]
#[repr(C)]
pub struct Decisive {
    pub refusal: u64,
    pub found: bool,
    pub sender: u64,
}

/// What [`name`] answers: refusal 0 comes with the name. Where the contents are refused, the name is all zero.
#[derive(Clone, Copy, Debug, PartialEq, Eq)]
#[repr(C)]
pub struct Named {
    pub refusal: u64,
    pub name: Name,
}

/// What a host lends for a call.
pub struct Lent<'a> {
    pub counters: &'a mut Counters,
    pub memory: &'a mut [u8],
    pub store: &'a mut [Block],
    pub output: &'a mut [u8],
}

// A slice crosses as a pointer and a length; a reply comes back in two registers, a decisive timeout and a block's name
// through memory, and a name goes in on the stack.
extern "C" {
    fn hydrangea_open(
        counters: *mut Counters,
        memory: *mut u8,
        memory_length: usize,
        store: *const Block,
        store_length: usize,
        f: u64,
        c: u64,
        k: u64,
        n: u64,
        own: u64,
        leaders: *const u8,
        leaders_length: usize,
    ) -> Reply;

    fn hydrangea_record(
        counters: *mut Counters,
        memory: *mut u8,
        memory_length: usize,
        store: *mut Block,
        store_length: usize,
        output: *mut u8,
        output_length: usize,
        record: *const u8,
        record_length: usize,
    ) -> Reply;

    fn hydrangea_record_with(
        counters: *mut Counters,
        memory: *mut u8,
        memory_length: usize,
        store: *mut Block,
        store_length: usize,
        output: *mut u8,
        output_length: usize,
        record: *const u8,
        record_length: usize,
        contents: *const u8,
        contents_length: usize,
    ) -> Reply;

    fn hydrangea_timer(
        counters: *mut Counters,
        memory: *mut u8,
        memory_length: usize,
        store: *mut Block,
        store_length: usize,
        output: *mut u8,
        output_length: usize,
        view: u64,
    ) -> Reply;

    fn hydrangea_propose(
        counters: *mut Counters,
        memory: *mut u8,
        memory_length: usize,
        store: *mut Block,
        store_length: usize,
        output: *mut u8,
        output_length: usize,
        name: Name,
    ) -> Reply;

    fn hydrangea_propose_with(
        counters: *mut Counters,
        memory: *mut u8,
        memory_length: usize,
        store: *mut Block,
        store_length: usize,
        output: *mut u8,
        output_length: usize,
        name: Name,
        contents: *const u8,
        contents_length: usize,
    ) -> Reply;

    fn hydrangea_decisive(f: u64, c: u64, k: u64, n: u64, record: *const u8, record_length: usize) -> Decisive;

    fn hydrangea_name(parent: Name, height: u64, contents: *const u8, contents_length: usize) -> Named;
}

/// Opens a replica in what is lent, with a leader list of any bytes. The store's entries are left as they are.
pub fn open(
    counters: &mut Counters,
    memory: &mut [u8],
    store: &[Block],
    settings: Settings,
    own: u64,
    leaders: &[u8],
) -> Reply {
    let Settings { f, c, k, n } = settings;
    let (memory, memory_length) = (memory.as_mut_ptr(), memory.len());
    let (store, store_length) = (store.as_ptr(), store.len());
    let (leaders, leaders_length) = (leaders.as_ptr(), leaders.len());
    // SAFETY: each pointer is valid for its length, and a call reads and writes nothing else.
    unsafe {
        hydrangea_open(counters, memory, memory_length, store, store_length, f, c, k, n, own, leaders, leaders_length)
    }
}

/// A call on all that is lent.
macro_rules! call {
    ($function:ident, $lent:ident, $($input:expr),+) => {{
        let Lent { counters, memory, store, output } = $lent;
        let (memory, memory_length) = (memory.as_mut_ptr(), memory.len());
        let (store, store_length) = (store.as_mut_ptr(), store.len());
        let (output, output_length) = (output.as_mut_ptr(), output.len());
        // SAFETY: as above; the regions are borrowed for the call, so none overlaps another.
        unsafe { $function(*counters, memory, memory_length, store, store_length, output, output_length, $($input),+) }
    }};
}

impl Lent<'_> {
    /// A record of any bytes.
    pub fn record(&mut self, record: &[u8]) -> Reply {
        call!(hydrangea_record, self, record.as_ptr(), record.len())
    }

    /// The same with contents of any bytes.
    pub fn record_with(&mut self, record: &[u8], contents: &[u8]) -> Reply {
        call!(hydrangea_record_with, self, record.as_ptr(), record.len(), contents.as_ptr(), contents.len())
    }

    /// The timer of a view.
    pub fn timer(&mut self, view: u64) -> Reply {
        call!(hydrangea_timer, self, view)
    }

    /// A block of this name is proposed.
    pub fn propose(&mut self, name: Name) -> Reply {
        call!(hydrangea_propose, self, name)
    }

    /// The same with contents of any bytes.
    pub fn propose_with(&mut self, name: Name, contents: &[u8]) -> Reply {
        call!(hydrangea_propose_with, self, name, contents.as_ptr(), contents.len())
    }
}

/// Whose timeout decided a timeout certificate, a record of any bytes.
pub fn decisive(settings: Settings, record: &[u8]) -> Decisive {
    let Settings { f, c, k, n } = settings;
    // SAFETY: the pointer is valid for its length, and the call reads nothing else and writes nothing.
    unsafe { hydrangea_decisive(f, c, k, n, record.as_ptr(), record.len()) }
}

/// The name of a block with this parent, any height, and contents of any bytes.
pub fn name(parent: Name, height: u64, contents: &[u8]) -> Named {
    // SAFETY: the pointer is valid for its length, and the call reads nothing else and writes nothing.
    unsafe { hydrangea_name(parent, height, contents.as_ptr(), contents.len()) }
}

/// The counters as the bytes that they are.
pub fn counters_bytes(counters: &Counters) -> &[u8] {
    as_bytes(std::slice::from_ref(counters))
}

/// The same, to be written.
pub fn counters_bytes_mut(counters: &mut Counters) -> &mut [u8] {
    as_bytes_mut(std::slice::from_mut(counters))
}

/// Blocks as the bytes that they are, 72 each.
pub fn block_bytes(blocks: &[Block]) -> &[u8] {
    as_bytes(blocks)
}

/// The same, to be written.
pub fn block_bytes_mut(blocks: &mut [Block]) -> &mut [u8] {
    as_bytes_mut(blocks)
}

/// A type without gaps of which any bits are a value.
trait Plain {}
impl Plain for Counters {}
impl Plain for Block {}

const _: () = assert!(size_of::<Counters>() == 224 && size_of::<Block>() == 72);
const _: () = assert!(size_of::<Decisive>() == 24 && size_of::<Named>() == 40);

fn as_bytes<T: Plain>(items: &[T]) -> &[u8] {
    // SAFETY: a type that is plain has no byte that isn't set, and bytes need no alignment.
    unsafe { std::slice::from_raw_parts(items.as_ptr().cast(), size_of_val(items)) }
}

fn as_bytes_mut<T: Plain>(items: &mut [T]) -> &mut [u8] {
    // SAFETY: as above, and whatever bytes are written are a value.
    unsafe { std::slice::from_raw_parts_mut(items.as_mut_ptr().cast(), size_of_val(items)) }
}
