//! How much stack a call takes at most: calls are made over a stack that was painted, and the deepest changed word counts.

#![cfg(target_arch = "x86_64")]

use std::arch::asm;

use compare::{AnyCall, Expected, Kind, Library, Run, Step};
use oracle::lent::Rooms;
use oracle::{block_name, wire, Block, Certificate, Faults, Height, Settings, Timeout, View, Vote, CONTENTS};
use replica::raw;
use streams::{Call, DecisiveCall, DecisiveStream, NameCall, NameStream};

/// What a call may take. Measured: 81,888 bytes where a full store of one chain is released.
const BOUND: usize = 384 * 1024;
/// What the call that names the decisive timeout may take. Measured: 4,576 bytes.
const BOUND_OF_DECISIVE: usize = 8 * 1024;
/// What the call that names a block may take. Measured: 1,280 bytes.
const BOUND_OF_NAME: usize = 2 * 1024;
/// What is painted, and the thread's stack.
const PAINTED: usize = 512 * 1024;
const STACK: usize = 1024 * 1024;
const PAINT: u64 = 0x9D1F_3C55_A0B7_E246;

/// How many bytes of stack below this frame the call writes to.
#[inline(never)]
fn depth_of(call: impl FnOnce()) -> usize {
    let top: usize;
    // SAFETY: reads a register.
    unsafe { asm!("mov {}, rsp", out(reg) top, options(nomem, nostack, preserves_flags)) };
    let floor = top - PAINTED;
    for word in (floor..top - 8).step_by(8) {
        // SAFETY: below this frame lie more than PAINTED bytes of the thread's stack, and nothing there is in use.
        unsafe { (word as *mut u64).write_volatile(PAINT) };
    }
    call();
    // SAFETY: as above.
    let unchanged =
        (floor..top).step_by(8).take_while(|&word| unsafe { (word as *const u64).read_volatile() } == PAINT);
    PAINTED - 8 * unchanged.count()
}

/// The kinds of call.
const CALLS: [&str; 6] = ["open", "record", "timer", "propose", "record with contents", "propose with contents"];

/// The deepest call of each kind.
type Depths = [usize; CALLS.len()];

/// The depths of these calls.
fn depths(rooms: Rooms, steps: impl IntoIterator<Item = Step>) -> Depths {
    let mut library = Library::new(&rooms);
    let mut deepest = Depths::default();
    for step in steps {
        let kind = match step.call {
            AnyCall::Open(..) => 0,
            AnyCall::Call(Call::Record(_)) => 1,
            AnyCall::Call(Call::Timer(_)) => 2,
            AnyCall::Call(Call::Propose(_)) => 3,
            AnyCall::Call(Call::RecordWith(..)) => 4,
            AnyCall::Call(Call::ProposeWith(..)) => 5,
        };
        let depth = depth_of(|| {
            library.step(&step);
        });
        deepest[kind] = deepest[kind].max(depth);
    }
    deepest
}

fn on_a_thread<T: Send + 'static>(measure: impl FnOnce() -> T + Send + 'static) -> T {
    let thread = std::thread::Builder::new().stack_size(STACK).spawn(measure).expect("a thread");
    thread.join().expect("a depth")
}

fn higher(one: Depths, two: Depths) -> Depths {
    std::array::from_fn(|i| one[i].max(two[i]))
}

/// Prints the depths of the kinds that were called, so many; none is over the bound.
fn within_bound(title: &str, kinds: usize, deepest: Depths) {
    let called: Vec<_> = CALLS.into_iter().zip(deepest).filter(|(_, depth)| *depth > 0).collect();
    println!("{title}: {called:?} bytes of stack");
    assert_eq!(called.len(), kinds);
    assert!(called.iter().all(|(_, depth)| *depth <= BOUND));
}

/// The same call with the longest contents, if it takes any: those of the block that it proposes.
fn with_contents(rooms: &Rooms, step: &Step) -> Option<Step> {
    let contents = vec![0xC5; CONTENTS];
    let call = match &step.call {
        AnyCall::Call(Call::Propose(name)) => {
            let oracle = Expected::new(rooms.clone(), Faults::NONE);
            let block = oracle.replica.expect("a replica").proposed(*name).expect("a safe block that is held");
            Call::Propose(block_name(block.parent, block.height, &contents).expect("taken")).with(contents)
        }
        AnyCall::Call(call @ Call::Record(_)) => call.clone().with(contents),
        _ => return None,
    };
    Some(Step { lent: step.lent, call: AnyCall::Call(call) })
}

fn name(number: u64) -> [u8; 32] {
    let mut name = [7; 32];
    name[..8].copy_from_slice(&number.to_be_bytes());
    name
}

fn step(call: AnyCall) -> Step {
    Step { lent: Rooms::empty().lent, call }
}

fn record(write: impl FnOnce(&mut Vec<u8>)) -> Step {
    let mut record = Vec::new();
    write(&mut record);
    step(AnyCall::Call(Call::Record(record)))
}

fn vote(sender: u16, height: u64) -> Step {
    record(|out| wire::write_vote(out, sender, Vote { view: View(1), name: name(height) }))
}

/// The cluster of 32: replica 1 holds these blocks, and 29 of the 30 votes that release the block of this number; a
/// certificate of view 1 was formed, and it leads view 2.
fn before_release(parents: &[u64], number: u64) -> Rooms {
    let mut oracle = with_blocks([7, 5, 0, 32, 1], parents);
    (2..31).for_each(|sender| assert!(oracle.step(&vote(sender, number)).is_ok()));
    oracle.rooms
}

/// One chain of so many blocks: of each block its parent's number.
fn chain(blocks: u64) -> Vec<u64> {
    (0..blocks).collect()
}

/// The same, but the last but one stands on genesis.
fn chain_and_one_apart(blocks: u64) -> Vec<u64> {
    (0..blocks - 2).chain([0, blocks - 2]).collect()
}

/// A replica that was opened with these numbers and the list 0 to n−1, and holds blocks 1, 2, 3 and on with these
/// parents; 0 is genesis.
fn with_blocks(opening: [u64; 5], parents: &[u64]) -> Expected {
    let mut oracle = Expected::new(Rooms::empty(), Faults::NONE);
    let in_turn = (0..opening[3] as u8).collect();
    assert_eq!(oracle.step(&step(AnyCall::Open(opening, in_turn))), Ok(0));
    let mut heights = vec![0];
    for (number, &parent) in (1..).zip(parents) {
        let height = heights[parent as usize] + 1;
        heights.push(height);
        let parent = if parent == 0 { oracle::GENESIS } else { name(parent) };
        let block = Block { name: name(number), parent, height: Height(height) };
        assert_eq!(oracle.step(&record(|out| wire::write_block(out, 3, &block))), Ok(0));
    }
    oracle
}

/// A cluster of 32 with these settings: replica 4, which leads view 5, keeps a vote and a commit of each replica in each view
/// of its window, as `given` says for a view and a replica. The lock is so high that no certificate is formed.
fn many_decided_names([f, c, k]: [u64; 3], parents: &[u64], given: impl Fn(u64, u8) -> [[u8; 32]; 2]) -> Rooms {
    const VOTES: usize = 3_688;
    const COMMITS: usize = 11_944;
    const ROW: usize = 1_032;
    let mut rooms = with_blocks([f, c, k, 32, 4], parents).rooms;
    rooms.counters[..8].copy_from_slice(&5u64.to_le_bytes());
    rooms.counters[56..64].copy_from_slice(&View::MAX.0.to_le_bytes());
    for view in 1..=8 {
        for replica in 0..32 {
            for (rows, name) in [VOTES, COMMITS].into_iter().zip(given(view, replica)) {
                let row = &mut rooms.memory[rows + ROW * (view as usize % 8)..][..ROW];
                row[..4].fill(0xFF);
                row[8 + 32 * usize::from(replica)..][..32].copy_from_slice(&name);
            }
        }
    }
    rooms
}

/// A name that isn't held, below all that are.
fn lacking(number: u8) -> [u8; 32] {
    std::array::from_fn(|i| if i == 31 { number } else { 0 })
}

/// The last vote, put into memory by hand, so that any accepted call releases.
fn with_last_vote(mut rooms: Rooms, height: u64) -> Rooms {
    const ROW: usize = 3_688 + 1_032; // of view 1
    rooms.memory[ROW + 3] |= 1 << 7;
    rooms.memory[ROW + 8 + 32 * 31..][..32].copy_from_slice(&name(height));
    rooms
}

/// The last two of so many entries change places.
fn last_two_swapped(mut rooms: Rooms, entries: usize) -> Rooms {
    const ENTRY: usize = 72;
    let (front, last) = rooms.store.split_at_mut(ENTRY * (entries - 1));
    front[ENTRY * (entries - 2)..].swap_with_slice(&mut last[..ENTRY]);
    rooms
}

/// Runs of both kinds.
#[test]
fn stack_of_runs() {
    let mut deepest = Depths::default();
    for (kind, seeds) in [(Kind::Opened, 10), (Kind::Garbage, 300)] {
        for seed in 0..seeds {
            let run = Run { kind, seed };
            let steps = run.steps(kind.calls() as usize);
            deepest = higher(deepest, on_a_thread(move || depths(run.start(), steps)));
        }
    }
    within_bound("runs", CALLS.len(), deepest);
}

/// The depth of a call that releases up to this height at least, without contents and with.
fn depth_of_release(rooms: Rooms, step: Step, height: u64) -> Depths {
    let steps = [with_contents(&rooms, &step), Some(step)].into_iter().flatten();
    steps.fold(Depths::default(), |deepest, step| {
        let mut oracle = Expected::new(rooms.clone(), Faults::NONE);
        assert!(oracle.step(&step).is_ok());
        assert!(oracle.replica.expect("a replica").counters.tip.height >= Height(height));
        let rooms = rooms.clone();
        higher(deepest, on_a_thread(move || depths(rooms, [step])))
    })
}

/// In a full store the lowest block is released, or the highest of the chain, or one between. For propose there is a
/// place left.
fn depths_of_releases(title: &str, held: fn(u64) -> Vec<u64>, lent: fn(Rooms, usize) -> Rooms, released: &[u64]) {
    let mut deepest = Depths::default();
    for &number in released {
        let timer = step(AnyCall::Call(Call::Timer(2)));
        let propose = step(AnyCall::Call(Call::Propose([9; 32])));
        let below = number.min(127);
        for (rooms, step) in [
            (lent(before_release(&held(128), number), 128), vote(31, number)),
            (lent(with_last_vote(before_release(&held(128), number), number), 128), timer),
            (lent(with_last_vote(before_release(&held(127), below), below), 127), propose),
        ] {
            deepest = higher(deepest, depth_of_release(rooms, step, below.min(125)));
        }
    }
    within_bound(title, CALLS.len() - 1, deepest); // all but open
}

#[test]
fn stack_of_a_release_from_a_full_store() {
    depths_of_releases("one chain", chain, |rooms, _| rooms, &[1, 64, 126, 127, 128]);
}

#[test]
fn stack_of_a_release_with_a_block_apart() {
    depths_of_releases("one chain and a block apart", chain_and_one_apart, |rooms, _| rooms, &[1, 64]);
}

/// No run leads to this. A drop has a verdict for an entry whose parent stands before it; here the
/// last but one is walked all the way down, after all others.
#[test]
fn stack_of_a_drop_out_of_order() {
    depths_of_releases("one chain, its last two the wrong way round", chain, last_two_swapped, &[1, 64]);
}

/// With a slow release by one commit, as few as can be, by two, and by three.
const FEW_COMMITS: [[u64; 3]; 4] = [[0, 0, 31], [0, 1, 29], [1, 0, 28], [0, 2, 27]];

/// Of the decided names, one for every slow quorum of replicas and one by votes in each view, only the very last is held, on
/// a chain of so many blocks above the tip.
fn many_lacking_names(settings: [u64; 3], blocks: u64) -> Rooms {
    let [f, c, _] = settings;
    let slow = (2 * f + c + 1) as u8;
    let voted = |view| if view == 8 { name(blocks) } else { lacking(33) };
    many_decided_names(settings, &chain(blocks), |view, replica| [voted(view), lacking(replica / slow + 1)])
}

/// Rule D's longest search, by settings; the deepest inputs known are among them. For propose there is a place left in the
/// store.
#[test]
fn stack_of_the_longest_search() {
    let timeout = Timeout { sender: 2, view: View(5), high_vote: Vote::NONE, certificate: Certificate::GENESIS };
    for settings in FEW_COMMITS {
        let mut deepest = Depths::default();
        for (blocks, step) in [
            (128, record(|out| wire::write_timeout(out, &timeout))),
            (128, step(AnyCall::Call(Call::Timer(5)))),
            (127, step(AnyCall::Call(Call::Propose([9; 32])))),
        ] {
            deepest = higher(deepest, depth_of_release(many_lacking_names(settings, blocks), step, blocks));
        }
        within_bound(&format!("many decided names, {settings:?}"), CALLS.len() - 1, deepest);
    }
}

/// Nearly the same by a run: in view 5, which was entered by a certificate, every other replica commits to a name of its own in
/// each view of the window, and the last of these names is held.
#[test]
fn stack_of_a_long_search_from_an_opening() {
    let mut oracle = with_blocks([0, 0, 31, 32, 1], &chain(128));
    let commit = |sender, view, name| record(|out| wire::write_commit(out, sender, Vote { view: View(view), name }));
    let entry = Certificate::block(View(4), lacking(40), 0xFFFF_FFFF);
    assert!(oracle.step(&record(|out| wire::write_block_certificate(out, 0, &entry))).is_ok());
    for view in 1..=8 {
        for sender in (0..31).filter(|&sender| sender != 1) {
            assert_eq!(oracle.step(&commit(sender, view, lacking(sender as u8 + 1))), Ok(0));
        }
    }
    within_bound(
        "many decided names from an opening",
        2,
        depth_of_release(oracle.rooms, commit(31, 8, name(128)), 128),
    );
}

/// The most releases in one call: each block of the chain is decided by a commit of its own.
#[test]
fn stack_of_many_releases() {
    let committed = |view: u64, replica: u8| name(16 * (view - 1) + u64::from(replica) / 2 + 1);
    let rooms = many_decided_names([0, 0, 31], &chain_and_one_apart(128), |view, replica| {
        [lacking(1), committed(view, replica)]
    });
    within_bound("many releases", 1, depth_of_release(rooms, step(AnyCall::Call(Call::Timer(5))), 127));
}

/// The deepest of these calls.
fn depth_of_decisive(calls: Vec<DecisiveCall>) -> usize {
    on_a_thread(move || {
        let depth = |call: &DecisiveCall| {
            let [f, c, k, n] = call.settings;
            depth_of(|| {
                raw::decisive(replica::Settings { f, c, k, n }, &call.record);
            })
        };
        calls.iter().map(depth).max().expect("at least one call")
    })
}

/// A certificate of all replicas, of view 90, whose timeouts have what is given for each sender.
fn full_certificate(settings: Settings, given: impl Fn(u64) -> (Vote, Certificate)) -> DecisiveCall {
    let n = settings.n();
    let timeout = |sender: u32| {
        let (high_vote, certificate) = given(sender.into());
        Timeout { sender: sender as u16, view: View(90), high_vote, certificate }
    };
    let timeouts: Vec<Timeout> = (0..n).map(timeout).collect();
    let mut record = Vec::new();
    wire::write_timeout_certificate(&mut record, 0, View(90), &timeouts);
    let settings = [settings.f(), settings.c(), settings.k(), n].map(u64::from);
    DecisiveCall { settings, record }
}

/// Of all clusters of 32: certificates and high votes each above the one before, each below it, all of one name, or in
/// pairs. Where none is decisive each timeout is left out once.
fn full_certificates() -> Vec<DecisiveCall> {
    let vote = |number: u64| Vote { view: View(1 + number), name: name(number) };
    let weak = |number| Certificate::weak(View(1 + number), name(number), 0xFFFF_FFFF);
    let high_vote = |number| (vote(number), Certificate::GENESIS);
    let carried = |number| (Vote::NONE, weak(number));
    let largest = Settings::all().into_iter().filter(|settings| settings.n() == 32);
    let calls = largest.flat_map(|settings| {
        [
            full_certificate(settings, high_vote),
            full_certificate(settings, |sender| high_vote(31 - sender)),
            full_certificate(settings, |sender| high_vote(sender / 2)),
            full_certificate(settings, |_| high_vote(31)),
            full_certificate(settings, carried),
            full_certificate(settings, |sender| carried(31 - sender)),
            full_certificate(settings, |sender| (vote(31 - sender), weak(sender / 2))),
            full_certificate(settings, |_| (vote(40), weak(31))),
        ]
    });
    calls.collect()
}

/// The deepest inputs known are certificates of 32 timeouts.
#[test]
fn stack_of_decisive() {
    let seeded = (0..200).flat_map(|seed| DecisiveStream::new(seed).take(20));
    let full = full_certificates();
    assert!(full.iter().all(|call| call.make().is_ok()));
    let (seeded, full) = (depth_of_decisive(seeded.collect()), depth_of_decisive(full));
    println!("decisive: {seeded} bytes of stack in seeded calls, {full} with certificates of all of 32 replicas");
    assert!([seeded, full].iter().all(|&depth| depth > 0 && depth <= BOUND_OF_DECISIVE));
}

/// The deepest of these calls.
fn depth_of_name(calls: Vec<NameCall>) -> usize {
    on_a_thread(move || {
        let depth = |call: &NameCall| {
            let parent = replica::Name { bytes: call.parent };
            depth_of(|| {
                raw::name(parent, call.height.0, &call.contents);
            })
        };
        calls.iter().map(depth).max().expect("at least one call")
    })
}

/// Contents of every length that is taken, and with a byte too many.
#[test]
fn stack_of_name() {
    let mut taken: Vec<NameCall> = NameStream::new(0).take(raw::CONTENTS + 2).collect();
    let longer = taken.split_off(raw::CONTENTS + 1);
    assert!(taken.iter().all(|call| call.make().is_ok()) && longer.iter().all(|call| call.make().is_err()));
    let (taken, longer) = (depth_of_name(taken), depth_of_name(longer));
    println!("name: {taken} bytes of stack with contents that are taken, {longer} with longer ones");
    assert!([taken, longer].iter().all(|&depth| depth > 0 && depth <= BOUND_OF_NAME));
}
