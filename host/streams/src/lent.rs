//! Inputs of the program over lent regions (`oracle::lent`): states of any bytes that refusal 2 lets by, and some that
//! it doesn't, with calls that fit each.

use std::fmt;
use std::ops::Range;

use oracle::lent::{Rooms, MEMORY_ROOM, OUTPUT_ROOM, STORE_ROOM};
use oracle::{literal, regions, wire, Refusal, Replica, Reply, Settings, Store, View};

use crate::call::Call;
use crate::coverage::Coverage;
use crate::garbage::garbage;
use crate::input::play;
use crate::opening::Opening;
use crate::random::Random;
use crate::stream::Stream;

/// The most that a call writes: event 3,744, A 4·112, B 4·3,608, C 8·104, D 128·56.
const MOST_WRITTEN: usize = 3_744 + 4 * 112 + 4 * 3_608 + 8 * 104 + 128 * 56;

/// What the calls of some inputs came upon.
#[derive(Clone, Debug, Default)]
pub struct LentCoverage {
    pub calls: Coverage,
    /// How often each of the rules A to D ran.
    pub ran: literal::Ran,
    pub states: u64,
    /// States that refusal 2 turns away.
    pub turned_away: u64,
    /// Those among them whose settings have an n over 32.
    pub too_many: u64,
    /// Openings accepted and refused.
    pub openings: [u64; 2],
}

impl fmt::Display for LentCoverage {
    fn fmt(&self, f: &mut fmt::Formatter<'_>) -> fmt::Result {
        let [a, b, c, d] = self.ran;
        let [opened, not_opened] = self.openings;
        writeln!(f, "{}", self.calls)?;
        writeln!(f, "rules run: A {a}, B {b}, C {c}, D {d}")?;
        writeln!(f, "openings: {opened} accepted, {not_opened} refused")?;
        write!(f, "{} states, {} of them turned away by 2, ", self.states, self.turned_away)?;
        write!(f, "{} for an n over 32", self.too_many)
    }
}

/// States for these seeds, and so many calls on each.
pub fn lent_input(seeds: Range<u64>, calls: usize, coverage: &mut LentCoverage) -> Vec<u8> {
    seeds.flat_map(|seed| state_and_calls(seed, calls, coverage)).collect()
}

fn state_and_calls(seed: u64, calls: usize, coverage: &mut LentCoverage) -> Vec<u8> {
    let mut random = Random::new(seed ^ 0x6C65_6E74);
    let opening = if random.chance(40) { Opening::seeded(seed) } else { Opening::any(&mut random) };
    let opening = opening.led(&mut random);
    let mut rooms = garbage_rooms(opening, &mut random);
    let sound = garbage(opening, &mut random); // for calls on a state that is turned away
    let mut stream = Stream::restless(seed);
    let mut bytes = rooms.encode(seed);
    coverage.states += 1;
    let turned_away = rooms.step(&Call::Timer(0).encode()) == Err(Refusal::Regions); // refused in any case
    coverage.turned_away += u64::from(turned_away);
    coverage.too_many += u64::from(turned_away && has_too_many(&rooms));
    let (calls, openings) = if turned_away { (calls.min(6), 15) } else { (calls, 1) };
    for _ in 0..calls {
        let before = rooms.regions().load();
        if random.chance(openings) {
            let record = any_opening(opening, &mut random);
            let reply = rooms.step(&record);
            coverage.openings[usize::from(reply.is_err())] += 1;
            bytes.extend_from_slice(&record);
            continue;
        }
        let call = framed(&mut stream, before.as_ref().unwrap_or(&sound));
        let record = call.encode();
        let reply = rooms.step(&record);
        count(coverage, before, &call, reply, &mut rooms);
        bytes.extend_from_slice(&record);
    }
    bytes
}

/// Whether the settings in memory have an n over 32.
fn has_too_many(rooms: &Rooms) -> bool {
    let [f, c, k] = [0, 2, 4].map(|at| u64::from(wire::u16_at(&rooms.memory, at)));
    3 * f + 2 * c + k + 1 > Settings::MAX_N as u64
}

/// The next call that the program takes as such: its record can be cut off by its length field, and no record has a kind
/// of the program's own.
fn framed(stream: &mut Stream, replica: &Replica) -> Call {
    loop {
        let call = stream.next(replica);
        let record = call.encode();
        let cut_off =
            (wire::HEADER..=wire::LONGEST).contains(&record.len()) && wire::u32_at(&record, 0) as usize == record.len();
        let own_kind = matches!(call, Call::Record(_))
            && cut_off
            && (wire::kind::TIMER..=wire::kind::OPENING).contains(&wire::kind_of(&record));
        if cut_off && !own_kind {
            return call;
        }
    }
}

/// An opening over what is lent: mostly one that is accepted.
fn any_opening(opening: Opening, random: &mut Random) -> Vec<u8> {
    let other = Opening::seeded_led(random.number());
    let one = random.pick(&[opening, other]);
    let numbers = if random.chance(20) { one.spoilt_numbers(16, random) } else { one.numbers() };
    let list = if random.chance(15) { one.spoilt_list(random) } else { one.leaders.list().to_vec() };
    let mut bytes = Vec::new();
    wire::write_opening_with(&mut bytes, numbers.map(|number| number as u16), &list);
    bytes
}

/// Counts a call, and compares it with 01's loop to the letter.
fn count(coverage: &mut LentCoverage, before: Option<Replica>, call: &Call, reply: Reply, rooms: &mut Rooms) {
    assert!(reply.unwrap_or(0) <= MOST_WRITTEN, "the bound on a call's output");
    let output = rooms.output[..reply.unwrap_or(0)].to_vec();
    let Some(before) = before.filter(|_| reply != Err(Refusal::Regions)) else {
        assert_eq!(reply, Err(Refusal::Regions));
        return coverage.calls.count_refused(call, Refusal::Regions);
    };
    let after = rooms.regions().load().expect("calls keep what refusal 2 asks");
    let mut by_loop = before.clone();
    let mut loop_output = Vec::new();
    assert_eq!(call.make_literally(&mut by_loop, &mut loop_output, &mut coverage.ran), reply);
    assert!(by_loop == after && loop_output == output);
    coverage.calls.count(call, reply, &before.counters, &after, &output);
}

/// Rooms with a garbage state, or one that a run left, in random bytes; mostly some bytes of it are damaged, at times the
/// settings are other ones that are taken, and at times one rule of refusal 2 is broken.
pub fn garbage_rooms(opening: Opening, random: &mut Random) -> Rooms {
    let mut rooms = Rooms::empty();
    scatter(&mut rooms.memory, random);
    scatter(&mut rooms.store, random);
    rooms.regions().open(opening.numbers(), opening.leaders.list()).expect("settings and a list that are taken");
    let replica = if random.chance(25) { played(opening, random) } else { garbage(opening, random) };
    rooms.regions().save(&replica);
    if random.chance(50) {
        damage(&mut rooms, random);
    }
    if random.chance(20) {
        rooms.lent = [MEMORY_ROOM, STORE_ROOM, OUTPUT_ROOM];
    }
    if random.chance(8) {
        break_rule(&mut rooms, random);
    } else if random.chance(8) {
        let [f, c, k, ..] = Opening::any(random).numbers();
        put_settings(&mut rooms, [f, c, k]);
    }
    rooms
}

/// What a run left.
fn played(opening: Opening, random: &mut Random) -> Replica {
    let calls = random.index(400);
    play(opening, random.number(), calls, &mut Coverage::default()).replica
}

pub fn scatter(bytes: &mut [u8], random: &mut Random) {
    for byte in bytes {
        *byte = random.number() as u8;
    }
}

/// Random bytes in some places, all but those that refusal 2 asks about: view, settings, own number, block count, the
/// entry certificate's length, kind and count, and the leader list's length.
fn damage(rooms: &mut Rooms, random: &mut Random) {
    let view = wire::u64_at(&rooms.counters, 0);
    let asked = [0..14, regions::ENTRY + 4..regions::ENTRY + 6, regions::ENTRY + 16..regions::ENTRY + 18];
    let kept = asked.clone().map(|place| rooms.memory[place].to_vec());
    for _ in 0..random.between(1, 12) {
        let region = match random.below(8) {
            0 => &mut rooms.counters[..],
            1 | 2 => &mut rooms.store[..],
            _ => &mut rooms.memory[..],
        };
        let length = random.pick(&[1, 2, 8, 32, 112, 1032]).min(region.len());
        let at = random.index(region.len() - length + 1);
        scatter(&mut region[at..at + length], random);
    }
    rooms.counters[..8].copy_from_slice(&view.to_le_bytes());
    for (place, bytes) in asked.into_iter().zip(kept) {
        rooms.memory[place].copy_from_slice(&bytes);
    }
}

/// One rule of refusal 2 is broken, mostly by as little as can be.
fn break_rule(rooms: &mut Rooms, random: &mut Random) {
    let [_, store, output] = rooms.lent;
    let settings = rooms.regions().load().expect("sound").settings();
    let n = u16::try_from(settings.n()).expect("at most 32");
    let any = random.number();
    match random.below(14) {
        0 => rooms.lent[0] = regions::MEMORY - 1,
        1 => rooms.lent = [regions::MEMORY - 1 - random.index(regions::MEMORY), store, output],
        2 => rooms.lent[1] = random.pick(&[Store::ROOM - 1, 0]),
        3 => rooms.lent[2] = random.pick(&[regions::OUTPUT - 1, 0]),
        4 | 5 => {
            let opening = Opening::new(settings.f().into(), settings.c().into(), settings.k().into(), 0);
            let [f, c, k, ..] = opening.expect("taken settings").spoilt_sum(16, random);
            put_settings(rooms, [f, c, k]);
        }
        6 => put_u16(rooms, regions::OWN, random.pick(&[n, u16::MAX])),
        7 => {
            let view = random.pick(&[0, View::MAX.0 + 1, u64::MAX]);
            rooms.counters[..8].copy_from_slice(&view.to_le_bytes());
        }
        8 => put_u16(rooms, regions::BLOCK_COUNT, random.pick(&[129, 129, 130, u16::MAX])),
        9 => put_u16(rooms, regions::ENTRY_LENGTH, random.pick(&[0, 23, 24, 55, 57, 3609, u16::MAX, any as u16])),
        10 => put_u16(rooms, regions::ENTRY + 4, random.pick(&[0, 3, 4, 5, 6, 7, any as u16])),
        11 => put_u16(rooms, regions::ENTRY + 16, random.pick(&[n, n + 1, any as u16])),
        12 => put_u16(rooms, regions::LEADERS_LENGTH, random.pick(&[0, 0, 65, 65, 256, 257, u16::MAX])),
        _ => put_entry(rooms, random.pick(&[n + 1, Settings::MAX_N as u16 + 1])),
    }
}

/// A timeout certificate of so many timeouts, whatever they are.
fn put_entry(rooms: &mut Rooms, count: u16) {
    put_u16(rooms, regions::ENTRY_LENGTH, 24 + 112 * count);
    put_u16(rooms, regions::ENTRY + 4, wire::kind::TIMEOUT_CERTIFICATE);
    put_u16(rooms, regions::ENTRY + 16, count);
}

fn put_settings(rooms: &mut Rooms, numbers: [u64; 3]) {
    for (place, number) in numbers.into_iter().enumerate() {
        put_u16(rooms, 2 * place, number as u16);
    }
}

fn put_u16(rooms: &mut Rooms, at: usize, number: u16) {
    rooms.memory[at..at + 2].copy_from_slice(&number.to_le_bytes());
}
