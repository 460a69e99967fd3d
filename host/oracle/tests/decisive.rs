//! 02, 2.3: "Whose timeout decided it?" Each refusal and its order, answers in the cluster of six, and over many settings
//! the same answers found to the letter.

mod common;

use std::cmp::Reverse;
use std::collections::{BTreeMap, BTreeSet};

use common::breaks::*;
use common::*;
use oracle::{decisive, wire, Certificate, CertificateKind, Name, Refusal, Replica, Settings, Timeout, View, Vote};

const A: Name = [0xA1; 32];
const B: Name = [0xB1; 32];

fn in_six(record: &[u8]) -> Result<Option<u16>, Refusal> {
    decisive(1, 1, 0, 6, record)
}

/// The refusal's number.
fn refused_in_six(record: &[u8], number: u16, what: &str) {
    assert_eq!(in_six(record).map_err(Refusal::number), Err(number), "{what}");
}

// ---------------------------------------------------------------- refusals

fn four_timeouts(view: u64) -> Vec<u8> {
    timeouts_record(0, view, &[0, 1, 3, 4].map(|sender| timeout(sender, view)))
}

/// "Bad settings are refused by 1", whatever the record is. No own number and no leader list is asked.
#[test]
fn settings_are_judged_first() {
    let good = four_timeouts(3);
    let bad = [
        (1, 1, 0, 5),
        (1, 1, 0, 7),
        (1, 1, 0, 6 + (1 << 32)),
        (8, 4, 0, 33),
        (0, 0, 32, 33),
        (0, 0, 0, 0),
        (u64::MAX / 3 + 1, 0, 0, 3), // 3f+2c+k+1 in 64 bits
        (0, 1 << 63, 0, 1),
        (0, 0, u64::MAX, 0),
    ];
    for (f, c, k, n) in bad {
        for record in [&good[..], &[], &[7; 40]] {
            assert_eq!(decisive(f, c, k, n, record), Err(Refusal::Settings), "{f} {c} {k} {n}");
        }
    }
}

/// Any view from 1 on is taken, since there is no current one.
#[test]
fn records_are_refused_in_order() {
    let mut breaks = TIMEOUT_CERTIFICATE_BREAKS.to_vec();
    breaks.push((9, |r| {
        r.truncate(24 + 3 * 112); // too few timeouts
        let length = r.len() as u32;
        put_u32(r, 0, length);
        put_u16(r, 16, 3);
    }));
    for view in [1, 2, 3, 1 << 40, ABOVE - 1] {
        let good = four_timeouts(view);
        assert_eq!(in_six(&good), Ok(None), "view {view}");
        for_each_break(&good, &breaks, refused_in_six);
    }
}

/// "a kind other than 6 by 4". It "has no length of its own": of such a slice only the frame is judged before.
#[test]
fn other_kinds_are_refused_4() {
    let records = [
        vote_record(0, 3, A),
        commit_record(0, 3, A),
        certificate_record(0, 3, A, FOUR),
        timeout_record(&timeout(0, 3)),
        proposal_record(3, 4, &block(1, A, 1), &four_timeouts(3)),
        block_record(0, &block(1, A, 1)),
        four_timeouts(3),
    ];
    for record in records {
        for kind in (0..=13).chain([6 << 8, u16::MAX]).filter(|kind| *kind != 6) {
            let mut foreign = record.clone();
            put_u16(&mut foreign, 4, kind);
            put_u16(&mut foreign, 6, 6); // a sender that 6 would turn away
            refused_in_six(&foreign, 4, "another kind");
            lengthen_both(&mut foreign);
            refused_in_six(&foreign, 4, "another kind, whatever its length");
            lengthen(&mut foreign);
            refused_in_six(&foreign, 3, "but its length field must be the slice's");
            put_u32(&mut foreign, 0, 8);
            refused_in_six(&foreign[..8], 4, "a header alone");
        }
    }
}

#[test]
fn every_shorter_slice_is_refused_3() {
    let good = four_timeouts(3);
    for length in 0..good.len() {
        let mut cut = good[..length].to_vec();
        refused_in_six(&cut, 3, "cut");
        if length >= 8 {
            put_u32(&mut cut, 0, length as u32);
            refused_in_six(&cut, 3, "cut, and its length field says so");
        }
    }
}

/// Fewer than n−f−c timeouts are 9; more than n can't ascend below n.
#[test]
fn any_count_of_timeouts() {
    for count in 0..=33 {
        let timeouts: Vec<_> = (0..count).map(|sender| timeout(sender, 8)).collect();
        let expected = match count {
            0..=3 => Err(Refusal::Certificate),
            4..=6 => Ok(None),
            _ => Err(Refusal::Content),
        };
        assert_eq!(in_six(&timeouts_record(3, 8, &timeouts)), expected, "{count} timeouts");
    }
}

// ---------------------------------------------------------------- the cluster of six

/// Timeouts of view 3 by replicas 0, 1, .. with these high votes of view 3 and the genesis certificate.
fn voted(high_votes: &[Option<Name>]) -> Vec<Timeout> {
    let high_vote = |name: Option<Name>| name.map_or(Vote::NONE, |name| Vote { view: View(3), name });
    let timeouts = high_votes.iter().zip(0..);
    timeouts.map(|(name, sender)| Timeout { high_vote: high_vote(*name), ..timeout(sender, 3) }).collect()
}

fn decides(timeouts: &[Timeout]) -> Option<u16> {
    in_six(&timeouts_record(5, 3, timeouts)).expect("a good certificate")
}

/// A weak quorum of six is two.
#[test]
fn built_certificates() {
    let (a, b) = (Some(A), Some(B));
    let examples: [(&[Option<Name>], Option<u16>); 11] = [
        (&[a, a, b, b, None], Some(0)), // then B is safe
        (&[None, a, a, b, b], Some(1)),
        (&[b, b, a, a, None], Some(2)),
        (&[a, a, None, None, None], Some(0)), // then genesis is
        (&[None, None, None, a, a], Some(3)),
        (&[a, a, a, None, None], None), // other signers, the same name
        (&[a, a, a, b, b], None),
        (&[a, b, None, None, None], None), // nobody's high vote is backed
        (&[None, None, None, None, None], None),
        (&[a, a, b, b, None, None], Some(0)),
        (&[a, a, a, b, b, b], None),
    ];
    for (high_votes, expected) in examples {
        assert_eq!(decides(&voted(high_votes)), expected, "{high_votes:?}");
    }
}

/// The answer is a sender, not a place.
#[test]
fn senders_need_not_be_in_a_row() {
    let mut timeouts = voted(&[None, Some(A), Some(A), None, None]);
    for (timeout, sender) in timeouts.iter_mut().zip([0, 2, 3, 4, 5]) {
        timeout.sender = sender;
    }
    assert_eq!(decides(&timeouts), Some(2));
}

/// "as with exactly n−f−c timeouts"
#[test]
fn none_where_no_timeout_can_be_spared() {
    let (a, b) = (Some(A), Some(B));
    for high_votes in [[a, a, b, b], [a, a, None, None], [None, a, a, b]] {
        assert_eq!(decides(&voted(&high_votes)), None);
    }
    let mut carried = voted(&[None; 4]);
    carried[2].certificate = Certificate::block(View(2), A, FOUR);
    assert_eq!(decides(&carried), None);
    assert_eq!(decides(&[&carried[..], &[timeout(4, 3)]].concat()), Some(2));
}

#[test]
fn carried_certificates() {
    let block_a = Certificate::block(View(2), A, FOUR);
    let weak_a = Certificate::weak(View(2), A, 0b11);
    for certificate in [block_a, weak_a] {
        let mut timeouts = voted(&[None; 5]);
        timeouts[4].certificate = certificate;
        assert_eq!(decides(&timeouts), Some(4), "only one carries it");
        timeouts[1].certificate = Certificate::weak(View(1), A, 0b11);
        assert_eq!(decides(&timeouts), None, "without it a lower one of the same name");
        timeouts[1].certificate.name = B;
        assert_eq!(decides(&timeouts), Some(4), "without it one of another name");
        timeouts[2].certificate = certificate;
        assert_eq!(decides(&timeouts), None, "two carry it");
    }
}

/// A carried certificate and high votes behind it or against it.
#[test]
fn carried_and_built_certificates() {
    let (a, b) = (Some(A), Some(B));
    let carrying = |high_votes: &[Option<Name>], sender: usize, certificate: Certificate| {
        let mut timeouts = voted(high_votes);
        timeouts[sender].certificate = certificate;
        decides(&timeouts)
    };
    let block = |view, name| Certificate::block(View(view), name, FOUR);
    let weak = |view, name| Certificate::weak(View(view), name, 0b11);
    assert_eq!(carrying(&[a, a, None, None, None], 4, block(3, B)), Some(4));
    assert_eq!(carrying(&[a, a, None, None, None], 4, block(3, A)), None, "A is built without it");
    assert_eq!(carrying(&[a, a, None, None, None], 4, block(2, B)), Some(0), "of a lower view");
    assert_eq!(carrying(&[a, a, None, None, None], 4, block(2, A)), None, "A is carried too");
    assert_eq!(carrying(&[b, b, None, None, None], 4, weak(3, A)), Some(4), "the smaller name");
    assert_eq!(carrying(&[a, a, None, None, None], 4, weak(3, B)), Some(0));
    assert_eq!(carrying(&[a, a, None, None, None], 0, weak(3, B)), Some(0), "leaves B without sender 1's high vote");
    assert_eq!(carrying(&[a, None, None, None, None], 0, weak(3, A)), Some(0));
}

/// A cluster of one can't spare its timeout. In one of three that bears a crash two timeouts are enough, and one high vote
/// builds.
#[test]
fn the_smallest_clusters() {
    let only = |view, high_vote| timeouts_record(0, view, &[Timeout { high_vote, ..timeout(0, view) }]);
    let voted = Vote { view: View(2), name: A };
    assert_eq!(decisive(0, 0, 0, 1, &only(2, voted)), Ok(None));
    assert_eq!(decisive(0, 0, 0, 1, &timeouts_record(0, 2, &[])), Err(Refusal::Certificate));
    let one = [Timeout { high_vote: voted, ..timeout(0, 2) }, timeout(1, 2), timeout(2, 2)];
    assert_eq!(decisive(0, 1, 0, 3, &timeouts_record(2, 2, &one)), Ok(Some(0)));
}

// ---------------------------------------------------------------- to the letter

/// Numbers below an end, one after another (splitmix64).
struct Random(u64);

impl Random {
    fn below(&mut self, end: u64) -> u64 {
        self.0 = self.0.wrapping_add(0x9E37_79B9_7F4A_7C15);
        let z = (self.0 ^ (self.0 >> 30)).wrapping_mul(0xBF58_476D_1CE4_E5B9);
        let z = (z ^ (z >> 27)).wrapping_mul(0x94D0_49BB_1331_11EB);
        (z ^ (z >> 31)) % end
    }

    /// Timeouts of this view by so many replicas, good ones. Few names and views make ties.
    fn timeouts(&mut self, settings: Settings, view: u64, count: usize) -> Vec<Timeout> {
        let mut senders: Vec<u16> = (0..settings.n() as u16).collect();
        while senders.len() > count {
            senders.remove(self.below(senders.len() as u64) as usize);
        }
        let carrying = self.below(3); // nobody, few, everybody
        senders.into_iter().map(|sender| self.timeout(settings, sender, view, carrying)).collect()
    }

    fn timeout(&mut self, settings: Settings, sender: u16, view: u64, carrying: u64) -> Timeout {
        let near = |below: u64| View(view.saturating_sub(below).max(1));
        let high_vote = match self.below(4) {
            0 => Vote::NONE,
            _ => Vote { view: near(self.below(2)), name: name(1 + self.below(3) as u8) },
        };
        let carries = self.below(2) < carrying && self.below(3) < 2 * carrying - 1;
        let certificate = match (carries, self.below(2)) {
            (false, _) => Certificate::GENESIS,
            (true, 0) => Certificate::block(near(self.below(3)), name(1 + self.below(3) as u8), settings.everyone()),
            (true, _) => Certificate::weak(near(self.below(3)), name(1 + self.below(3) as u8), settings.everyone()),
        };
        Timeout { sender, view: View(view), high_vote, certificate }
    }
}

/// The name of the highest candidate: "those carried in its timeouts, and a weak certificate for each view and name that
/// at least f+p+1 of its timeouts give as high vote". Which of two candidates with one name is meant changes no name.
fn safe_name(settings: Settings, timeouts: &[Timeout]) -> Name {
    let mut backing: BTreeMap<Vote, u32> = BTreeMap::new();
    for timeout in timeouts.iter().filter(|timeout| timeout.high_vote != Vote::NONE) {
        *backing.entry(timeout.high_vote).or_default() += 1;
    }
    let built = backing.into_iter().filter(|(_, count)| *count >= settings.weak_quorum());
    let built = built.map(|(vote, _)| (vote.view, false, Reverse(vote.name)));
    let carried = timeouts.iter().map(|timeout| {
        let Certificate { kind, view, name, .. } = timeout.certificate;
        (view, kind == CertificateKind::Block, Reverse(name))
    });
    let (_, _, Reverse(name)) = carried.chain(built).max().expect("at least one timeout");
    name
}

/// What a replica in view 1 makes of a timeout certificate: the name that it adopts, or its answer.
fn adopted(settings: Settings, record: &[u8]) -> Result<Name, Refusal> {
    let [f, c, k, n] = [settings.f(), settings.c(), settings.k(), settings.n()].map(u64::from);
    let mut replica = Replica::open(f, c, k, n, 0, &[0]).expect("good settings");
    replica.record(record, &mut Vec::new())?;
    Ok(replica.highest_certificate().name)
}

/// The lowest sender by 02's words: each record is made without one timeout, and a replica says whether it "still has
/// enough timeouts".
fn decisive_literally(settings: Settings, sender: u16, timeouts: &[Timeout]) -> Option<u16> {
    let name = safe_name(settings, timeouts);
    let view = timeouts[0].view.0;
    assert_eq!(adopted(settings, &timeouts_record(sender, view, timeouts)), Ok(name));
    timeouts.iter().map(|timeout| timeout.sender).find(|one| {
        let rest: Vec<Timeout> = timeouts.iter().filter(|timeout| timeout.sender != *one).copied().collect();
        match adopted(settings, &timeouts_record(sender, view, &rest)) {
            Ok(other) => {
                assert_eq!(other, safe_name(settings, &rest));
                other != name
            }
            Err(refusal) => {
                assert_eq!(refusal, Refusal::Certificate);
                false
            }
        }
    })
}

/// In all settings, with every count of timeouts. Each sender comes up as the decisive one, and none.
#[test]
fn as_02_words_it() {
    let mut random = Random(23);
    let mut named = BTreeSet::new();
    for settings in Settings::all() {
        let [f, c, k, n] = [settings.f(), settings.c(), settings.k(), settings.n()].map(u64::from);
        for count in settings.timeout_quorum()..=settings.n() {
            let view = 1 + random.below(4);
            let sender = random.below(n) as u16;
            let timeouts = random.timeouts(settings, view, count as usize);
            let expected = decisive_literally(settings, sender, &timeouts);
            let record = record(|out| wire::write_timeout_certificate(out, sender, View(view), &timeouts));
            assert_eq!(decisive(f, c, k, n, &record), Ok(expected), "{settings:?} {timeouts:?}");
            assert!(count > settings.timeout_quorum() || expected.is_none());
            named.insert(expected);
        }
    }
    assert_eq!(named.len(), 33, "{named:?}");
}
