//! Changes by which a good record breaks a rule, and 01's order of them: of two broken rules the earlier refuses.

use oracle::wire;

/// A change to a good record after which one rule refuses it.
pub type Break = (u16, fn(&mut Vec<u8>));

pub const ABOVE: u64 = 1 << 62;

pub fn put_u16(record: &mut [u8], at: usize, number: u16) {
    record[at..at + 2].copy_from_slice(&number.to_le_bytes());
}

pub fn put_u32(record: &mut [u8], at: usize, number: u32) {
    record[at..at + 4].copy_from_slice(&number.to_le_bytes());
}

pub fn put_u64(record: &mut [u8], at: usize, number: u64) {
    record[at..at + 8].copy_from_slice(&number.to_le_bytes());
}

pub fn put_name(record: &mut [u8], at: usize, number: u8) {
    record[at..at + 32].fill(number);
}

pub fn put_vote(record: &mut [u8], at: usize, view: u64, name: u8) {
    put_u64(record, at, view);
    put_name(record, at + 8, name);
}

/// A timeout's certificate.
pub fn put_certificate(record: &mut [u8], at: usize, kind: u16, view: u64, name: u8, signers: u64) {
    put_u16(record, at, kind);
    put_vote(record, at + 8, view, name);
    put_u64(record, at + 48, signers);
}

/// One byte more than the length field says.
pub fn lengthen(record: &mut Vec<u8>) {
    record.push(0);
}

/// One byte more, and the length field says so.
pub fn lengthen_both(record: &mut Vec<u8>) {
    record.push(0);
    let length = record.len() as u32;
    put_u32(record, 0, length);
}

/// Hands on the record with each break, and its number; with each two breaks, and the lower number.
pub fn for_each_break(good: &[u8], breaks: &[Break], judge: impl Fn(&[u8], u16, &str)) {
    for (i, (one, break_one)) in breaks.iter().enumerate() {
        let mut record = good.to_vec();
        break_one(&mut record);
        judge(&record, *one, &format!("break {i}"));
        for (j, (two, break_two)) in breaks.iter().enumerate().filter(|(_, (two, _))| two > one) {
            let mut record = good.to_vec();
            break_two(&mut record); // the lower one last, so that it surely holds
            break_one(&mut record);
            judge(&record, *one, &format!("breaks {i} ({one}) and {j} ({two})"));
        }
    }
}

/// Where the second timeout of a record of kind 6 begins.
pub const SECOND: usize = 24 + 112;

/// Of a timeout certificate of six replicas with four timeouts.
pub const TIMEOUT_CERTIFICATE_BREAKS: [Break; 22] = [
    (3, lengthen),
    (3, lengthen_both),
    (3, |r| r.truncate(23)),
    (3, |r| put_u16(r, 16, 2)),
    (3, |r| put_u32(r, SECOND, 48)),
    (4, |r| put_u16(r, SECOND + 4, 1)),
    (4, |r| put_u16(r, SECOND + 4, 6)),
    (4, |r| put_u16(r, SECOND + 56, 6)),
    (5, |r| r[18] = 1),
    (5, |r| r[23] = 1),
    (5, |r| r[SECOND + 60] = 1),
    (5, |r| put_vote(r, SECOND + 16, 1, 0)), // half-empty high vote
    (5, |r| put_u64(r, SECOND + 104, 1 << 6)),
    (5, |r| put_u64(r, SECOND + 8, 5)), // another view
    (5, |r| put_u16(r, SECOND + 6, 0)), // the sender before
    (5, |r| {
        let last = r.len() - 112;
        put_u16(r, last + 6, 6);
    }),
    (6, |r| put_u16(r, 6, 6)),
    (7, |r| set_timeouts_view(r, 0)),
    (8, |r| set_timeouts_view(r, ABOVE)),
    (9, |r| put_certificate(r, SECOND + 56, 4, 0, 0, 0)), // a weak genesis certificate
    (9, |r| put_certificate(r, SECOND + 56, 3, 0, 0, 1)),
    (9, |r| put_vote(r, SECOND + 16, u64::MAX, 1)), // a high vote above
];

/// The same view outside and inside.
pub fn set_timeouts_view(record: &mut [u8], view: u64) {
    put_u64(record, 8, view);
    for i in 0..usize::from(wire::u16_at(record, 16)) {
        let at = 24 + 112 * i + 8;
        if at + 8 <= record.len() {
            put_u64(record, at, view);
        }
    }
}
