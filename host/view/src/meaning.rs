//! Refusal numbers in words, as 01's table has them for each kind of call.

use oracle::wire::kind;

/// The meaning of a refusal of a record of this kind; timer and propose are kinds 10 and 11.
pub fn meaning(number: u16, call: Option<u16>) -> &'static str {
    let call = call.unwrap_or(0);
    match number {
        1 => "settings or the leader list break a rule, or own number isn't below n",
        2 => "memory, store or output region unfit",
        3 => "cut short, or a length that isn't the kind's",
        4 => "kind out of place",
        5 if call == kind::PROPOSE => "zero name",
        5 => "padding, zero name, signer or inner record out of place",
        6 => party(call),
        7 => below(call),
        8 => above(call),
        9 => certificate(call),
        10 => same(call),
        11 => other(call),
        12 if call == kind::BLOCK => "parent not held",
        12 => "safe block not held",
        13 if call == kind::BLOCK => "height isn't the parent's plus 1",
        13 if call == kind::PROPOSE => "height would be over 2^62",
        13 => "parent isn't the safe block, or height isn't its plus 1",
        14 => "store full",
        15 => "not its turn: not the leader, timed out or voted in this view",
        _ => "unknown number",
    }
}

fn party(call: u16) -> &'static str {
    match call {
        kind::VOTE | kind::COMMIT | kind::TIMEOUT => "sender outside the cluster, or the replica itself",
        kind::PROPOSAL => "sender isn't the view's leader, or is the replica itself",
        kind::TIMER | kind::PROPOSE => "sender field isn't 0",
        _ => "sender outside the cluster",
    }
}

fn below(call: u16) -> &'static str {
    match call {
        kind::VOTE | kind::COMMIT | kind::TIMEOUT => "view below the window",
        _ => "view below the current one",
    }
}

fn above(call: u16) -> &'static str {
    match call {
        kind::VOTE | kind::COMMIT | kind::TIMEOUT => "view above the window",
        kind::TIMER => "view above the current one",
        _ => "view at or over 2^62",
    }
}

fn certificate(call: u16) -> &'static str {
    match call {
        kind::TIMEOUT => "its certificate isn't good, or a view in it is above its own",
        kind::TIMEOUT_CERTIFICATE => "too few timeouts, or one that isn't good",
        kind::PROPOSAL => "its progress certificate isn't good, or not of the view before",
        _ => "too few signers, or view 0",
    }
}

fn same(call: u16) -> &'static str {
    match call {
        kind::PROPOSAL => "proposal voted for already",
        kind::BLOCK_CERTIFICATE => "certificate not above the lock",
        kind::TIMER => "timeout for this view sent already",
        _ => "the same one is held",
    }
}

fn other(call: u16) -> &'static str {
    match call {
        kind::PROPOSAL => "another name voted for in this view, or the name held with another parent or height",
        kind::BLOCK => "the name is held with another parent or height",
        kind::PROPOSE => "the name is held",
        _ => "another one of this sender is held for this view",
    }
}

/// `accepted`, or the refusal's number with its meaning.
pub fn answer_words(number: u16, call: Option<u16>) -> String {
    match number {
        0 => "accepted".to_string(),
        _ => format!("refused {number}: {}", meaning(number, call)),
    }
}

#[cfg(test)]
mod tests {
    use super::*;

    #[test]
    fn every_refusal_of_every_kind_has_words() {
        for number in 1..=15 {
            for call in (0..=12).map(Some).chain([None]) {
                assert_ne!(meaning(number, call), "unknown number");
            }
        }
        assert_eq!(meaning(16, None), "unknown number");
        assert_ne!(meaning(10, Some(kind::TIMER)), meaning(10, Some(kind::VOTE)));
    }
}
