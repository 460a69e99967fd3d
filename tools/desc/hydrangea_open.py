{
    'fn': 'replica::hydrangea_open',
    'kit': 'walks',
    'types': {'settings': 'counters', 'wire': 'counters', 'certificate': 'counters'},
    'params': ['cs', 'm', 'ys', 'lies', 'stops', 'k', 'n', 'me', 'ld'],
    'callees': {
        'replica::opening': {'ens': '(l : List Block) → length l ≡ {2} → openedOutcome r {w1} l ≡ openingCall (lentTo {0} {1} l) {3} {4} {5} {6} {7} {8}'},
        'replica::numbered': {'ens': 'r ≡ replyOf (refuses {0})'},
    },
    'says': ['(opening-is cs m ys lies stops k n me ld r0 _ (e0 ys refl) r1 e1)'],
    'spec': {
        'lib.ListN': ['length'],
        'Rattle·blocks.specs.declared.Block': ['Block'],
        'Rattle·protocol.specs.Calls': ['openingCall'],
        'Rattle·settings.specs.Answer': ['refuses'],
        'Rattle·replica·specs.specs.Openings': ['openedOutcome'],
        'Rattle·replica·specs.specs.Reply': ['replyOf', 'lentTo', 'replied', 'repliedBy'],
        'Rattle·replica·proofs.proofs.Openings': ['opening-is'],
    },
}
