{
    'fn': 'replica::hydrangea_record_with',
    'like': 'contents_calls',
    'params': ['cs', 'm', 'ys', 'out', 'rec', 'contents'],
    'callees': {
        'replica::record_refusal': {'ens': '({w0} ≡ {0}) × ((s : List Block) → length s ≡ {2} → r ≡ recordDue (lent {0} {1} s) {3} {4} {5})'},
        'replica::passes': {'ens': 'r ≡ eqb {0} 0'},
        'replica::record_or': {'ens': 'replied r {w0} {w1} {w2} {w3} ≡ cond {5} (repliedBy (recordCall byList (lentTo {0} {1} {2}) {3} {4})) (repliedBy (outcome (lentTo {0} {1} {2}) {3} (refuses {6})))'},
    },
    'says': ['(record-with-is cs (ws0 .0) m out ys _ r0 r1 (e0 .0) e1 rec contents (e0 .1 ys refl) e2)'],
    'spec': {
        'Rattle·judge.specs.Contents': ['recordDue'],
        'Rattle·replica·proofs.proofs.Calling': ['record-with-is'],
    },
}
