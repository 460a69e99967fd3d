{
    'fn': 'replica::hydrangea_propose_with',
    'like': 'contents_calls',
    'params': ['cs', 'm', 'ys', 'out', 'name', 'contents'],
    'callees': {
        'replica::propose_refusal': {'ens': '({w0} ≡ {0}) × (r ≡ proposeRefusal (lent {0} {1} {2}) {3} ({4} .bytes) {5})'},
        'replica::passes': {'ens': 'r ≡ eqb {0} 0'},
        'replica::propose_or': {'ens': 'replied r {w0} {w1} {w2} {w3} ≡ cond {5} (repliedBy (proposeCall byList (lentTo {0} {1} {2}) {3} ({4} .bytes))) (repliedBy (outcome (lentTo {0} {1} {2}) {3} (refuses {6})))'},
    },
    'says': ['(propose-with-is cs (ws0 .0) m out ys _ r0 r1 (e0 .0) e1 (name .bytes) contents (e0 .1) e2)'],
    'spec': {
        'Rattle·judge.specs.Contents': ['proposeRefusal'],
        'Rattle·replica·proofs.proofs.Calling': ['propose-with-is'],
    },
}
