{
    'fn': 'replica::propose_answered',
    'like': 'hydrangea_calls',
    'params': ['cs', 'm', 'ys', 'out', 'name', 'j'],
    'requires': 'Judges (proposeNumber (length {out}) ({name} .bytes)) (Proposable ({name} .bytes) ({j} .below .0)) ({j} .accepted) ({j} .refusal) (lent {cs} {m} {ys})',
    'callees': {
        'replica::propose_taken': {'req': 'yes', 'ens': 'replied r {w0} {w1} {w2} {w3} ≡ repliedBy (proposeCall byList (lentTo {0} {1} {2}) {3} ({4} .bytes))'},
        'replica::numbered': {'ens': 'r ≡ replyOf (refuses {0})'},
    },
    'asks': ['(is-accepted asked (is-true (j .accepted) yes0))'],
    'says': ['e0', '(propose-unmade cs m out ys j r1 e1 (is-false (j .accepted) no0) (name .bytes) asked)'],
    'spec': {
        'Rattle·replica·proofs.proofs.Calling': ['is-accepted', 'propose-unmade'],
    },
}
