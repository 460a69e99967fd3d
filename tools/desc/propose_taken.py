{
    'fn': 'replica::propose_taken',
    'like': 'hydrangea_calls',
    'params': ['cs', 'm', 'ys', 'out', 'name', 'below'],
    'requires': 'Accepted (proposeNumber (length {out}) ({name} .bytes)) (Proposable ({name} .bytes) ({below} .0)) (lent {cs} {m} {ys})',
    'callees': {
        'perform::propose': {'req': 'yes', 'ens': 'Completes (onPropose {3}) (Proposable {3} ({4} .0)) {0} {1} {2} r {w1} {w2}'},
        'replica::conclude': {'req': 'yes', 'ens': 'left r {w0} {w2} {w1} ≡ leftBy (turnsOf ({3} .turns) (workOf ({3} .draft) {0} {2} (set {1} ({3} .place) ({3} .block)))) {2}'},
        'replica::accepted': {'ens': 'r ≡ replyOf (accepts {0})'},
    },
    'asks': ['(record { store = ys; given = asked })', '(concludes ys e0)'],
    'says': ['(propose-made cs m out ys (ys-room .0) r0 _ _ r1 _ _ _ e1 r2 e2 (name .bytes) (below .0) asked e0)'],
    'spec': {
        'Rattle·replica·proofs.proofs.Calling': ['concludes', 'propose-made'],
    },
}
