{
    'fn': 'replica::timer_taken',
    'like': 'hydrangea_calls',
    'params': ['cs', 'm', 'ys', 'out', 'v'],
    'requires': 'timerNumber (length {out}) ({v} .0) (lent {cs} {m} {ys}) ≡ 0',
    'callees': {
        'perform::timer': {'req': 'yes', 'ens': 'Completes (onTimer ({3} .0)) Always {0} {1} {2} r {w1} {w2}'},
        'replica::conclude': {'req': 'yes', 'ens': 'left r {w0} {w2} {w1} ≡ leftBy (turnsOf ({3} .turns) (workOf ({3} .draft) {0} {2} (set {1} ({3} .place) ({3} .block)))) {2}'},
        'replica::accepted': {'ens': 'r ≡ replyOf (accepts {0})'},
    },
    'asks': ['(record { store = ys; given = record { accepted = asked; asked = tt } })', '(concludes ys e0)'],
    'says': ['(timer-made cs m out ys (ys-room .0) r0 _ _ r1 _ _ _ e1 r2 e2 (v .0) asked e0)'],
    'spec': {
        'Rattle·replica·proofs.proofs.Calling': ['concludes', 'timer-made'],
    },
}
