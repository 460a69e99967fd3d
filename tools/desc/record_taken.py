{
    'fn': 'replica::record_taken',
    'like': 'hydrangea_calls',
    'params': ['cs', 'm', 'ys', 'out', 'rec', 'is-held'],
    'requires': 'Accepted (recordNumber (length {out}) {rec}) (Asked {rec} {is-held}) (lent {cs} {m} {ys})',
    'callees': {
        'perform::record': {'req': 'yes', 'ens': 'Completes (onRecord {3} (content {3})) (Asked {3} {4}) {0} {1} {2} r {w1} {w2}'},
        'replica::conclude': {'req': 'yes', 'ens': 'left r {w0} {w2} {w1} ≡ leftBy (turnsOf ({3} .turns) (workOf ({3} .draft) {0} {2} (set {1} ({3} .place) ({3} .block)))) {2}'},
        'replica::accepted': {'ens': 'r ≡ replyOf (accepts {0})'},
    },
    'asks': ['(record { store = ys; given = asked })', '(concludes ys e0)'],
    'says': ['(record-made cs m out ys (ys-room .0) r0 _ _ r1 _ _ _ e1 r2 e2 rec is-held asked e0)'],
    'spec': {
        'Rattle·replica·proofs.proofs.Calling': ['concludes', 'record-made'],
    },
}
