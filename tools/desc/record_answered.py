{
    'fn': 'replica::record_answered',
    'like': 'hydrangea_calls',
    'params': ['cs', 'm', 'ys', 'out', 'rec', 'j'],
    'requires': 'Judges (recordNumber (length {out}) {rec}) (Asked {rec} ({j} .held)) ({j} .accepted) ({j} .refusal) (lent {cs} {m} {ys})',
    'callees': {
        'replica::record_taken': {'req': 'yes', 'ens': 'replied r {w0} {w1} {w2} {w3} ≡ repliedBy (recordCall byList (lentTo {0} {1} {2}) {3} {4})'},
        'replica::numbered': {'ens': 'r ≡ replyOf (refuses {0})'},
    },
    'asks': ['(is-accepted asked (is-true (j .accepted) yes0))'],
    'says': ['e0', '(record-unmade cs m out ys j r1 e1 (is-false (j .accepted) no0) rec asked)'],
    'spec': {
        'Rattle·replica·proofs.proofs.Calling': ['is-accepted', 'record-unmade'],
    },
}
