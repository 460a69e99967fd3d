{
    'fn': 'replica::timer_answered',
    'like': 'hydrangea_calls',
    'params': ['cs', 'm', 'ys', 'out', 'v', 'goes', 'number'],
    'requires': '({goes} ≡ eqb {number} 0) × ({number} ≡ timerNumber (length {out}) ({v} .0) (lent {cs} {m} {ys}))',
    'callees': {
        'replica::timer_taken': {'req': 'yes', 'ens': 'replied r {w0} {w1} {w2} {w3} ≡ repliedBy (timerCall (lentTo {0} {1} {2}) {3} ({4} .0))'},
        'replica::numbered': {'ens': 'r ≡ replyOf (refuses {0})'},
    },
    'asks': ['(timer-accepted asked (is-true goes yes0))'],
    'says': ['e0', '(timer-unmade cs m out ys (v .0) number goes r1 e1 (is-false goes no0) asked)'],
    'spec': {
        'Rattle·replica·proofs.proofs.Calling': ['timer-accepted', 'timer-unmade'],
    },
}
