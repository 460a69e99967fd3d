{
    'fn': 'replica::propose_or',
    'like': 'contents_calls',
    'params': ['cs', 'm', 'ys', 'out', 'name', 'goes', 'due'],
    'callees': {
        'replica::hydrangea_propose': {'ens': 'replied r {w0} {w1} {w2} {w3} ≡ repliedBy (proposeCall byList (lentTo {0} {1} {2}) {3} ({4} .bytes))'},
        'replica::numbered': {'ens': 'r ≡ replyOf (refuses {0})'},
    },
    'says': ['(call-made (lentTo cs m ys) out (proposeCall byList (lentTo cs m ys) out (name .bytes)) goes due (is-true goes yes0) e0)', '(call-unmade cs m out ys (proposeCall byList (lentTo cs m ys) out (name .bytes)) goes due r1 (is-false goes no0) e1)'],
    'spec': {
        'Rattle·replica·proofs.proofs.Calling': ['call-made', 'call-unmade'],
        'Rattle·blocks.proofs.Ancestry': ['is-true', 'is-false'],
    },
}
