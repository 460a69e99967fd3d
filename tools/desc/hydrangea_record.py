{
    'fn': 'replica::hydrangea_record',
    'like': 'hydrangea_calls',
    'params': ['cs', 'm', 'ys', 'out', 'rec'],
    'callees': {
        'replica::record_judged': {'ens': '({w0} ≡ {0}) × Judges (recordNumber {3} {4}) (Asked {4} (r .held)) (r .accepted) (r .refusal) (lent {0} {1} {2})'},
        'replica::record_answered': {'req': 'yes', 'ens': 'replied r {w0} {w1} {w2} {w3} ≡ repliedBy (recordCall byList (lentTo {0} {1} {2}) {3} {4})'},
    },
    'asks': ['(still-judged (e0 .0) m ys (e0 .1))'],
    'says': ['(e1 ∙ ap (λ (c : Counters). repliedBy (recordCall byList (lentTo c m ys) out rec)) (e0 .0))'],
    'spec': {
        'mathlib.Core.Path': ['ap', '_∙_'],
        'Rattle·counters.specs.declared.Counters': ['Counters'],
        'Rattle·replica·proofs.proofs.Calling': ['still-judged'],
    },
}
