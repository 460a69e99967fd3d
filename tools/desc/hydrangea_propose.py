{
    'fn': 'replica::hydrangea_propose',
    'like': 'hydrangea_calls',
    'params': ['cs', 'm', 'ys', 'out', 'name'],
    'callees': {
        'replica::propose_judged': {'ens': '({w0} ≡ {0}) × Judges (proposeNumber {3} ({4} .bytes)) (Proposable ({4} .bytes) (r .below .0)) (r .accepted) (r .refusal) (lent {0} {1} {2})'},
        'replica::propose_answered': {'req': 'yes', 'ens': 'replied r {w0} {w1} {w2} {w3} ≡ repliedBy (proposeCall byList (lentTo {0} {1} {2}) {3} ({4} .bytes))'},
    },
    'asks': ['(still-judged (e0 .0) m ys (e0 .1))'],
    'says': ['(e1 ∙ ap (λ (c : Counters). repliedBy (proposeCall byList (lentTo c m ys) out (name .bytes))) (e0 .0))'],
    'spec': {
        'mathlib.Core.Path': ['ap', '_∙_'],
        'Rattle·counters.specs.declared.Counters': ['Counters'],
        'Rattle·replica·proofs.proofs.Calling': ['still-judged'],
    },
}
