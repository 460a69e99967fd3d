{
    'fn': 'replica::hydrangea_timer',
    'like': 'hydrangea_calls',
    'params': ['cs', 'm', 'ys', 'out', 'v'],
    'callees': {
        'replica::view_of': {'ens': 'r .0 ≡ {0}'},
        'replica::timer_judged': {'ens': '({w0} ≡ {0}) × ((s : List Block) → length s ≡ {2} → r ≡ timerNumber {3} ({4} .0) (lent {0} {1} s))'},
        'replica::timer_answered': {'req': 'yes', 'ens': 'replied r {w0} {w1} {w2} {w3} ≡ repliedBy (timerCall (lentTo {0} {1} {2}) {3} ({4} .0))'},
        'replica::passes': {'ens': 'r ≡ eqb {0} 0'},
    },
    'asks': ['(e2, e1 .1 ys refl ∙ ap (λ (c : Counters). timerNumber (length out) (r0 .0) (lent c m ys)) (sym (e1 .0)))'],
    'says': ['(e3 ∙ ap (λ (c : Counters). repliedBy (timerCall (lentTo c m ys) out (r0 .0))) (e1 .0) ∙ ap (λ (z : ℕ). repliedBy (timerCall (lentTo cs m ys) out z)) e0)'],
    'spec': {
        'mathlib.Core.Path': ['sym', 'ap', '_∙_'],
        'Rattle·counters.specs.declared.Counters': ['Counters'],
    },
}
