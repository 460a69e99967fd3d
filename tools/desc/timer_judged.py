{
    'fn': 'replica::timer_judged',
    'like': 'hydrangea_calls',
    'params': ['cs', 'm', 'entries', 'room', 'v'],
    'callees': {
        'judge::timer': {'ens': '(s : List Block) → length s ≡ {2} → r ≡ firstOf (regionRules (lent {0} {1} s) {3} then timerRules (lent {0} {1} s) ({4} .0))'},
    },
    'says': ['(refl, λ s l. timer-numbered room (v .0) (lent cs m s) (e0 s l))'],
    'spec': {
        'Rattle·protocol.specs.Refusals': ['regionRules', 'timerRules'],
        'Rattle·protocol.specs.Calls': ['_then_'],
        'Rattle·replica·proofs.proofs.Calling': ['timer-numbered'],
    },
}
