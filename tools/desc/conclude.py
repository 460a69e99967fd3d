{
    'fn': 'replica::conclude',
    'kit': 'walks',
    'types': {'settings': 'counters', 'wire': 'counters', 'certificate': 'counters', 'act': 'replica', 'perform': 'replica', 'judge': 'replica'},
    'params': ['m', 'ys', 'out', 'e'],
    'requires': 'Concludes {e} {m} {out} {ys}',
    'callees': {
        'blocks::fill': {'ens': '{w0} ≡ set {0} {1} {2}'},
        'release::release_all': {'req': 'yes', 'ens': 'left r {w0} {w2} {w1} ≡ leftBy (turnsOf {4} (workOf {3} {0} {2} {1})) {2}'},
    },
    'asks': ['(asked .few, (asked .within, subst (λ (z : List Block). 1 ≤ e .turns → Ready (e .draft) m out (releaseLength * length (take (blockCountOf m) z))) (sym e0) (asked .ready)))'],
    'says': ['(e1 ∙ ap (λ (z : List Block). leftBy (turnsOf (e .turns) (workOf (e .draft) m out z)) out) e0)'],
    'spec': {
        'Prim.Native.Nat': ['_*_', '_≤_'],
        'mathlib.Core.Path': ['sym', 'ap', 'subst', '_∙_'],
        'lib.ListN': ['length', 'take', 'set'],
        'Rattle·wire.specs.Fields': ['releaseLength'],
        'Rattle·blocks.specs.declared.Block': ['Block'],
        'Rattle·memory.specs.Layout': ['blockCountOf'],
        'Rattle·protocol.specs.Rules': ['again as turnsOf'],
        'Rattle·act.specs.Draft': ['workOf', 'left', 'leftBy', 'Ready'],
        'Rattle·replica·specs.specs.Reply': ['Concludes'],
    },
}
