{
    'fn': 'release::lowest_target',
    'kit': 'walks',
    'types': {'settings': 'blocks'},
    'params': ['m', 'ys', 'v', 'tip'],
    'requires': '(memoryLength ≤ length {m}) × (regular (standing (knownBy {v} {tip}) {m} {ys}) ≡ true)',
    'callees': {
        'release::first_place': {'req': 'yes', 'ens': 'r ≡ firstPlace ({1} .0) {0}'},
        'release::target_from': {'req': 'yes', 'ens': 'r ≡ targetFrom {3} (seen {2} {0} {1})'},
    },
    'asks': [
        '(asked .0, (bounded (standing (knownBy v tip) m ys) (asked .1) .few, (bounded (standing (knownBy v tip) m ys) (asked .1) .view-first, bounded (standing (knownBy v tip) m ys) (asked .1) .view-last)))',
        '(asked .0, (bounded (standing (knownBy v tip) m ys) (asked .1) .few, subst (λ (z : Place). z .view .0 + z .views < 2 ^ 63) (sym e0) (first-within (v .0) m (bounded (standing (knownBy v tip) m ys) (asked .1) .view-last))))',
    ],
    'says': ['(e1 ∙ ap (λ (z : Place). targetFrom z (seen tip m ys)) e0 ∙ sym (from-seen (firstPlace (v .0) m) (knownBy v tip) m ys) ∙ begins (standing (knownBy v tip) m ys) (bounded (standing (knownBy v tip) m ys) (asked .1) .few) (bounded (standing (knownBy v tip) m ys) (asked .1) .view-first) (bounded (standing (knownBy v tip) m ys) (asked .1) .view-last))'],
    'spec': {
        'Rattle·memory.specs.Layout': ['memoryLength'],
        'Rattle·protocol.specs.Refusals': ['regular'],
        'Rattle·release·specs.specs.Search': ['standing', 'knownBy', 'seen', 'firstPlace', 'targetFrom', 'lowestTarget'],
        'Rattle·release·proofs.proofs.Search': ['begins', 'from-seen', 'first-within'],
        'Rattle·release·proofs.proofs.Regular': ['bounded'],
    },
}
