{
    'fn': 'blocks::judged',
    'kit': 'walks',
    'types': {'settings': 'blocks'},
    'params': ['ys', 'count', 'tip', 'b', 'i', 'v'],
    'requires': 'Noted {tip} (take {count} {ys}) {i} {v}',
    'callees': {
        'blocks::lesser': {'ens': 'r ≡ cond (ltb {0} {1}) {0} {1}'},
        'blocks::scan': {'req': 'yes', 'ens': 'r ≡ placeOf {2} (take {1} {0})'},
        'blocks::found_at': {'req': 'yes', 'ens': 'r ≡ cond (ltb {1} {2}) (found (getD {0} {1} genesis)) missing'},
        'blocks::pick': {'ens': 'r ≡ cond (sameBytes ({0} .name) {1}) (found {0}) {2}'},
        'blocks::step_judged': {'ens': 'r ≡ shortened {3} {4} {5} (onwardOf {0} {1} {2})'},
        'blocks::descends': {'ens': 'r ≡ descendsOf {2} (take {1} {0}) {3}'},
    },
    'asks': [
        '(subst (λ (k : ℕ). k ≤ length ys) (sym e0) (lesser-most count (length ys)))',
        '(subst (λ (k : ℕ). k ≤ length ys) (sym e0) (lesser-most count (length ys)))',
    ],
    'lets': [
        [
            ('way', 'StepAt tip (take count ys) b i v r1 r4', 'step-at tip count ys b i v r0 r1 r2 r3 r4 e0 e1 e2 e3 e4'),
        ],
        [
            ('way', 'StepAt tip (take count ys) b i v r1 r4', 'step-at tip count ys b i v r0 r1 r2 r3 r4 e0 e1 e2 e3 e4'),
        ],
    ],
    'says': [
        '(e5 ∙ judged-on tip (take count ys) b i v asked r1 r4 way (is-true (r4 .goes) yes0))',
        '(judged-off tip (take count ys) b i v asked r1 r4 way (is-false (r4 .goes) no0))',
    ],
    'spec': {
        'mathlib.Core.Bool': ['cond'],
        'lib.ListN': ['take'],
        'Rattle·codec.specs.Names': ['sameBytes'],
        'Rattle·blocks·specs.specs.Store': ['genesis', 'found', 'missing', 'descends as descendsOf'],
        'Rattle·blocks·specs.specs.Steps': ['placeOf', 'onwardOf', 'shortened', 'Noted'],
        'Rattle·blocks·proofs.proofs.Finding': ['lesser-most'],
        'Rattle·blocks·proofs.proofs.Ancestry': ['is-true', 'is-false'],
        'Rattle·blocks·proofs.proofs.Judging': ['StepAt', 'step-at', 'judged-on', 'judged-off'],
    },
}
