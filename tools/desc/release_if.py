{
    'fn': 'release::release_if',
    'kit': 'walks',
    'types': {'settings': 'blocks'},
    'params': ['m', 'ys', 'out', 'tip', 'at', 't'],
    'requires': '{t} .is ≡ true → Releases {tip} {at} {t} {m} {out} {ys}',
    'callees': {
        'release::release_target': {'req': 'yes', 'ens': 'Released {3} {4} {5} {0} {2} {1} r {w0} {w2} {w1}'},
    },
    'asks': ['(asked (is-true (t .is) yes0))'],
    'says': [
        '(released-yes tip at t m out ys r0 _ _ _ (is-true (t .is) yes0) e0)',
        '(released-no tip at t m out ys (is-false (t .is) no0))',
    ],
    'spec': {
        'Rattle·blocks.proofs.Ancestry': ['is-true', 'is-false'],
        'Rattle·release·specs.specs.Released': ['Releases', 'Released', 'ReleasedIf'],
        'Rattle·release·proofs.proofs.Putting': ['released-yes', 'released-no'],
    },
}
