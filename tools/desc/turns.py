{
    'fn': 'release::turns',
    'kit': 'walks',
    'types': {'settings': 'blocks'},
    'about': 'It calls itself: the method of `mutual-elim`, at the turns that are left.',
    'params': ['m', 'ys', 'out', 'p'],
    'requires': 'Ready (draftAt {p}) {m} {out} (releaseLength * length (take (blockCountOf {m}) {ys}))',
    'measure': 'p',
    'weight': 'turnsLeft',
    'callees': {
        'release::one_turn': {'req': 'yes', 'ens': 'Turned {3} {0} {2} {1} r {w0} {w2} {w1}'},
        'release::turns': {'req': 'yes', 'ens': 'Ends {3} {0} {2} {1} r {w0} {w2} {w1}'},
    },
    'falls': ['(omega (arith, e0 .count (is-true (r0 .goes) yes0)))'],
    'asks': ['asked', '(e0 .ready (is-true (r0 .goes) yes0))'],
    'says': [
        '(ends-on p m out ys r0 _ _ _ e0 (is-true (r0 .goes) yes0) r1 _ _ _ e1)',
        '(ends-off p m out ys r0 _ _ _ e0 (is-false (r0 .goes) no0))',
    ],
    'spec': {
        'lib.ListN': ['take'],
        'Rattle·wire.specs.Fields': ['releaseLength'],
        'Rattle·memory.specs.Layout': ['blockCountOf'],
        'Rattle·blocks.proofs.Ancestry': ['is-true', 'is-false'],
        'Rattle·act.specs.Draft': ['Ready'],
        'Rattle·release·specs.specs.Released': ['draftAt', 'Turned', 'Ends', 'turnsLeft'],
        'Rattle·release·proofs.proofs.Releasing': ['ends-on', 'ends-off'],
    },
}
