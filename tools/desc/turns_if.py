{
    'fn': 'release::turns_if',
    'kit': 'walks',
    'types': {'settings': 'blocks'},
    'params': ['m', 'ys', 'out', 'p'],
    'requires': '{p} .goes ≡ true → Ready (draftAt {p}) {m} {out} (releaseLength * length (take (blockCountOf {m}) {ys}))',
    'callees': {
        'release::turns': {'req': 'yes', 'ens': 'Ends {3} {0} {2} {1} r {w0} {w2} {w1}'},
    },
    'asks': ['(asked (is-true (p .goes) yes0))'],
    'says': ['(ends-yes p m out ys r0 _ _ _ (is-true (p .goes) yes0) e0)', '(ends-no p m out ys (is-false (p .goes) no0))'],
    'spec': {
        'lib.ListN': ['take'],
        'Rattle·wire.specs.Fields': ['releaseLength'],
        'Rattle·memory.specs.Layout': ['blockCountOf'],
        'Rattle·blocks.proofs.Ancestry': ['is-true', 'is-false'],
        'Rattle·act.specs.Draft': ['Ready'],
        'Rattle·release·specs.specs.Released': ['draftAt', 'Ends', 'EndsIf'],
        'Rattle·release·proofs.proofs.Releasing': ['ends-yes', 'ends-no'],
    },
}
