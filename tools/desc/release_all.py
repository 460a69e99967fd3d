{
    'fn': 'release::release_all',
    'kit': 'walks',
    'types': {'settings': 'counters', 'wire': 'counters', 'certificate': 'counters', 'act': 'release'},
    'params': ['m', 'ys', 'out', 'd', 'k'],
    'requires': '({k} ≤ storeLength) × (({d} .at ≤ length {out}) × (1 ≤ {k} → Ready {d} {m} {out} (releaseLength * length (take (blockCountOf {m}) {ys}))))',
    'callees': {
        'release::first_turn': {'ens': 'r ≡ firstTurn {0} {1}'},
        'release::turns_if': {'req': 'yes', 'ens': 'EndsIf {3} {0} {2} {1} r {w0} {w2} {w1}'},
        'release::finished': {'req': 'yes', 'ens': 'r ≡ finishedOf {0} {1} {2}'},
    },
    'asks': ['(ready-first d m out ys k r0 e0 (asked .1 .1))', '(may-finish d m out ys k r0 e0 (asked .1 .0) r1 _ _ _ e1)'],
    'says': ['(finishes d m out ys k r0 e0 (asked .1 .0) r1 _ _ _ e1 r2 e2)'],
    'spec': {
        'lib.ListN': ['take'],
        'Rattle·wire.specs.Fields': ['releaseLength'],
        'Rattle·memory.specs.Layout': ['blockCountOf'],
        'Rattle·act.specs.Draft': ['Ready'],
        'Rattle·protocol.specs.Refusals': ['storeLength'],
        'Rattle·release·specs.specs.Released': ['firstTurn', 'EndsIf', 'draftAt', 'finishedOf'],
        'Rattle·release·proofs.proofs.Releasing': ['ready-first', 'may-finish', 'finishes'],
    },
}
