{
    'fn': 'release::release_target',
    'kit': 'walks',
    'types': {'settings': 'blocks'},
    'params': ['m', 'ys', 'out', 'tip', 'at', 't'],
    'requires': 'Releases {tip} {at} {t} {m} {out} {ys}',
    'callees': {
        'memory::block_count': {'req': 'yes', 'ens': 'r ≡ blockCountOf {0}'},
        'memory::own': {'req': 'yes', 'ens': 'r ≡ ownOf {0}'},
        'blocks::release': {'req': 'yes', 'ens': 'Written {4} ({5} .0) {7} {6} (ancestry {2} (take {1} {0}) {3}) r {w6}'},
        'blocks::drop_others': {'ens': '(r ≡ length (kept {2} (take {1} {0}))) × ({w0} ≡ dropped {2} {1} {0})'},
        'release::put_count': {'req': 'yes', 'ens': '{w0} ≡ withBlockCount {0} {1}'},
    },
    'asks': [
        '(omega (arith, asked .long))',
        '(omega (arith, asked .long))',
        '(line-fits tip at t m out ys asked r0 e0)',
        '(asked .long, count-fits tip at t m out ys asked r0 e0 r3 (e3 .0))',
    ],
    'says': ['(all-put tip at t m out ys asked r0 e0 r1 r2 r3 _ _ _ e1 e2 e3 e4)'],
    'spec': {
        'lib.ListN': ['take'],
        'Rattle·blocks.specs.Store': ['ancestry', 'kept', 'dropped'],
        'Rattle·blocks.proofs.Releases': ['Written'],
        'Rattle·memory.specs.Layout': ['memoryLength', 'ownOf', 'blockCountOf', 'withBlockCount'],
        'Rattle·release·specs.specs.Released': ['Releases', 'Released'],
        'Rattle·release·proofs.proofs.Putting': ['line-fits', 'count-fits', 'all-put'],
    },
}
