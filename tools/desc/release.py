{
    'fn': 'blocks::release',
    'kit': 'walks',
    'types': {'settings': 'blocks'},
    'params': ['ys', 'count', 'tip', 'b', 'sender', 'view', 'out', 'at'],
    'requires': '(descendsOf {tip} (take {count} {ys}) {b} ≡ true) × ({at} + 56 * length (ancestry {tip} (take {count} {ys}) {b}) ≤ length {out})',
    'callees': {
        'blocks::put_line': {'req': 'yes', 'ens': 'Written {4} ({5} .0) {7} {6} (ancestry {2} (take {1} {0}) {3}) r {w6}'},
    },
    'asks': ['asked'],
    'says': ['e0'],
    'spec': {
        'lib.ListN': ['take'],
        'Rattle·blocks·specs.specs.Store': ['descends as descendsOf', 'ancestry'],
        'Rattle·blocks·proofs.proofs.Releases': ['Written'],
    },
}
