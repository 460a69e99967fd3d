{
    'fn': 'blocks::name_of',
    'kit': 'walks',
    'types': {'settings': 'blocks'},
    'params': ['ys', 'i'],
    'requires': '{i} < length {ys}',
    'callees': {
        'blocks::entry': {'req': 'yes', 'ens': 'r ≡ getD {0} {1} genesis'},
    },
    'asks': ['asked'],
    'says': ['(ap (λ (b : Block). b .name) e0)'],
    'spec': {
        'Rattle·blocks·specs.specs.Store': ['genesis'],
    },
}
