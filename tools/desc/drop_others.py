{
    'fn': 'blocks::drop_others',
    'kit': 'walks',
    'types': {'settings': 'blocks'},
    'params': ['ys', 'count', 'tip'],
    'callees': {
        'blocks::lesser': {'ens': 'r ≡ cond (ltb {0} {1}) {0} {1}'},
        'blocks::no_verdicts': {'ens': 'r ≡ noVerdicts'},
        'blocks::keep_from': {'req': 'yes', 'ens': 'Stored {2} (take {1} {0}) {0} {3} {5} r {w0}'},
    },
    'asks': ['(omega (arith, e0 ∙ sym (length-lesser count ys)), (omega arith, none-noted tip (take count ys) r1 e1))'],
    'says': ['(stored-all tip count ys r2 _ e2)'],
    'spec': {
        'mathlib.Core.Bool': ['cond'],
        'lib.ListN': ['take'],
        'Rattle·blocks·specs.specs.Steps': ['noVerdicts'],
        'Rattle·blocks·proofs.proofs.Judging': ['none-noted'],
        'Rattle·blocks·proofs.proofs.Dropping': ['Stored', 'length-lesser', 'stored-all'],
    },
}
