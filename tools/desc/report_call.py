{
    'fn': 'replay::report_call',
    'kit': 'walks',
    'local': 'Rattle·walks.proofs.Local',
    'types': {'settings': 'counters', 'wire': 'counters'},
    'params': ['cs', 'ls', 'go', 'used', 'ans', 'p'],
    'requires': '({go} ≡ true → ({p} .filled + lineLength ≤ length {ls}) × ({p} .at + {used} < 2 ^ 64))',
    'callees': {
        'replay::report': {'req': 'yes', 'ens': '(r ≡ cond {2} (behind {5} {3} {4}) {5}) × ({w1} ≡ cond {2} (withLine {1} {5} {4} {0}) {1})'},
    },
    'asks': ['asked'],
    'says': ['(refl, e0)'],
    'spec': {
        'mathlib.Core.Bool': ['cond'],
        'Rattle·replay·specs.specs.Lines': ['lineLength'],
        'Rattle·replay·specs.specs.Replay': ['behind', 'withLine'],
    },
}
