{
    'fn': 'run::with_store',
    'kit': 'walks',
    'local': 'Rattle·walks.proofs.Local',
    'types': {'settings': 'counters', 'wire': 'counters'},
    'params': ['m', 'out', 'buf', 'ls'],
    'requires': '(lineLength ≤ length {ls}) × (largest ≤ length {buf})',
    'callees': {
        'run::empty_block': {'ens': 'r ≡ emptyBlock'},
        'run::with_counters': {'req': 'yes', 'ens': 'Program (2 ^ 62 - 1) {0} {1} {2} {4} {w0} {w1} {w2} {w4} r'},
    },
    'asks': ['asked'],
    'says': ['(with-empty-store e0 e1)'],
    'spec': {
        'Prim.Native.Nat': ['_-_', '_^_'],
        'Rattle·settings.specs.Quorum': ['largest'],
        'Rattle·replay.specs.Lines': ['lineLength'],
        'Rattle·run·specs.specs.Running': ['emptyBlock', 'Program'],
        'Rattle·run·proofs.proofs.Turning': ['with-empty-store'],
    },
}
