{
    'fn': 'run::next_turn',
    'kit': 'walks',
    'local': 'Rattle·walks.proofs.Local',
    'types': {'settings': 'counters', 'wire': 'counters'},
    'params': ['cs', 'm', 'ys', 'out', 'buf', 'ls', 't'],
    'requires': 'lineLength ≤ length {ls}',
    'callees': {
        'run::reading::goes_on': {'ens': 'r ≡ goesOn {0}'},
        'run::take_turn': {'req': 'yes', 'ens': 'Went (between (lentTo {0} {1} {2}) {3} {4} {5} {6}) (between (lentTo {w0} {w1} {w2}) {w3} {w4} {w5} r)'},
    },
    'asks': ['(sym e0 ∙ is-true r0 yes0, asked)'],
    'says': ['(turned-on (sym e0 ∙ is-true r0 yes0) e1)', '(turned-over (sym e0 ∙ is-false r0 no0))'],
    'spec': {
        'Rattle·blocks.proofs.Ancestry': ['is-true', 'is-false'],
        'Rattle·replay.specs.Lines': ['lineLength'],
        'Rattle·replica.specs.Reply': ['lentTo'],
        'Rattle·run·specs.specs.Running': ['goesOn', 'between', 'Went'],
        'Rattle·run·proofs.proofs.Turning': ['turned-on', 'turned-over'],
    },
}
