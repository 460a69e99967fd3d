{
    'fn': 'run::replay_known',
    'kit': 'walks',
    'local': 'Rattle·walks.proofs.Local',
    'types': {'settings': 'counters', 'wire': 'counters'},
    'params': ['cs', 'm', 'ys', 'out', 'buf', 'ls', 't'],
    'callees': {
        'replay::input::part_of': {'ens': 'r .now ≡ part {0} {1} {2}'},
        'replay::start': {'ens': 'r ≡ start {0}'},
        'replay::run_steps': {'ens': 'standing (lentTo {w0} {w1} {w2}) {w3} {w5} r ≡ steps {6} {4} (2 ^ {7} - 1) (standing (lentTo {0} {1} {2}) {3} {5} {8})'},
    },
    'says': ['(known-steps t buf (lentTo cs m ys) out ls e0 e1 e2)'],
    'spec': {
        'Prim.Native.Nat': ['_-_', '_^_'],
        'Rattle·codec.specs.Bytes': ['part'],
        'Rattle·replica.specs.Reply': ['lentTo'],
        'Rattle·replay.specs.Replay': ['start', 'standing', 'steps'],
        'Rattle·run·proofs.proofs.Turning': ['known-steps'],
    },
}
