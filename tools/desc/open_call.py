{
    'fn': 'replay::open_call',
    'kit': 'walks',
    'local': 'Rattle·walks.proofs.Local',
    'types': {'settings': 'counters', 'wire': 'counters'},
    'params': ['cs', 'm', 'ys', 'ns', 'o'],
    'callees': {
        'replica::hydrangea_open': {'ens': 'replied r {w0} {w1} {2} [] ≡ repliedBy (openingCall (lentTo {0} {1} {2}) {3} {4} {5} {6} {7} {8})'},
        'replay::input::first_of': {'ens': 'r .now ≡ part {0} 0 {1}'},
        'replay::refusal_of': {'ens': 'r ≡ {0} .refusal'},
    },
    'says': ['(opens-made (part ns 0 (o .n)) (lentTo cs m ys) o r2 r1 (is-true (o .well) yes0) e0 e2 e1)', '(opens-unmade (part ns 0 (o .n)) (lentTo cs m ys) o (is-false (o .well) no0))'],
    'spec': {
        'Rattle·codec.specs.Bytes': ['part'],
        'Rattle·protocol.specs.Calls': ['openingCall'],
        'Rattle·replica.specs.Reply': ['lentTo', 'replied', 'repliedBy'],
        'Rattle·replay·proofs.proofs.Moves': ['opens-made', 'opens-unmade'],
        'Rattle·blocks.proofs.Ancestry': ['is-true', 'is-false'],
    },
}
