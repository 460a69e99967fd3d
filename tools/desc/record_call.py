{
    'fn': 'replay::record_call',
    'kit': 'walks',
    'local': 'Rattle·walks.proofs.Local',
    'types': {'settings': 'counters', 'wire': 'counters'},
    'params': ['cs', 'm', 'ys', 'out', 'inp', 'go', 'at', 'n', 'ans'],
    'callees': {
        'replay::input::part_of': {'ens': 'r .now ≡ part {0} {1} {2}'},
        'replica::hydrangea_record': {'ens': 'replied r {w0} {w1} {w2} {w3} ≡ repliedBy (recordCall byList (lentTo {0} {1} {2}) {3} {4})'},
        'replay::refusal_of': {'ens': 'r ≡ {0} .refusal'},
    },
    'says': ['(called (lentTo cs m ys) out (receive (part inp at n) none) go ans r2 r1 (is-true go yes0) e2 (e1 ∙ ap (λ (b : List ℕ). repliedBy (recordCall byList (lentTo cs m ys) out b)) e0 ∙ ap repliedBy (sym (record-as-before byList (lentTo cs m ys) out (part inp at n)))))', '(uncalled (lentTo cs m ys) out (receive (part inp at n) none) go ans (is-false go no0))'],
    'spec': {
        'Rattle·codec.specs.Bytes': ['part'],
        'Rattle·memory.specs.Leaders': ['byList'],
        'Rattle·protocol.specs.Calls': ['recordCall'],
        'Rattle·protocol.specs.Contents': ['none'],
        'Rattle·protocol.specs.OneCall': ['receive'],
        'Rattle·replica.specs.Reply': ['lentTo', 'replied', 'repliedBy'],
        'Rattle·protocol.proofs.call.Contents': ['record-as-before'],
        'Rattle·replay·proofs.proofs.Moves': ['called', 'uncalled'],
        'Rattle·blocks.proofs.Ancestry': ['is-true', 'is-false'],
    },
}
