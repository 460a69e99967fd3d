{
    'fn': 'replay::propose_call',
    'kit': 'walks',
    'local': 'Rattle·walks.proofs.Local',
    'types': {'settings': 'counters', 'wire': 'counters'},
    'params': ['cs', 'm', 'ys', 'out', 'go', 'nm', 'ans'],
    'callees': {
        'replica::hydrangea_propose': {'ens': 'replied r {w0} {w1} {w2} {w3} ≡ repliedBy (proposeCall byList (lentTo {0} {1} {2}) {3} ({4} .bytes))'},
        'replay::refusal_of': {'ens': 'r ≡ {0} .refusal'},
    },
    'says': ['(called (lentTo cs m ys) out (propose (nm .bytes) none) go ans r1 r0 (is-true go yes0) e1 (e0 ∙ ap repliedBy (sym (propose-as-before byList (lentTo cs m ys) out (nm .bytes)))))', '(uncalled (lentTo cs m ys) out (propose (nm .bytes) none) go ans (is-false go no0))'],
    'spec': {
        'Rattle·memory.specs.Leaders': ['byList'],
        'Rattle·protocol.specs.Calls': ['proposeCall'],
        'Rattle·protocol.specs.Contents': ['none'],
        'Rattle·protocol.specs.OneCall': ['propose'],
        'Rattle·replica.specs.Reply': ['lentTo', 'replied', 'repliedBy'],
        'Rattle·protocol.proofs.call.Contents': ['propose-as-before'],
        'Rattle·replay·proofs.proofs.Moves': ['called', 'uncalled'],
        'Rattle·blocks.proofs.Ancestry': ['is-true', 'is-false'],
    },
}
