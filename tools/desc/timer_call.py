{
    'fn': 'replay::timer_call',
    'kit': 'walks',
    'local': 'Rattle·walks.proofs.Local',
    'types': {'settings': 'counters', 'wire': 'counters'},
    'params': ['cs', 'm', 'ys', 'out', 'go', 'v', 'ans'],
    'callees': {
        'replica::hydrangea_timer': {'ens': 'replied r {w0} {w1} {w2} {w3} ≡ repliedBy (timerCall (lentTo {0} {1} {2}) {3} {4})'},
        'replay::refusal_of': {'ens': 'r ≡ {0} .refusal'},
    },
    'says': ['(called (lentTo cs m ys) out (timer (v .0)) go ans r1 r0 (is-true go yes0) e1 e0)', '(uncalled (lentTo cs m ys) out (timer (v .0)) go ans (is-false go no0))'],
    'spec': {
        'Rattle·protocol.specs.Calls': ['timerCall'],
        'Rattle·protocol.specs.OneCall': ['timer'],
        'Rattle·replica.specs.Reply': ['lentTo', 'replied', 'repliedBy'],
        'Rattle·replay·proofs.proofs.Moves': ['called', 'uncalled'],
        'Rattle·blocks.proofs.Ancestry': ['is-true', 'is-false'],
    },
}
