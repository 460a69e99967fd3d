{
    'fn': 'replica::propose_judged',
    'like': 'hydrangea_calls',
    'params': ['cs', 'm', 'ys', 'room', 'name'],
    'callees': {
        'judge::propose': {'ens': '(s : List Block) → length s ≡ {2} → r ≡ proposeWant (lent {0} {1} s) {3} {4}'},
        'perform::late_propose': {'ens': 'r ≡ judgedBy (orElse ({0} .refusal) (firstOf (latePropose {0} {1} {2}))) {1} {2}'},
        'blocks::held': {'ens': 'r ≡ heldOf {2} (take {1} {0}) {3}'},
    },
    'says': ['(refl, propose-judges room (name .bytes) (lent cs m ys) r0 r1 r2 (record { want = e0 ys refl; found = e1; under = e2 }) r3 e3)'],
    'spec': {
        'Rattle·perform.proofs.Deciding': ['propose-judges'],
    },
}
