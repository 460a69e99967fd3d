{
    'fn': 'replica::record_judged',
    'like': 'hydrangea_calls',
    'params': ['cs', 'm', 'ys', 'room', 'rec'],
    'callees': {
        'judge::record': {'ens': '(s : List Block) → length s ≡ {2} → r ≡ recordWant (lent {0} {1} s) {3} {4}'},
        'perform::late_record': {'req': 'yes', 'ens': 'r ≡ judgedBy (orElse ({1} .refusal) (firstOf (lateRules {1} {2} {3} (content {0})))) {2} {3}'},
        'blocks::held': {'ens': 'r ≡ heldOf {2} (take {1} {0}) {3}'},
    },
    'asks': ['(record-shaped room rec (lent cs m ys) r0 r1 r2 (record { want = e0 ys refl; found = e1; under = e2 }))'],
    'says': ['(refl, record-judges room rec (lent cs m ys) r0 r1 r2 (record { want = e0 ys refl; found = e1; under = e2 }) r3 e3)'],
    'spec': {
        'Rattle·perform.proofs.Deciding': ['record-shaped', 'record-judges'],
    },
}
