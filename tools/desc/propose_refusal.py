{
    'fn': 'replica::propose_refusal',
    'like': 'contents_calls',
    'params': ['cs', 'm', 'ys', 'room', 'name', 'contents'],
    'callees': {
        'judge::contents::propose_want': {'ens': '(s : List Block) → length s ≡ {2} → r ≡ proposeWantWith (lent {0} {1} s) {3} {4} {5}'},
        'blocks::held': {'ens': 'r ≡ heldOf {2} (take {1} {0}) {3}'},
        'judge::contents::propose_due': {'ens': 'r ≡ proposeDue {0} {1} {2} {3} {4}'},
    },
    'says': ['(refl, propose-refusal-is cs m ys room (name .bytes) contents r0 r1 r2 (e0 ys refl) e1 e2 e3)'],
    'spec': {
        'Rattle·blocks.specs.Store': ['held as heldOf'],
        'Rattle·judge.specs.Contents': ['proposeWantWith', 'proposeDue'],
        'Rattle·replica·proofs.proofs.Calling': ['propose-refusal-is'],
    },
}
