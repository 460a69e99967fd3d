{
    'fn': 'replica::record_refusal',
    'like': 'contents_calls',
    'params': ['cs', 'm', 'entries', 'room', 'rec', 'contents'],
    'callees': {
        'judge::contents::record_due': {'ens': '(s : List Block) → length s ≡ {2} → r ≡ recordDue (lent {0} {1} s) {3} {4} {5}'},
    },
    'says': ['(refl, e0)'],
    'spec': {
        'Rattle·judge.specs.Contents': ['recordDue'],
    },
}
