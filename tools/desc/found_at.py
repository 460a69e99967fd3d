{
    'fn': 'blocks::found_at',
    'kit': 'walks',
    'types': {'settings': 'blocks'},
    'params': ['ys', 'at', 'n'],
    'requires': '{n} ≤ length {ys}',
    'callees': {
        'blocks::entry': {'req': 'yes', 'ens': 'r ≡ getD {0} {1} genesis'},
        'blocks::present': {'ens': 'r ≡ found {0}'},
        'blocks::nothing': {'ens': 'r ≡ missing'},
    },
    'asks': ['(omega (arith, ltb→lt at n yes0, asked))'],
    'lets': [[], []],
    'says': [
        '(there at n (ltb→lt at n yes0) (e1 ∙ ap found e0))',
        '(absent at n (nltb→le at n no0) (getD ys at genesis) e2)',
    ],
    'lemmas': """
there : (at n : ℕ) → at < n → {b : Block} {r : Found} → r ≡ found b → r ≡ cond (ltb at n) (found b) missing
there at n h e = rw (lt-ltb at n h) e

absent : (at n : ℕ) → n ≤ at → (b : Block) {r : Found} → r ≡ missing → r ≡ cond (ltb at n) (found b) missing
absent at n h b e = rw (le-ltb at n h) e
""",
    'spec': {
        'mathlib.Core.Bool': ['cond'],
        'borrow.Author.Tests': ['lt-ltb', 'le-ltb'],
        'Rattle·blocks·specs.specs.Store': ['genesis', 'found', 'missing'],
    },
}
