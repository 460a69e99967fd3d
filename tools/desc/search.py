{
    'fn': 'blocks::search',
    'kit': 'walks',
    'types': {'settings': 'blocks'},
    'params': ['ys', 'count', 'name'],
    'callees': {
        'blocks::lesser': {'ens': 'r ≡ cond (ltb {0} {1}) {0} {1}'},
        'blocks::scan': {'req': 'yes', 'ens': 'r ≡ placeOf {2} (take {1} {0})'},
        'blocks::found_at': {'req': 'yes', 'ens': 'r ≡ cond (ltb {1} {2}) (found (getD {0} {1} genesis)) missing'},
    },
    'asks': [
        '(subst (λ (k : ℕ). k ≤ length ys) (sym e0) (lesser-most count (length ys)))',
        '(subst (λ (k : ℕ). k ≤ length ys) (sym e0) (lesser-most count (length ys)))',
    ],
    'says': ['(e2 ∙ ap (λ (p : ℕ). cond (ltb p r0) (found (getD ys p genesis)) missing) e1 ∙ placed name ys r0 (subst (λ (k : ℕ). k ≤ length ys) (sym e0) (lesser-most count (length ys))) ∙ ap (λ (k : ℕ). find name (take k ys)) e0 ∙ ap (find name) (take-lesser count ys))'],
    'spec': {
        'mathlib.Core.Bool': ['cond'],
        'lib.ListN': ['take'],
        'Rattle·blocks·specs.specs.Steps': ['placeOf'],
        'Rattle·blocks·specs.specs.Store': ['genesis', 'find', 'found', 'missing'],
        'Rattle·blocks·proofs.proofs.Finding': ['take-lesser', 'lesser-most', 'placed'],
    },
}
