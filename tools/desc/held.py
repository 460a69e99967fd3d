{
    'fn': 'blocks::held',
    'kit': 'walks',
    'types': {'settings': 'blocks'},
    'params': ['ys', 'count', 'tip', 'name'],
    'callees': {
        'blocks::search': {'ens': 'r ≡ find {2} (take {1} {0})'},
        'blocks::pick': {'ens': 'r ≡ cond (sameBytes ({0} .name) {1}) (found {0}) {2}'},
    },
    'says': ['(held-is tip (take count ys) name (e1 ∙ ap (cond (sameBytes (tip .name) name) (found tip)) e0))'],
    'lemmas': """
held-is : (tip : Block) (l : List Block) (name : List ℕ) {r : Found} → r ≡ cond (sameBytes (tip .name) name) (found tip) (find name l) → r ≡ heldOf tip l name
unfolding heldOf
held-is tip l name e = e
""",
    'spec': {
        'mathlib.Core.Bool': ['cond'],
        'lib.ListN': ['take'],
        'Rattle·codec.specs.Names': ['sameBytes'],
        'Rattle·blocks·specs.specs.Store': ['find', 'found', 'held as heldOf'],
    },
}
