{
    'fn': 'blocks::descends',
    'kit': 'walks',
    'types': {'settings': 'blocks'},
    'about': 'It calls itself: the method of `mutual-elim`, at the height.',
    'params': ['ys', 'count', 'tip', 'b'],
    'measure': 'b .height .0',
    'callees': {
        'blocks::held': {'ens': 'r ≡ heldOf {2} (take {1} {0}) {3}'},
        'blocks::step': {'ens': 'r ≡ onwardOf {0} {1} {2}'},
        'blocks::descends': {'ens': 'r ≡ descendsOf {2} (take {1} {0}) {3}'},
    },
    'falls': ['less'],
    'lets': [
        [
            ('way', 'r1 ≡ onwardOf tip b (heldOf tip (take count ys) (b .parent))', 'e1 ∙ ap (onwardOf tip b) e0'),
            ('going', 'onwardOf tip b (heldOf tip (take count ys) (b .parent)) .goes ≡ true', 'sym (ap (λ (z : Onward). z .goes) way) ∙ is-true (r1 .goes) yes0'),
            ('less', 'r1 .block .height .0 < b .height .0', 'subst (λ (z : Onward). z .block .height .0 < b .height .0) (sym way) (lower tip (take count ys) b going)'),
        ],
        [
            ('way', 'r1 ≡ onwardOf tip b (heldOf tip (take count ys) (b .parent))', 'e1 ∙ ap (onwardOf tip b) e0'),
        ],
    ],
    'says': [
        '(e2 ∙ ap (λ (z : Onward). descendsOf tip (take count ys) (z .block)) way ∙ sym (descends-on tip (take count ys) b going))',
        '(ap (λ (z : Onward). z .ends) way ∙ sym (descends-off tip (take count ys) b (sym (ap (λ (z : Onward). z .goes) way) ∙ is-false (r1 .goes) no0)))',
    ],
    'spec': {
        'lib.ListN': ['take'],
        'Rattle·blocks·specs.specs.Store': ['held as heldOf', 'descends as descendsOf'],
        'Rattle·blocks·specs.specs.Steps': ['onwardOf'],
        'Rattle·blocks·proofs.proofs.Ancestry': ['is-true', 'is-false', 'lower', 'descends-on', 'descends-off'],
    },
}
