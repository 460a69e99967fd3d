{
    'fn': 'blocks::put_line',
    'kit': 'walks',
    'types': {'settings': 'blocks'},
    'about': 'It calls itself: the method of `mutual-elim`, at the height. `out` is lent again for the call of itself, and then for `put_one`.',
    'params': ['ys', 'count', 'tip', 'b', 'sender', 'view', 'out', 'at'],
    'requires': '(descendsOf {tip} (take {count} {ys}) {b} ≡ true) × ({at} + 56 * length (ancestry {tip} (take {count} {ys}) {b}) ≤ length {out})',
    'measure': 'b .height .0',
    'callees': {
        'blocks::held': {'ens': 'r ≡ heldOf {2} (take {1} {0}) {3}'},
        'blocks::step': {'ens': 'r ≡ onwardOf {0} {1} {2}'},
        'blocks::put_one': {'req': 'yes', 'ens': '(r ≡ {1} + 56) × ({w0} ≡ patch {0} {1} (releaseBytes {2} ({3} .0) ({4} .name) ({4} .height .0)))'},
        'blocks::put_line': {'req': 'yes', 'ens': 'Written {4} ({5} .0) {7} {6} (ancestry {2} (take {1} {0}) {3}) r {w6}'},
    },
    'falls': ['less'],
    'asks': [
        '(below-descends, omega (arith, asked .1, longer))',
        '(omega (arith, e2 .0, asked .1, longer, l2-1))',
        '(omega (arith, asked .1, ap length alone))',
    ],
    'lets': [
        [
            ('way', 'r1 ≡ onwardOf tip b (heldOf tip (take count ys) (b .parent))', 'e1 ∙ ap (onwardOf tip b) e0'),
            ('going', 'onwardOf tip b (heldOf tip (take count ys) (b .parent)) .goes ≡ true', 'sym (ap (λ (z : Onward). z .goes) way) ∙ is-true (r1 .goes) yes0'),
            ('less', 'r1 .block .height .0 < b .height .0', 'subst (λ (z : Onward). z .block .height .0 < b .height .0) (sym way) (lower tip (take count ys) b going)'),
            ('below-descends', 'descendsOf tip (take count ys) (r1 .block) ≡ true', 'ap (λ (z : Onward). descendsOf tip (take count ys) (z .block)) way ∙ sym (descends-on tip (take count ys) b going) ∙ asked .0'),
            ('row', 'ancestry tip (take count ys) b ≡ ancestry tip (take count ys) (r1 .block) ++ (b ∷ [])', 'ancestry-on tip (take count ys) b (asked .0) going ∙ ap (λ (z : Onward). ancestry tip (take count ys) (z .block) ++ (b ∷ [])) (sym way)'),
            ('longer', 'length (ancestry tip (take count ys) b) ≡ length (ancestry tip (take count ys) (r1 .block)) + 1', 'ap length row ∙ length-append (ancestry tip (take count ys) (r1 .block)) (b ∷ [])'),
        ],
        [
            ('way', 'r1 ≡ onwardOf tip b (heldOf tip (take count ys) (b .parent))', 'e1 ∙ ap (onwardOf tip b) e0'),
            ('alone', 'ancestry tip (take count ys) b ≡ b ∷ []', 'ancestry-off tip (take count ys) b (asked .0) (sym (ap (λ (z : Onward). z .goes) way) ∙ is-false (r1 .goes) no0)'),
        ],
    ],
    'says': [
        '(written-more sender (view .0) at out (ancestry tip (take count ys) (r1 .block)) (ancestry tip (take count ys) b) b r2 r3 _ _ (name-size (b .name) (Block-name b b-is)) row e2 e3)',
        '(written-more sender (view .0) at out [] (ancestry tip (take count ys) b) b at r4 out _ (name-size (b .name) (Block-name b b-is)) alone (written-none sender (view .0) at out) e4)',
    ],
    'spec': {
        'mathlib.Core.List': ['_++_'],
        'lib.ListN': ['take', 'length-append'],
        'Rattle·codec.specs.Bytes': ['patch'],
        'Rattle·wire.specs.Encode': ['releaseBytes'],
        'Rattle·blocks·specs.specs.Store': ['held as heldOf', 'descends as descendsOf', 'ancestry'],
        'Rattle·blocks·specs.specs.Steps': ['onwardOf'],
        'Rattle·blocks·proofs.proofs.Ancestry': ['is-true', 'is-false', 'lower', 'descends-on', 'ancestry-on', 'ancestry-off'],
        'Rattle·blocks·proofs.proofs.Releases': ['Written', 'name-size', 'written-none', 'written-more'],
    },
}
