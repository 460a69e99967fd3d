{
    'fn': 'blocks::keep_from',
    'kit': 'walks',
    'types': {'settings': 'blocks'},
    'about': 'It calls itself: the method of `mutual-elim`, at the number of entries left. The store is lent as & to be judged, and then as &mut, for the call of itself and for `fill`.',
    'params': ['ys', 'count', 'tip', 'i', 'left', 'at', 'v'],
    'requires': '({i} + {left} ≡ length (take {count} {ys})) × (({at} ≤ {i}) × Noted {tip} (take {count} {ys}) {i} {v})',
    'measure': 'left',
    'callees': {
        'blocks::entry': {'req': 'yes', 'ens': 'r ≡ getD {0} {1} genesis'},
        'blocks::judged': {'req': 'yes', 'ens': 'r ≡ descendsOf {2} (take {1} {0}) {3}'},
        'blocks::place_of': {'req': 'yes', 'ens': 'r ≡ spotOf {0} {1}'},
        'blocks::noted': {'req': 'yes', 'ens': 'r ≡ notedOf {0} {1} {2}'},
        'blocks::fill': {'ens': '{w0} ≡ set {0} {1} {2}'},
        'blocks::keep_from': {'req': 'yes', 'ens': 'Stored {2} (take {1} {0}) {0} {3} {5} r {w0}'},
    },
    'falls': ['(omega (arith, more))'],
    'fits': ['(omega (arith, i-less, ys-room .0))', '(omega (arith, more))'],
    'asks': [
        'i-less',
        '(asked .1 .1)',
        '(omega (arith, i-less, asked .1 .0, ys-room .0))',
        '(not-yet tip (take count ys) i v (asked .1 .1))',
        '(omega (arith, asked .0, more), (subst (λ (z : Spot). z .next ≤ i + 1) (sym e2) (omega (arith, next-most r1 at, asked .1 .0)), noted-more tip (take count ys) i v (asked .1 .1) r1 r3 (e1 ∙ ap (descendsOf tip (take count ys)) (e0 ∙ sym (getD-take count ys i genesis (omega (arith, within, held-within count ys .0))))) e3))',
    ],
    'lets': [
        [
            ('more', '0 < left', 'ltb→lt 0 left yes0'),
            ('within', 'i < length (take count ys)', 'omega (arith, asked .0, more)'),
            ('i-less', 'i < length ys', 'omega (arith, within, held-within count ys .1)'),
        ],
        [
            ('none', 'length (take count ys) ≤ i', 'omega (arith, asked .0, nltb→le 0 left no0)'),
        ],
    ],
    'says': [
        '(stored-more tip count ys i at r4 _ _ r0 r1 r2 (ys-room .0) within e0 e1 e2 e4 e5)',
        '(stored-none tip (take count ys) ys i at none)',
    ],
    'spec': {
        'lib.ListN': ['take'],
        'Rattle·blocks·specs.specs.Store': ['genesis', 'descends as descendsOf'],
        'Rattle·blocks·specs.specs.Steps': ['spotOf', 'notedOf', 'Noted'],
        'lib.Seq': ['getD-take'],
        'Rattle·blocks·proofs.proofs.Judging': ['not-yet', 'noted-more'],
        'Rattle·blocks·proofs.proofs.Dropping': ['Stored', 'held-within', 'next-most', 'stored-none', 'stored-more'],
    },
}
