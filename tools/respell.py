#!/usr/bin/env python3
"""respell.py: once, at the top of the repository, on what /opt/rattle/port/port.py left: the repository's own definitions and lemmas in the spelling of Rattle's
CONTRACT_STYLE.md ('Names'). Types and modules stay in UpperCamelCase, all else is in snake_case; a dash stays only in a lemma's name, between two parts that are
both names of definitions in its statement. Names from src/, names that Rattle makes, operators, local variables, and what stands in a Proof.antt stay.
"""
import collections
import os
import re
import sys

# names that the rules alone would spell wrongly or give twice, each with its reason
CHOSEN = {
    'length_part': 'length-part',            # port.py took it for a name of the library's; `length` and `part` are both definitions
    'get_d_part': 'get_or-part',             # the same; `getD` is `get_or` today
    'highView': 'high_vote_view',            # `high-view`, a field of safety's and wire's records, is `high_view`
    'heldIn': 'held_blocks',                 # `held_in` is a lemma of blocks and a definition of walks
    'timedOut': 'timed_out_records',         # `timed-out`, a field of safety's Traced, is `timed_out`; this is what the example's timer writes
    'onlyOne': 'only_one_name',              # `only_one` is a lemma of protocol
    'ones-in': 'ones_in_lem',                # it says what the library's `ones_in` is
    'entryLength': 'entry_length_kept',      # a field that says so of two memories; `entry_length` is a lemma of protocol and refusals and memory's function in code
}

# names without a dash or a capital, which are Rust's or a local variable's elsewhere: new ones only in the file that declares them and in those that import them from it
IN_FILES = {
    ('decisive/proofs/Copies.antt', 'goes_on'): 'goes_on_lem',        # run's definition `goesOn` is `goes_on`
    ('decisive/proofs/Copies.antt', 'left_out'): 'left_out_lem',      # decisive's definition `leftOut` is `left_out`
    ('decisive/proofs/Search.antt', 'too_few'): 'too_few_lem',        # memory's definition `tooFew` is `too_few`
    ('event/proofs/Holding.antt', 'held_same'): 'held_same_lem',      # protocol's definition `heldSame` is `held_same`
    ('protocol/proofs/chain/Accepted.antt', 'held_same'): 'held_same_lem',  # the same
    ('protocol/proofs/chain/Accepted.antt', 'ground'): 'vote_ground', # `ground` is a word of antt's
}

# names that a file gives by `as` to what it imports
ALIASES = dict(decisiveReply='decisive_reply', nameReply='name_reply', descendsOf='descends_of', certificateFrom='certificate_from', turnsOf='turns_of',
               theTimeout='the_timeout', viewAt='view_at', releaseUpTo='release_up_to', keptOf='kept_of')

# names of the tree before port.py, as must-fail edits and pages still cite them: what port.py made of them
EARLIER = dict(pair.split() for pair in '''
above-more above_more; adds-one adds_one; adds-same adds_same; adds-then adds_then; after-on after_on; after-stop after_stop; afterOf after_of; all-append
all_append; all-both all_both; all-drop all_drop; all-end all_end; all-fit all_fit; all-head all_head; all-in all_in; all-left all_left; all-map all_map;
all-more all_more; all-named all_named; all-of all_of; all-one all_one; all-rest all_rest; all-right all_right; all-same all_same; all-say all_say; all-set
all_set; all-take all_take; all-true all_true; all-without all_without; among-first among_first; and-both and_both; and-last and_last; answerOf answer_of;
any-here any_here; any-none any_none; at-end-of at_end_of; at-one at_one; back-shr back_shr; before-last before_last; below-all below_all; bit-le bit_le;
block-fit block_fit; block-read block_read; block-room block_room; block-view block_view; block-within block_within; blockOf block_of; both-halves
both_halves; by-cases by_cases; by-end by_end; by-form by_form; by-kind by_kind; by-length by_length; by-level by_level; by-name by_name; by-place by_place;
by-tests by_tests; by-word by_word; bytes-drop bytes_drop; bytes-le bytes_le; bytes-rest bytes_rest; bytes-take bytes_take; bytesOf bytes_of; call-same
call_same; calls-same calls_same; came-held came_held; carried-first carried_first; carriedOf carried_of; chained-same chained_same; comes-back comes_back;
coreOf core_of; count-fits count_fits; count-low count_low; count-none count_none; count-ones count_ones; count-same count_same; count-set count_set; countOf
count_of; counted-same counted_same; counts-same counts_same; cutOf cut_of; cuts-nothing cuts_nothing; digest′ digest'; done-end done_end; drop-of-take
drop_of_take; each-more each_more; each-on each_on; ends-at ends_at; ends-on ends_on; ends-there ends_there; endsWith ends_with; entry-found entry_found;
entry-in entry_in; entry-length entry_length; entry-of entry_of; entryAt entry_at; entryOf entry_of; field-at field_at; fields-fit fields_fit; fieldsOf
fields_of; first-on first_on; first-past first_past; first-then first_then; firstOf first_of; firsts-rows firsts_rows; fits-last fits_last; forget-out
forget_out; found-here found_here; found-it found_it; from-end from_end; from-low from_low; from-on from_on; gather-none gather_none; getD-part get_d_part;
gives-none gives_none; gives-same gives_same; gives-then gives_then; goes-on goes_on; has-room has_room; has-same has_same; held-in held_in; held-same
held_same; high-is high_is; high-le high_le; holds-after holds_after; in-all in_all; in-kept in_kept; in-left in_left; in-place in_place; in-rest in_rest;
in-right in_right; in-take in_take; in-window in_window; in-without in_without; inTurn in_turn; is-false is_false; is-found is_found; is-name is_name; is-true
is_true; isHeld is_held; keep-apart keep_apart; kept-cons kept_cons; kept-in kept_in; kept-row kept_row; kept-same kept_same; kind-fits kind_fits; kindOf
kind_of; kinds-kept kinds_kept; knownBy known_by; last-name last_name; last-none last_none; last-one last_one; leBytes le_bytes; left-less left_less; left-out
left_out; left-over left_over; lends-again lends_again; length-before length_before; length-front length_front; length-part length_part; length-without
length_without; lengthOf length_of; line-at line_at; line-same line_same; lineOf line_of; lines-are lines_are; linesOf lines_of; list-put list_put; lookOf
look_of; low-bit low_bit; made-of made_of; map-back map_back; map-more map_more; mask-lt mask_lt; more-by more_by; name-back name_back; name-typed name_typed;
nameOf name_of; nameRules name_rules; named-by named_by; ne-same ne_same; never-first never_first; next-place next_place; no-blocks no_blocks; no-bound
no_bound; no-bytes no_bytes; no-more no_more; no-name no_name; no-read no_read; no-steps no_steps; none-below none_below; none-found none_found; none-here
none_here; none-in none_in; none-kept none_kept; none-left none_left; none-named none_named; none-other none_other; none-read none_read; none-tried
none_tried; not-first not_first; not-found not_found; not-last not_last; not-opened not_opened; not-stopped not_stopped; not-yet not_yet; noted-more
noted_more; noted-other noted_other; notedOf noted_of; number-append number_append; number-same number_same; numberAt number_at; numberOf number_of; one-block
one_block; one-kept one_kept; one-more one_more; one-parent one_parent; only-one only_one; only-parts only_parts; or-left or_left; or-right or_right; orElse
or_else; other-word other_word; over-below over_below; own-open own_open; own-same own_same; ownOf own_of; parent-is parent_is; parent-of parent_of; parentOf
parent_of; part-apart part_apart; part-none part_none; part-off part_off; part-same part_same; pass-on pass_on; pieces-none pieces_none; pieces-step
pieces_step; place-found place_found; placeOf place_of; pow-pos pow_pos; put-one put_one; quiet-of quiet_of; reaches-then reaches_then; read-behind
read_behind; read-fits read_fits; readOf read_of; record-is record_is; record-of record_of; refusal-is refusal_is; regions′ regions'; restOf rest_of; room-of
room_of; row-cons row_cons; row-fits row_fits; row-more row_more; row-same row_same; row-typed row_typed; rowIn row_in; rowOf row_of; rows-apart rows_apart;
rows-none rows_none; rows-same rows_same; rowsOf rows_of; rules′ rules'; run-alone run_alone; runC run_c; same-after same_after; same-end same_end; same-left
same_left; same-name same_name; same-not same_not; same-refl same_refl; same-row same_row; same-test same_test; same-view same_view; same-word same_word;
set-is set_is; settle-is settle_is; shapeOf shape_of; signedOf signed_of; size-is size_is; sizeOf size_of; slots-end slots_end; some-is some_is; some-number
some_number; spotOf spot_of; stepOf step_of; store-long store_long; stored-more stored_more; takes-of takes_of; takes-one takes_one; target-is target_is;
targetOf target_of; tells-none tells_none; tip-same tip_same; too-few too_few; too-many too_many; top-up top_up; tripleOf triple_of; turn-is turn_is;
turn-level turn_level; turn-more turn_more; turn-one turn_one; turned-on turned_on; un-not un_not; up-to up_to; upTo up_to; value-none value_none; view-first
view_first; viewOf view_of; widthOf width_of; with-size with_size; without-fewer without_fewer; wordOf word_of; words-more words_more; written-at written_at;
written-none written_none; written-out written_out; written-read written_read; ⊑-refl ⊑_refl; ⊑-trans ⊑_trans
'''.split(';'))

RESERVED = set('''data record deriving module where use mod pub package open as unfoldable abbrev axiom unfold unfolding ruleset mutual infix infixl infixr elim
let in do Type coe fcoe tcoe hcom com ground assumption search omega grind simp cc rw'''.split())
STD = {'getD': 'get_or'}
TOKEN = re.compile(r"[^\s(){}\[\].,;\"`]+")
WORD = re.compile(r"[\w'′-]+")
CAMEL = re.compile(r"[a-z]\w*?[A-Z]|[a-z][A-Z]")
DECLARED = re.compile(r"^( *)((?:(?:pub|abbrev|unfoldable|axiom) )*)([^\s(){}\[\];,|.]+(?: [^\s(){}\[\];,|.:=]+)*) : ")
TYPE = re.compile(r"^( *)(?:pub )?(data|record) ([^\s(){}]+)")


def files(top, *endings):
    for folder, below, names in os.walk(top):
        below[:] = sorted(d for d in below if d not in ('out', 'target', 'node_modules', '.git'))
        for name in sorted(names):
            if name.endswith(endings):
                yield os.path.join(folder, name)


def read(path):
    with open(path, encoding='utf-8') as f:
        return f.read()


# ---- what is declared: (file, line, kind, name, statement); kind is type, field (also of data), definition or lemma
def declared(path):
    lines = read(path).split('\n')
    inside = []
    for i, line in enumerate(lines):
        if not line.strip() or line.lstrip().startswith('--'):
            continue
        indent = len(line) - len(line.lstrip())
        while inside and indent <= inside[-1]:
            inside.pop()
        m = TYPE.match(line)
        if m and not line.rstrip().endswith('}'):
            yield path, i, 'type', m.group(3), ''
            if line.rstrip().endswith(' where'):
                inside.append(indent)
            continue
        if re.match(r' *(use|pub use|unfoldable pub use|module|open|let|in|elim|λ|\|)\b', line):
            continue
        m = DECLARED.match(line)
        if not m:
            continue
        body = [line[m.end():]]
        k = i + 1
        while k < len(lines) and lines[k].strip() and len(lines[k]) - len(lines[k].lstrip()) > indent:
            body.append(lines[k])
            k += 1
        kind = 'field' if inside else 'definition' if 'abbrev' in m.group(2) or 'unfoldable' in m.group(2) else 'lemma'
        for name in m.group(3).split():
            yield path, i, kind, name, '\n'.join(body)


def snake(word):
    if word in STD:
        return STD[word]
    if word[:1].isupper() or not word.isascii() and not re.search('[a-z][A-Z]', word):
        return word
    return re.sub(r'(?<=[a-z0-9])([A-Z])', lambda m: '_' + m.group(1).lower(), word)


def respelt(name, kind, statement, names):
    """The name by the rules; names: what is the name of a definition."""
    if kind == 'type' or '◌' in name or re.fullmatch(r"[^\w-]+", name):
        return name
    parts = [p for p in name.split('-')]
    if any(not p for p in parts):
        return name
    words = [snake(p) for p in parts]
    words = [w.lower() if re.fullmatch('[A-Z]', w) and len(words) > 1 else w for w in words]
    if len(words) == 1:
        return words[0]
    if kind != 'lemma':
        return '_'.join(words)
    bound = set()
    for m in re.finditer(r"[({]([^(){}:]+) : |λ ([^.()]+)\.", statement):
        bound |= set((m.group(1) or m.group(2)).split())
    there = {snake(t) for t in TOKEN.findall(statement)} | {p for t in statement.split() for p in re.findall(r"\.([\w'-]+)", t)}
    there = {t for t in there if t not in bound}
    segments = []
    k = 0
    while k < len(words):
        for n in range(len(words) - k, 0, -1):
            joined = '_'.join(words[k:k + n])
            known = joined in names and (joined in there or joined[0].isupper())
            if known or n == 1 and (re.fullmatch(r"\W+", joined) or joined.isdigit() and words[0] in names):
                segments.append((joined, True))
                break
        else:
            n = 1
            segments.append((words[k], False))
        k += n
    said = segments[0][0]
    for a, b in zip(segments, segments[1:]):
        said += ('-' if a[1] and b[1] else '_') + b[0]
    return said


def table():
    own = [d for path in files('crates', '.antt') if not path.endswith('/Proof.antt') for d in declared(path)]
    names = {snake(n) if '-' not in n else '_'.join(snake(p) for p in n.split('-')) for _, _, kind, n, _ in own if kind != 'lemma'}
    names |= rust_names()
    names |= set('length drop take append map set get_or replicate not cond eqb ltb leb sets rows part min max div mod elem zip concat reverse filter'.split())
    kinds = collections.defaultdict(set)
    for _, _, kind, n, _ in own:
        kinds[n].add(kind)
    new = {}
    for path, _, kind, n, statement in own:
        kind = 'type' if 'type' in kinds[n] else 'definition' if kinds[n] & {'definition', 'field'} else 'lemma'
        said = CHOSEN.get(n) or respelt(n, kind, statement, names)
        # the same lemma name in several places: with fewest dashes
        if n not in new or new[n].count('-') > said.count('-'):
            new[n] = said
    # a lemma that would get a definition's name, or that of a function in code
    taken = {said for n, said in new.items() if kinds[n] & {'type', 'field', 'definition'}}
    code = functions()
    for n, said in new.items():
        if kinds[n] == {'lemma'} and said != n and (said in taken or said in code):
            new[n] = said + '_lem'
    return new, kinds, own


def functions():
    return {f for path in files('crates', '.rt') for f in re.findall(r'\bfn (\w+)', re.sub(r'//.*', '', read(path)))}


def rust_names():
    said = set()
    for path in files('crates', '.rt'):
        text = re.sub(r'//.*', '', read(path))
        said |= set(re.findall(r'\b(?:fn|struct|enum|const|type|trait|mod) (\w+)', text))
        said |= set(re.findall(r'^\s*(?:pub )?(\w+): [^=\n]*,$', text, re.M))
        said |= set(re.findall(r'^    ([A-Z]\w*)(?:\(.*\))?,$', text, re.M))
    return said


# ---- the words of a text
def in_code(text, new):
    return TOKEN.sub(lambda m: new.get(m.group(), m.group()), text)


def in_words(text, new):
    """Of a comment or a page: a camelCase name wherever it stands, a name with a dash or a prime only in backticks."""
    def word(m, quoted):
        w, end = m.group(), ''
        if w not in new and w.endswith("'s"):
            w, end = w[:-2], "'s"
        return new.get(w, w) + end if quoted or re.match(r"[a-z]+[A-Z][\w']*$|[a-z]+[A-Z][\w-]*$", w) and CAMEL.match(w) else w + end
    parts = re.split(r'(`[^`\n]*`)', text)
    return ''.join(WORD.sub(lambda m: word(m, p.startswith('`')), p) for p in parts)


def with_comments(text, mark, code, words):
    said = []
    for line in text.split('\n'):
        m = re.match(mark, line)
        said.append(code(m.group(1)) + words(m.group(2)) if m else code(line))
    return '\n'.join(said)


ANTT_COMMENT = r'^((?:.*?(?<=\s))??)(--(?:\s.*)?)$'
CODE_COMMENT = r'^((?:[^"/]|"(?:[^"\\]|\\.)*"|/(?!/))*)(//.*)$'
HASH_COMMENT = r'^((?:.*?\s)??)(#(?:\s.*|!.*)?)$'


def imported(text):
    """The names that a text imports from the libraries: there they are not ours, though a lemma of ours may be spelt so elsewhere."""
    own = set(os.listdir('crates'))
    said = set()
    for m in re.finditer(r'\buse ([\w.]+)\.\{([^}]*)\}', text):
        path = m.group(1).split('.')
        if path[0] != 'Rattle' or path[1] not in own:
            said |= {name.split(' as ')[0].strip() for name in m.group(2).split(',')}
    return said


def write(path, text, old, counts):
    if text != old:
        with open(path, 'w', encoding='utf-8') as f:
            f.write(text)
        counts[0] += 1


def main():
    new, kinds, own = table()
    changed = {a: b for a, b in new.items() if a != b} | ALIASES
    report(new, changed, kinds, own)
    words = dict(changed)
    for was, now in EARLIER.items():
        now = new.get(now, now)
        if was not in words and was != now:
            words[was] = now
    source = {a: b for a, b in changed.items() if re.search("[-'A-Z]", a)}
    counts = [0]
    for path in files('crates', '.antt'):
        old = read(path)
        library = imported(old)
        here = {a: b for a, b in changed.items() if a not in library}
        for (home, name), said in IN_FILES.items():
            module = 'Rattle.' + home[:-5].replace('/', '.')
            if path == 'crates/' + home or re.search(r'use ' + re.escape(module) + r'\.\{[^}]*(?<![\w\'-])' + name + r"(?![\w'-])", old):
                here[name] = said
        scoped = {name: said for name, said in here.items() if changed.get(name) != said}

        fixed = set(scoped)
        if path.endswith('/Proof.antt'):
            # there it is a step of the walk, which has the name of a function in code, but for the fields of our own records
            fixed |= {name for name in changed if 'field' not in kinds.get(name, ())}

        def code(text):
            # a name of `fixed` isn't meant behind a dot, but at the end of a path
            def word(m):
                if m.group() in fixed and re.search(r"(?<![\w.])(?!Rattle\.)[^\s{};,]*\.$", text[:m.start()]):
                    return m.group()
                return here.get(m.group(), m.group())
            return TOKEN.sub(word, text)
        write(path, with_comments(old, ANTT_COMMENT, code, lambda t: in_words(t, words)), old, counts)
    for path in files('crates', '.rt'):
        old = read(path)

        def code(text):
            parts = re.split(r'("(?:[^"\\\n]|\\.)*")', text)
            return ''.join(p if p.startswith('"') else in_code(p, source) for p in parts)
        write(path, with_comments(old, CODE_COMMENT, code, lambda t: in_words(t, words)), old, counts)
    for path in [*files('crates', '.edit'), *files('edits', '.edit')]:
        old = read(path)

        def edit(line):
            m = re.match(r'(old:|new:)(.*)$', line)
            if m:
                return m.group(1) + in_code(m.group(2), words)
            return line if line.startswith('file:') else in_words(line, words) if line.startswith('#') else in_code(line, words)
        write(path, '\n'.join(edit(line) for line in old.split('\n')), old, counts)
    pages = [p for p in os.listdir('.') if p.endswith('.md')]
    for path in [*sorted(pages), *files('docs', '.md'), *files('host', '.md')]:
        old = read(path)
        write(path, in_words(old, words), old, counts)
    for folder in ('tools', 'host'):
        for path in files(folder, '.py', '.rs', '.sh', ''):
            if os.path.basename(path) == 'respell.py' or os.path.islink(path):
                continue
            try:
                old = read(path)
            except UnicodeDecodeError:
                continue
            mark = CODE_COMMENT if path.endswith('.rs') else HASH_COMMENT if path.endswith(('.py', '.sh')) or old.startswith('#!') else None
            if mark:
                write(path, with_comments(old, mark, lambda t: t, lambda t: in_words(t, words)), old, counts)
    print(f'{len(changed) - len(ALIASES)} of {len(new)} names respelt, {len(ALIASES)} aliases, {len(IN_FILES)} in some files alone; {counts[0]} files written')


def report(new, changed, kinds, own):
    """The table, and what is wrong with it: nothing is written then."""
    for a, b in sorted(changed.items()):
        print(f"{a} -> {b}")
    wrong = []
    back = collections.defaultdict(set)
    for a, b in new.items():
        back[b].add(a)
    alone = {name for _, name in IN_FILES}
    for b, names in sorted(back.items()):
        if len(names - alone) > 1:
            wrong.append(f'{b}: {", ".join(sorted(names))}')
        if b in RESERVED and not names <= alone | {'let', '{', '→'}:
            wrong.append(f'{b} is a word of antt')
    for path in files('crates', '.rt'):
        text = re.sub(r'//.*', '', read(path))
        held = set(re.findall(r'^\s*(?:pub )?(?:ghost )?(\w+): [^=\n]*,$', text, re.M)) | set(re.findall(r'\b(?:const|type) (\w+)', text))
        for m in re.finditer(r'\bfn \w+[^({]*\(([^{]*?)\)\s*(?:->|requires|ensures|\{|$)', text, re.M):
            held |= set(re.findall(r'(\w+)\s*:', m.group(1)))
        for b in sorted(held & set(changed.values())):
            wrong.append(f'{path}: {b} is a field, a constant or a parameter')
    # a name that the same file has already (imported, or bound): the old and the new one must not meet. A Proof.antt imports modules by the functions' names.
    meets = collections.defaultdict(set)
    for a, b in changed.items():
        meets[b].add(a)
    for path in files('crates', '.antt'):
        if path.endswith('/Proof.antt'):
            continue
        there = set(TOKEN.findall(re.sub(r'(^|\s)--.*', '', read(path))))
        scoped = {name for home, name in IN_FILES if name in there}
        for b in sorted(there & set(meets)):
            if meets[b] & there and b not in scoped:
                wrong.append(f'{path}: {b} is there beside {", ".join(sorted(meets[b] & there))}')
    if wrong:
        print('\n'.join(wrong), file=sys.stderr)
        raise SystemExit(1)


if __name__ == '__main__':
    main()
