#!/usr/bin/env python3
"""Writes the walk (proofs/f/Proof.antt, or proofs/+f/Proof.antt of an f that calls itself) of a function with no loop over lent slices and structs, from its MIR and a description.

    walk.py --mir FILE --desc FILE --kit DIR --src CRATE=FILE.. --out FILE        the walk of one function
    walk.py --types CRATE --mir FILE --kit CRATE --src CRATE=FILE.. --out FILE    a crate's Types.antt, which the walks over its structs import

--mir   what `rt mir CRATE` prints.        --src   the sources in which the structs stand: their fields' names
--kit   the folder of the shared modules (Walk.antt, Data.antt, Calls.antt, ..), for the names to import; with --types the name of their crate
--desc  a Python literal, a dict:
    fn        'crate::f'                     kit       the crate of the shared modules
    params    a name for each parameter. Names of the shared modules (store, some, bytes, word, end, of, full, mem, ..), and y, s, f, C, H, A, W, are taken
    requires  the clause, over {name} (of a slice or a `&mut S`, what it refers to), or left out
    callees   {'crate::g', or 'crate::module::g': {'ens': the clause, over {0}, {1}, .. (the arguments; of a slice its list), r, and {w0}, .. (the last list of argument 0, ..); None where it is not needed, 'req': 'yes' where g has a `requires`}}, f itself among them if it calls itself
    asks      [proof ..]   of each call whose callee has a `requires`, in order.        fits   [proof ..]  of each sum (that it is below 2 ^ 64) and each difference (that what is taken is at most that from which), in order
    says      [proof ..]   of the `ensures`, at each return, in order; '' where f has none, as 'ens' is '' where g has none
    lets      [[(name, type, proof) ..] ..]   facts, in front of the arms: of branch 0 the first and the second, and so on
    measure   of a function that calls itself: the parameter that falls, or a path into it (`b .height .0`).         weight   a function from that to a number, where it is none
    falls    [proof ..]   of each call of itself
    types     {crate: the crate whose Types.antt has its structs}, where that is another
    local     the module with the steps that lend a local and a `&mut S` again, and with `forks` (crates/walks/proofs/Local.antt); then a branch goes by `forks`, which is cheaper to check
    like      the name of a description without fn, for what several share: its keys, callees and imports are added
    spec      {module: [names]} to import: definitions and lemmas.          lemmas   text put in front          about   a sentence for the head of the file
The proofs may name: the parameters; P-is (that the plain parameter P is of its type: `.1` of a number's is its bound); P-room (of a slice); `asked` (the requires);
of call N, from 0: rN (the result), wsN (the last values), isN, eN (its `ensures`), lN-k (the length of the k-th slice that it was lent); yesN, noN (of branch N).
Done: slices lent again as & and as &mut, `&[S]` passed on, `*c` copied out and stored whole at a `&mut S`, fields of a local, calls of any crate, one `if` whose arms come to one value, calls of itself;
with `local` also: a `&mut S` lent again (by a function that does not look behind it), `&mut x` of a local that holds a struct, a local `[x; n]` of structs lent whole as a slice (its content is not followed after that), a callee with one `&[T]` that returns a part of it.
Not done, and said so: loops, `match`, `return` in an arm, an operation other than +, - and <, a field behind a reference, `&S`.
"""
import argparse, ast, os, re, sys

def described(path):
    """the description in a file, with what it shares with others: its own callees come first, and the imports of both are made"""
    d = ast.literal_eval(open(path, encoding='utf-8').read())
    if 'like' not in d: return d
    shared = described(os.path.join(os.path.dirname(path), d['like'] + '.py'))
    spec = {m: shared['spec'].get(m, []) + d['spec'].get(m, []) for m in list(shared['spec']) + [m for m in d['spec'] if m not in shared['spec']]}
    return {**shared, **d, 'callees': {**d['callees'], **shared['callees']}, 'spec': spec}

def parse(text):
    toks = re.findall(r'"[^"]*"|[()]|[^\s()]+', text)
    pos = 0
    def one():
        nonlocal pos
        t = toks[pos]; pos += 1
        if t != '(':
            return t
        out = []
        while toks[pos] != ')':
            out.append(one())
        pos += 1
        return out
    top = []
    while pos < len(toks):
        top.append(one())
    return top

def lst(x, c='lcons'):
    out = []
    while isinstance(x, list) and x[0] == c:
        out.append(x[1]); x = x[2]
    return out

def functions(text):
    found = {}
    def walk(x):
        if isinstance(x, list):
            if x and x[0] == 'fn-def':
                item = x[2]
                found[x[1].strip('"')] = {'lifetimes': int(item[1]), 'params': int(item[3]), 'locals': [l[1] for l in lst(item[4])], 'body': item[5]}
            for y in x: walk(y)
    walk(parse(text))
    return found

SUB = '₀₁₂₃₄₅₆₇₈₉'
def L(k): return 'l' + ''.join(SUB[int(c)] for c in str(k))
def nest(xs, end='tt'):
    s = end
    for x in reversed(xs): s = f'({x}, {s})'
    return s
def path(k): return ' .1' * k + ' .0'
# the callees that go by crate and name: those of one name, and those named by a word of the logic
BY_CRATE = set()
def by_crate(callees):
    last = lambda q: q.split('::')[-1]
    BY_CRATE.update(q for q in callees if last(q) in ('record', 'open') or [last(c) for c in callees].count(last(q)) > 1)
def alias(q): return (q.replace('::', '-') if q in BY_CRATE else q.split('::')[-1]).replace('_', '-')
def cons(xs): return ' ∷ '.join(list(xs) + ['[]'])

class Types:
    """Types of plain data: their row, their `Data`, and their MIR type."""
    def __init__(self, crate, fields):
        self.crate, self.fields, self.used = crate, fields, []
    def struct(self, t):
        q = t[1][1].strip('"')
        if q not in self.used: self.used.append(q)
        return q, q.split('::')[-1]
    def kind(self, t):
        return t if isinstance(t, str) else t[0]
    def row(self, t):
        k = self.kind(t)
        if k == 'tyInt': return f'u{t[1]}'
        if k == 'tyBool': return 'Boolean'
        if k == 'tyUnit': return 'Nought'
        if k == 'tyArray': return f'(Array {self.row(t[1])} {t[2][1]})'
        if k == 'tyNamed': return f'{self.struct(t)[1]}ᴿ'
        raise Exception(f'no row of {t}')
    def data(self, t):
        k = self.kind(t)
        if k == 'tyInt': return {'8': 'byte', '64': 'word'}.get(t[1]) or f'(num w{t[1]})'
        if k == 'tyArray': return f'(bytes {t[2][1]})'
        return {'tyBool': 'flag', 'tyUnit': 'nil'}.get(k) or f'{self.struct(t)[1]}ᴰ'
    def slot(self, t):
        if self.kind(t) == 'tyArray': return f'(ArrayOf (plain (λ _. {self.row(t[1])})) (λ _. tt) {t[2][1]})'
        return f'(plain (λ _. {self.row(t)}))'
    def denot(self, t):
        k = self.kind(t)
        return {'tyInt': 'ℕ', 'tyBool': 'Bool', 'tyUnit': 'Unit {0}', 'tyArray': 'List ℕ'}.get(k) or self.struct(t)[1]
    def val(self, t, x): return f'({self.data(t)} .val {x})'
    def vals(self, t): return f'(λ x. {self.data(t)} .val x ∷ [])'
    def tells(self, t): return f'{self.data(t)} .tells'
    def typed(self, t, x, is_): return f'(fits W {self.data(t)} {x} {is_} .0)'
    def owned(self, t, x, is_):
        r = self.row(t)
        return f'owned ! {r} (Is {r}) ({self.data(t)} .makes 𝓤 H A W) {x} _ {is_} $'
    def mir(self, t):
        k = self.kind(t)
        if k == 'tyInt': return f'tyInt w{t[1]}'
        if k in ('tyBool', 'tyUnit', 'tyPtr'): return k
        if k == 'tyArray': return f'tyArray ({self.mir(t[1])}) {t[2][1]}'
        if k == 'tyNamed': return f'{self.struct(t)[1]}ᵀ'
        lft = lambda l: f'(named {l[1]})' if isinstance(l, list) else l
        if k == 'tyRef': return f'tyRef {lft(t[1])} {t[2]} ({self.behind(t[3])})'
        if k == 'tyStruct': return f'sliceTy ({self.mir(t[2][1])})'
        raise Exception(f'no type {t}')
    def behind(self, t):
        return f'pointee ({self.row(t)} .written)' if self.kind(t) == 'tyNamed' else self.mir(t)
    def layout(self, t):
        """size and alignment"""
        k = self.kind(t)
        if k == 'tyInt': return int(t[1]) // 8, int(t[1]) // 8
        if k == 'tyBool': return 1, 1
        if k == 'tyArray':
            n, a = self.layout(t[1]); return n * int(t[2][1]), a
        if k != 'tyNamed': raise Exception(f'no size of {t}')
        at, al = 0, 1
        for _, f in self.fields[t[1][1].strip('"')]:
            n, a = self.layout(f); at = -(-at // a) * a + n; al = max(al, a)
        return -(-at // al) * al, al
    def offsets(self, t, path):
        out = []
        for k in path:
            at = 0
            for j, (_, f) in enumerate(self.fields[t[1][1].strip('"')]):
                n, a = self.layout(f); at = -(-at // a) * a
                if j == k: out.append((f, at)); t = f; break
                at += n
        return out
    def part(self, v, k):
        """field k of a struct's value"""
        q, n = self.struct(v.ty)
        name, t = self.fields[q][k]
        return Value(t, f'({v.term} .{name})', f'({n}-{plainly(name)} {v.term} {v.is_})')

def plainly(name): return name.strip('«»').replace('_', '-')

def types_file(crate, fields, kit, at):
    """a crate's Types.antt: of each struct of plain data its row, its MIR type, its `Data`, and the relation of each field"""
    T = Types(crate, fields)
    homes = dict(x.split('=') for x in at.others if '=' in x)
    left, mine = [q for q in fields if q.split('::')[0] in [crate] + at.others], []
    while left:
        q = next(q for q in left if not any(T.kind(t) == 'tyNamed' and t[1][1].strip('"') in left for _, t in fields[q]))
        mine.append(q); left.remove(q)
    out = []
    for q in mine:
        n = q.split('::')[1]
        out.append(f'''abbrev pub {n}ᴿ : RattleType
{n}ᴿ = {n}ᵐ.the-row

abbrev pub {n}ᵀ : Ty
{n}ᵀ = {n}′.mir

abbrev pub {n}ᴰ : Data {n}ᴿ
{n}ᴰ = struct {n}ᵐ.the-type {n}′.the-laws {n}′.the-plain {n}′.lowers
''')
        for k, (f, t) in enumerate(fields[q]):
            owed = f'LL.owed {n}ᵐ.the-type {n}′.the-laws x _ is{path(k)}'
            kd = T.kind(t)
            if kd == 'tyArray': pf = f'field-bytes {t[2][1]} (x .{f}) ({owed})'
            elif kd == 'tyNamed': pf = f'again {T.data(t)} (x .{f}) _ ({owed})'
            else: pf = owed
            out.append(f'''pub {n}-{plainly(f)} : (x : {n}) → At {n}ᴰ x → At {T.data(t)} (x .{f})
{n}-{plainly(f)} x is = {pf}
''')
    text = '\n'.join(out)
    words = set(re.findall(r'[^\s(){},;]+', text))
    widths = ''.join(f', {w}' for w in ('w16', 'w32') if w in words)
    uses = [f'use Rattle·{kit}.proofs.Walk.LL', f'use mir.Syntax.{{Ty{widths}}}', 'use denote.RattleType.{RattleType}',
        f'use Rattle·{kit}.proofs.Data.{{{", ".join(n for n in ("Data", "At", "again", "word", "byte", "num", "flag", "nil", "bytes", "struct", "field-bytes") if n in words)}}}']
    for q in [x for x in T.used if x not in mine]: uses.append(f'use Rattle·{homes.get(q.split("::")[0], q.split("::")[0])}.proofs.Types.{{{q.split("::")[1]}ᴰ}}')
    for q in mine:
        c, n = q.split('::')
        s, m = (f'{c}·specs.specs', f'{c}·proofs.proofs') if c == crate else (f'{c}.specs', f'{c}.proofs')
        uses += [f'use Rattle·{s}.declared.{n}.{{{n}}}', f'use Rattle·{m}.{n} as {n}ᵐ', f'use Rattle·{m}.{n}.Laws as {n}′']
    return f'-- The structs of `{crate}` in a walk: of each the row, the MIR type, the `Data`, and the relation of each field. tools/walk.py wrote it. Assumes nothing.\n' + '\n'.join(uses) + '\n\n' + text

class Value:
    def __init__(self, ty, term, is_): self.ty, self.term, self.is_ = ty, term, is_

class Lent:
    """A slice in a local: the parameter p itself, or lent again"""
    def __init__(self, p, how): self.p, self.how = p, how

class Par:
    pass

class Walk:
    def __init__(self, a, d, fns, fields):
        self.d, self.fns = d, fns
        self.crate, self.name = d['fn'].split('::')
        self.fn = fns[d['fn']]
        self.T = Types(self.crate, fields)
        self.N = len(self.fn['locals'])
        self.lines, self.open = [], 0
        self.calls, self.ops, self.asks, self.branches, self.rets, self.selfs = 0, 0, 0, 0, 0, 0
        self.known = []
        self.setup()

    def setup(self):
        self.pars = []
        for i, nm in enumerate(self.d['params']):
            t = self.fn['locals'][i + 1]
            p = Par(); p.i, p.name, p.ty = i, nm, t
            if self.T.kind(t) == 'tyStruct':
                r = t[2][1]; p.kind = 'mut' if r[2] == 'mut' else 'shr'; p.lft = int(r[1][1]); p.elem = r[3]
            elif self.T.kind(t) == 'tyRef':
                if t[2] != 'mut': raise Exception('a & to a struct is not done')
                p.kind = 'ref'; p.lft = int(t[1][1]); p.elem = t[3]
                p.shut = not self.looked_at(i + 1)
            else: p.kind = 'plain'
            if p.kind != 'plain':
                p.row, p.b, p.o, p.g = self.T.row(p.elem), f'{nm}-b', f'{nm}-o', f'{nm}-γ'
                p.now = nm; p.κ, p.q = f'κ{p.lft}', f'q{p.lft}'; p.len = 'refl'
            self.pars.append(p)

    def looked_at(self, k):
        """whether what lies behind the reference in local k is copied or stored"""
        found = []
        def walk(x):
            if not isinstance(x, list): return
            if x[0] == 'copy' and x[1][1] == str(k) and lst(x[1][2]) and lst(x[1][2])[0][0] == 'deref': found.append(x)
            if x[0] == 'assign' and x[1][1] == str(k) and lst(x[1][2]): found.append(x)
            for y in x: walk(y)
        walk(self.fn['body'])
        return bool(found)

    # ---- text
    def put(self, s): self.lines.append(s)
    def bind(self, s): self.lines.append(s); self.open += 1
    def at(self, n): return self.ctx.index(n)
    def front(self, names):
        names = list(names)
        if self.ctx[:len(names)] == names: return
        self.put(f'move ! ({cons(str(self.at(n)) for n in names)}) $')
        self.ctx = names + [c for c in self.ctx if c not in names]
    def drop(self, n):
        self.front([n]); self.put('drop !  $'.replace('  ', ' ')); self.ctx.pop(0)

    def lying(self, p, l=None, g=None): return f'lying {p.row} {p.b} {p.o} {g or p.g} {l or p.now}'
    def slice(self, p): return getattr(p, 's', f'{p.name}-s')
    def count(self, p): return getattr(p, 'n', f'{p.name}-n')
    def fits(self, p): return 'lit< tt' if p.kind == 'array' else getattr(p, 'room', f'{p.name}-room') + ' .0'

    # ---- operands
    def reads(self, k, steps):
        P = lambda: self.at(f'L{k}')
        v = self.loc[k]
        if not steps: return f'(load ! (from ! (stop !)) (look ! {P()} refl))', v
        kinds = [s[0] for s in steps]
        if kinds[0] == 'deref':
            p = v.p
            if steps[1:]: raise Exception('a field behind a reference is not done: copy the struct')
            return f'(load ! (from ! (hop ! (look ! {P()} refl) (stop !))) (look-raw ! {self.at("cell:" + p.name)} refl))', p.value
        fl, sb = '(stop !)', '(whole !)'
        # where the field lies, and its type, are written out: antt would carry the sum of the sizes before it
        at = [('', '')] * len(steps) if isinstance(v, Lent) else [(f' {{τ = {self.T.mir(t)}}}', f' {{d = {d}}}') for t, d in self.T.offsets(v.ty, [int(s[1]) for s in steps])]
        for t, d in reversed(at): fl = f'(fld !{t}{d} refl {fl})'
        for s, (t, d) in zip(steps, at): sb = f'(sub ! {s[1]}{t}{d} refl {sb})'
        if isinstance(v, Lent):
            p = v.p
            r = Value(['tyInt', '64'], self.count(p), f'(refl, {p.name}-room .0)') if steps[0][1] == '1' else None
        else:
            r = v
            for s in steps: r = self.T.part(r, int(s[1]))
        return f'(load ! (from ! {fl}) (look-in ! {P()}{at[-1][0]} {sb}))', r

    def operand(self, o):
        if o == 'true' or o == 'false': return f'({o}-lit !)', Value('tyBool', o, 'refl')
        if o == 'unit': return '(unit-lit !)', Value('tyUnit', 'tt', 'refl')
        if o[0] == 'int': return '(lit ! tt)', Value(['tyInt', o[1]], o[2], '(refl, lit< tt)')
        return self.reads(int(o[1][1]), lst(o[1][2]))

    def target(self, k, typed):
        how = 'init' if self.loc[k] is None else 'store'
        return f'(from ! (stop !)) ({how} ! {self.at(f"L{k}")} refl {typed})'

    # ---- statements
    def assign(self, place, rv, last):
        k, steps = int(place[1]), lst(place[2])
        verb = 'assigns-last' if last else 'assigns'
        if rv[0] == 'addrOf':
            j, st = int(rv[1][1]), lst(rv[1][2])
            if not st:
                self.put(f'{verb} ! (addr ! (from ! (stop !))) {self.target(k, "(tt, tt)")} $')
                self.loc[k] = Lent(self.own_local(j), 'mut'); return
            p = self.loc[j].p
            if p.kind == 'ref':
                if not p.shut: raise Exception('a `&mut S` that is looked at and lent again is not done')
                self.put(f'{verb} ! (addr ! (from ! (hop ! (look ! {self.at(f"L{j}")} refl) (stop !)))) {self.target(k, "(tt, tt)")} $')
                self.loc[k] = Lent(p, 'mut'); return
            self.put(f'{verb} ! (addr ! (from ! (fld ! refl (hop ! (look-in ! {self.at(f"L{j}")} (sub ! 0 refl (whole !))) (stop !))))) {self.target(k, "(tt, tt)")} $')
            self.loc[k] = Lent(p, 'ptr'); return
        if rv[0] == 'aggregate':
            os = lst(rv[1])
            p = self.loc[int(os[0][1][1])].p
            t = self.fn['locals'][k][2][1]
            a = f'(load ! (from ! (stop !)) (look ! {self.at("L" + os[0][1][1])} refl))'
            b = '(lit ! tt)' if p.kind == 'array' else f'(load ! (from ! (fld ! refl (stop !))) (look-in ! {self.at("L" + os[1][1][1])} (sub ! 1 refl (whole !))))'
            self.put(f'{verb} ! (agg ! (and-then ! {a} (and-then ! {b} (no-more !)))) {self.target(k, f"(tt, (tt, (record {{ fits = {self.fits(p)} }}, tt)))")} $')
            self.loc[k] = Lent(p, 'mut' if t[2] == 'mut' else 'shr'); return
        if rv[0] == 'repeat':
            o, x = self.operand(rv[1]); n = rv[2]; R, D = self.T.row(x.ty), self.T.data(x.ty)
            v = Value(self.fn['locals'][k], f'(replicate {n} {x.term})', f'(repeated {R} {x.term} {self.T.val(x.ty, x.term)} {x.is_} {n})')
            v.val, v.len = f'(arrayVal (replicate {n} {self.T.val(x.ty, x.term)}))', f'(length-replicate {n} {x.term})'
            self.put(f'{verb} ! (rep ! {n} {o}) {self.target(k, f"(array-lawful 𝓤 H A W {R} ({D} .lawful 𝓤 H A W) {n} .typed {v.term} ({v.val} ∷ []) {v.is_} .0)")} $')
            self.loc[k] = v; return
        if rv[0] == 'op2':
            op = rv[1][0] if isinstance(rv[1], list) else rv[1]
            a, x = self.operand(rv[2]); b, y = self.operand(rv[3])
            if op == 'lt':
                v = Value('tyBool', f'(ltb {x.term} {y.term})', 'refl')
                self.put(f'{verb} ! (bin ! {a} {b} tt) {self.target(k, "(tt, tt)")} $')
                self.loc[k] = v; return
            if op not in ('add', 'sub'): raise Exception(f'{op} is not done: a covered function')
            fits = self.d['fits'][self.ops]; self.ops += 1
            term = f'({x.term} {"+" if op == "add" else "-"} {y.term})'
            proof = f'(record {{ fits = {fits} }})' if op == 'add' else fits
            # a difference is at most what it is taken from, whose bound is the second part of its relation
            if op == 'sub': fits = f'(omega (arith, {x.is_} .1))'
            v = Value(x.ty, term, f'(refl, {fits})')
            self.put(f'{verb} ! (bin ! {a} {b} {proof}) {self.target(k, f"(tt, record {{ fits = {fits} }})")} $')
            self.loc[k] = v; return
        o, v = self.operand(rv[1])
        if steps:
            p = self.loc[k].p
            self.put(f'{verb} ! (of-opd ! {o}) (from ! (hop ! (look ! {self.at(f"L{k}")} refl) (stop !))) (store-raw ! {self.at("cell:" + p.name)} refl {self.T.typed(v.ty, v.term, v.is_)}) $')
            p.value = v; p.now = v.term; return
        if isinstance(v, Lent): typed = f'(tt, (tt, (record {{ fits = {self.fits(v.p)} }}, tt)))'
        else: typed = self.T.typed(v.ty, v.term, v.is_)
        self.put(f'{verb} ! (of-opd ! {o}) {self.target(k, typed)} $')
        self.loc[k] = v

    def own_local(self, j):
        """the local j, which holds a struct or an array of structs and is lent for a call"""
        p = Par(); p.j, p.name, p.ty, p.b, p.o = j, f'own{j}', self.fn['locals'][j], L(j), 'zero'
        if self.T.kind(p.ty) == 'tyArray':
            p.kind, p.elem, p.n, p.room = 'array', p.ty[1], p.ty[2][1], '(lit< tt, lit< tt)'
            p.s = f'(sliceVal ({p.b}, zero) {p.n})'
        else: p.kind, p.elem = 'own', p.ty
        p.row, p.data = self.T.row(p.elem), self.T.data(p.elem)
        return p

    def lend_local(self, v, n, i):
        p = v.p; x = self.loc[p.j]; ν, δ = f'ν{n}-{i}', f'δ{n}-{i}'
        self.front([f'L{p.j}'])
        if p.kind == 'own': self.bind(f'lend-local ! tt {p.row} {p.data} refl {x.term} {x.is_} {p.b} (λ {ν} {δ}.')
        else: self.bind(f'lend-array ! tt {p.row} ({p.data} .makes 𝓤 H A W) tt {p.n} {x.term} {x.val} {x.is_} {p.room} {x.len} {p.b} (λ {ν} {δ}.')
        self.ctx = [f'nu{i}', f'go{i}', f'keep{i}'] + self.ctx[1:]
        v.ys, v.lft, v.share, v.gh, v.tok = x.term, f'({ν} ∷ [])', 'fullShare', δ, f'nu{i}'

    def back_local(self, v, n):
        p = v.p
        self.front([v.tok, f'fin{v.k}', f'keep{v.k}'])
        if p.kind == 'own':
            self.bind(f'back-local ! tt {p.row} {p.data} refl {v.zs} {p.b} (λ b{n}-{v.k}.')
            self.loc[p.j] = Value(p.ty, v.zs, f'b{n}-{v.k}')
        else:
            self.put(f'back-array ! tt {p.row} {p.n} {v.ys} {v.zs} {p.b} $'); self.loc[p.j] = None
        self.ctx = [f'L{p.j}'] + self.ctx[3:]

    def came_slice(self, n, k, mod, Φ, told, of):
        """the result is a part of the `&[T]` that was passed, for its lifetime"""
        t = self.fn['locals'][k]; r, is_ = f'r{n}', f'is{n}'
        wt = f'(λ r is. subst (λ (u : List Val). Holds (hasTy ({self.T.mir(t)}) (only u)) × WT (only u)) (sym (is .0 .0)) (tt, (tt, (record {{ fits = is .0 .1 .0 }}, tt))))'
        self.bind(f'came-held ! {mod}.ended ({mod}.clauses 𝓤 H A mem run) y{n} w{n} {self.at(f"L{k}")} refl {wt} (λ r ws. {Φ}) (λ r ws. {told}) (λ {r} ws{n} {is_} e{n}.')
        p = Par(); p.kind, p.name, p.row, p.lft, p.κ, p.q, p.len = 'shr', f'got{n}', of.row, of.lft, of.κ, of.q, 'refl'
        p.b, p.o, p.g, p.now, p.room = f'({r} .ptr .0)', f'({r} .ptr .1)', f'({r} .name)', f'({r} .now)', f'({is_} .0 .1)'
        p.n = f'(length {p.now})'; p.s = f'(sliceVal ({r} .ptr) {p.n})'
        self.ctx = [f'own:{p.name}', 'ALIVE'] + self.ctx
        self.put(f'rewrite ! 0 (λ (u : Val). ‵ (ShrSlice (named 0) {p.κ} {p.row} .own {r} (u ∷ []))) (ap only ({is_} .0 .0)) refl $')
        self.put(f'rewrite ! {self.at(f"L{k}")} (λ (u : Val). ‵ (fat fullShare ({self.T.mir(t)}) {L(k)} zero u)) (ap only ({is_} .0 .0)) refl $')
        self.front(['ALIVE']); self.put(f'use1 W (‵ (flft {p.κ} {p.q}) ⊛ ‵ ftrue) (id⊢ 𝓤 _) $ split ! $ move ! (1 ∷ []) $ drop ! $')
        self.ctx[0] = f'tok{p.lft}'
        self.loc[k] = Lent(p, 'shr')

    def call(self, name, ops, place, last):
        n = self.calls; self.calls += 1
        g = alias(name); G = f'{g}ᶜ'
        c = self.d['callees'][name]
        mine = name == self.d['fn']
        if name not in self.known: self.known.append(name)
        args = []
        for o in ops:
            if isinstance(o, list) and o[0] == 'copy' and isinstance(self.loc[int(o[1][1])], Lent) and not lst(o[1][2]):
                args.append((o, self.loc[int(o[1][1])]))
            else: args.append((o, self.operand(o)[1]))
        refs = [v for _, v in args if isinstance(v, Lent)]
        if self.loc[int(place[1])] is not None:
            if any(isinstance(o, list) and o[0] == 'copy' and o[1][1] == place[1] for o in ops): raise Exception(f'local {place[1]} is an argument and takes the result: give the result a `let` of its own')
            self.put(f'forget ! {self.at("L" + place[1])} refl $'); self.loc[int(place[1])] = None
        self.put(f'-- call {n}: `{name}`')
        # what is lent
        for i, v in enumerate(refs):
            p = v.p; v.k = i
            if p.kind in ('own', 'array'): self.lend_local(v, n, i); continue
            v.ys, v.len = p.now, p.len
            tok, own = f'tok{p.lft}', f'own:{p.name}'
            if p.kind == 'ref':
                ν, δ = f'ν{n}-{i}', f'δ{n}-{i}'
                self.front([own, tok])
                self.bind(f'lend-ref ! tt {p.row} {p.b} {p.o} {p.now} (λ {ν} {δ}.')
                self.ctx = [f'nu{i}', f'go{i}', f'keep{i}'] + self.ctx[2:]
                v.lft, v.share, v.gh, v.tok = f'({ν} ∷ [])', 'fullShare', δ, f'nu{i}'
                continue
            if p.kind == 'shr':
                S = f'‵ (Shr {p.row} {p.κ} {p.b} {p.o} {p.g} {self.count(p)} {p.now})'
                self.front([own])
                self.put(f'use1 W ({S} ⊛ {S}) (shr-slice-copy 𝓤 H A W (named 0) {p.κ} {p.row} .twice ({self.lying(p)}) ({self.slice(p)} ∷ [])) $ split ! $')
                self.ctx = [f'go{i}'] + self.ctx
                v.lft, v.share, v.gh, v.tok, v.item = p.κ, p.q, p.g, tok, S
            else:
                ν, δ = f'ν{n}-{i}', f'δ{n}-{i}'
                self.front([own, tok])
                if v.how == 'mut': self.bind(f'lend-mut ! tt {p.row} {p.b} {p.o} {self.count(p)} {p.now} {p.len} (λ {ν} {δ}.')
                else: self.bind(f'lend-shr ! tt {p.row} {p.b} {p.o} {self.count(p)} {p.now} {p.name}-room {p.len} (λ {ν} {δ}.')
                self.ctx = [f'nu{i}', f'go{i}', f'keep{i}'] + self.ctx[2:]
                v.lft, v.share, v.gh, v.tok = f'({ν} ∷ [])', 'fullShare', δ, f'nu{i}'
                v.item = f'‵ ({"Mut" if v.how == "mut" else "Shr"} {p.row} {v.lft} {p.b} {p.o} {δ} {self.count(p)} {p.now})'
        # what the callee's triple binds outside
        κs, qs = nest([v.lft for v in refs]), nest([v.share for v in refs])
        lends = lambda v: f'pointing {v.p.row} {v.p.b} {v.p.o} {v.gh} {v.ys}' if v.p.kind in ('own', 'ref') else self.lying(v.p, v.ys, v.gh)
        machine = lambda v: f'vptr {v.p.b} {v.p.o}' if v.p.kind in ('own', 'ref') else self.slice(v.p)
        avs = nest([lends(v) if isinstance(v, Lent) else v.term for _, v in args])
        vvs = nest([f'{machine(v)} ∷ []' if isinstance(v, Lent) else f'{self.T.val(v.ty, v.term)} ∷ []' for _, v in args])
        self.put(f'let y{n} : {G} 𝓤 H A mem run .Ghost = (({κs}, {qs}, tt, {avs}, {vvs}), tt) in')
        # what it asks
        terms = [v.ys if isinstance(v, Lent) else v.term for _, v in args]
        req = c.get('req', '')
        sup = 'end'
        for _, v in reversed(args): sup = f'(held {sup})' if isinstance(v, Lent) else f'(of W {self.T.data(v.ty)} {v.term} {v.is_} {sup})'
        self.front([v.tok for v in refs] + [f'go{v.k}' for v in refs])
        mod = 'f' if mine else g
        need = f'(so 𝓤 {self.d["asks"][self.asks]})' if req else '(id⊢ 𝓤 _)'
        if req: self.asks += 1
        self.put(f'asks ! {mod}.ended ({mod}.clauses 𝓤 H A mem run) y{n} {2 * len(refs)} {sup} refl {need} $')
        self.ctx = ['PRE'] + self.ctx[2 * len(refs):]
        opds = '(no-more !)'
        for o, v in reversed(args): opds = f'(and-then ! {self.operand(o)[0] if not isinstance(v, Lent) else self.reads(int(o[1][1]), [])[0]} {opds})'
        l = '-last' if last else ''
        if mine:
            fall = self.d['falls'][self.selfs]; self.selfs += 1
            self.bind(f'calls-from{l} ! fm (raw ({G} 𝓤 H A mem run .pre y{n})) ({G} 𝓤 H A mem run .args y{n}) ({G} 𝓤 H A mem run .post y{n}) (self y{n} {fall}) {opds} (λ w{n}.')
        else:
            self.bind(f'calls-at{l} ! fm ({G} 𝓤 H A mem run) (known{self.known_path(name)}) y{n} {opds} (λ w{n}.')
        ws = {f'w{i}': f'(ws{path(i)})' for i in range(len(args))}
        Φ = (c['ens'] or '').format(*terms, **ws) or 'Unit {0}'
        told = 'factI 𝓤 _ _ tt' if c['ens'] is None else 'id⊢ 𝓤 _' if c['ens'] else 'so 𝓤 tt'
        back = lambda v: isinstance(v, Lent) and v.how == 'mut' and v.p.kind in ('mut', 'ref', 'own', 'array')
        outs = cons('true' if back(v) else 'false' for _, v in args) if any(back(v) for _, v in args) else '[]'
        k = int(place[1]); t = self.fn['locals'][k]
        self.ctx.pop(0)
        if self.T.kind(t) == 'tyStruct':
            if last or len(refs) != 1 or refs[0].p.kind != 'shr': raise Exception('a result that is a slice is done for a callee with one `&[T]`, in front of other code')
            self.ctx.remove(refs[0].tok) if refs[0].tok in self.ctx else None
            self.came_slice(n, k, mod, Φ, told, refs[0].p); return
        self.bind(f'came{l} ! {mod}.ended ({mod}.clauses 𝓤 H A mem run) y{n} w{n} {self.T.data(t)} {self.at(f"L{k}")} refl refl ({outs}) (λ r ws. {Φ}) (λ r ws. {told}) (λ r{n} ws{n} is{n} e{n}.')
        self.ctx = [v.tok for v in refs] + [f'fin{v.k}' for _, v in args if back(v)] + self.ctx
        for i, (_, v) in enumerate(args):
            if back(v): v.zs = f'(ws{n}{path(i)})'
        self.loc[k] = Value(t, f'r{n}', f'is{n}')
        # what comes back
        if last and any(v.p.kind != 'shr' for v in refs):
            code, d = self.tail
            self.to(d)
        for v in refs:
            p = v.p
            if p.kind == 'shr': continue
            if p.kind in ('own', 'array'): self.back_local(v, n); continue
            if p.kind == 'ref':
                self.front([v.tok, f'fin{v.k}', f'keep{v.k}'])
                self.put(f'back-ref ! tt {p.row} {p.b} {p.o} {v.ys} {v.zs} $')
                self.ctx = [f'own:{p.name}', f'tok{p.lft}'] + self.ctx[3:]; p.now = v.zs
                continue
            if v.how == 'mut':
                self.front([v.tok, f'fin{v.k}', f'keep{v.k}'])
                self.bind(f'back-again ! tt {p.row} {p.b} {p.o} {self.count(p)} {v.ys} {v.zs} {p.name}-room {v.len} (λ l{n}-{v.k}.')
                self.ctx = [f'own:{p.name}', f'tok{p.lft}'] + self.ctx[3:]
                p.now, p.len = v.zs, f'l{n}-{v.k}'
            else:
                self.front([v.tok, f'keep{v.k}'])
                self.put(f'back-shr ! tt {p.row} {p.b} {p.o} {self.count(p)} {v.ys} {p.name}-room {v.len} $')
                self.ctx = [f'own:{p.name}', f'tok{p.lft}'] + self.ctx[2:]

    def to(self, d):
        """on to the piece of code d, once"""
        if self.gone_to == d: return
        self.gone_to = d
        if 'local' in self.d: self.put(f'on{self.branches - 1} _ $'); return
        ls = ' '.join(L(k) for k in range(self.N))
        self.put(f'exec ! C Λ (En {ls}) after-{d} (atRet (En {ls}) Post) $')
        self.pieces.add(d)

    def known_path(self, name):
        others = [c for c in self.d['callees'] if c != self.d['fn']]
        i = others.index(name)
        return ' .1' * i + ('' if i == len(others) - 1 else ' .0')

    def step(self, s, last):
        if s == 'skip': self.put('skips ! $'); return
        if s[0] == 'assign': self.assign(s[1], s[2], last)
        elif s[0] == 'call': self.call(s[1][1][1].strip('"'), lst(s[2]), s[3], last)
        else: raise Exception(f'{s[0]} is not done: move it into a covered function, by value')

    def run(self, body, tail, depth):
        """runs body; tail is (code, depth) of what follows an arm, or None"""
        while True:
            if body == 'return':
                if tail is not None: raise Exception('a `return` in an arm is not done: let both arms come to one value')
                self.leave(); return
            if isinstance(body, list) and body[0] == 'seq':
                s, rest = body[1], body[2]
                if isinstance(s, list) and s[0] == 'if': self.branch(s, rest, depth + 1); return
                self.step(s, False); body = rest; depth += 1
            else:
                self.tail, self.gone_to = tail, None
                self.step(body, True)
                code, d = tail
                self.to(d)
                body, depth, tail = code, d, None

    def branch(self, s, rest, depth):
        n = self.branches; self.branches += 1
        o, v = self.operand(s[1])
        self.put(f'forks ! {o}' if 'local' in self.d else f'first ! $ branches ! {o}')
        snap = self.save()
        lets = self.d.get('lets', [])
        for j, (word, arm) in enumerate((('yes', s[2]), ('no', s[3]))):
            self.restore(snap)
            m, self.open = self.open, 0
            self.put(f'({"λ"} {f"joined{n} on{n} " if "local" in self.d else ""}{word}{n}.')
            for (nm, ty, pf) in (lets[2 * n + j] if 2 * n + j < len(lets) else []): self.put(f'let {nm} : {ty} = {pf} in')
            self.run(arm, (rest, depth), depth)
            self.lines[-1] += ')' * (self.open + 1)
            self.open = m

    def save(self): return (list(self.ctx), list(self.loc), [(p.__dict__.copy()) for p in self.pars])
    def restore(self, s):
        self.ctx, self.loc = list(s[0]), list(s[1])
        for p, d in zip(self.pars, s[2]): p.__dict__ = d.copy()

    def leave(self):
        n = self.rets; self.rets += 1
        self.put('-- the exit')
        for p in self.pars:
            if p.kind != 'ref' or p.shut: continue
            v = p.value; nm = p.name
            self.drop(f'cown:{nm}'); self.put(self.T.owned(p.elem, v.term, v.is_)); self.ctx = [f'cown:{nm}'] + self.ctx
            self.front([f'cell:{nm}', f'cown:{nm}', f'obor:{nm}', f'obs:{nm}', f'auth:{nm}'])
            self.put(f'closes ! tt {p.row} {v.term} ({self.T.val(p.elem, v.term)} ∷ []) {p.b} {p.o} $')
            self.ctx = [f'obs:{nm}', f'bor:{nm}', f'tok{p.lft}'] + self.ctx[5:]
        r = self.loc[0]
        cells = [c for k in reversed(range(self.N)) for c in (f'L{k}', f'D{k}')]
        m = len(self.ctx) - 2 * self.N
        if self.ctx[m:] != cells: self.front([c for c in self.ctx if c not in cells] + cells)
        self.put(f'returns ! (look ! {self.at("L0")} refl) $ leave ! {m} ({cons("full _" if self.loc[k] is not None else "empty" for k in range(self.N))}) refl $')
        self.ctx = self.ctx[:m]
        lasts = nest([p.now if p.kind in ('mut', 'ref') else 'tt' for p in self.pars])
        fit = nest([p.len if p.kind == 'mut' else 'tt' for p in self.pars])
        sup, have = 'end', [f'tok{j}' for j in range(self.fn['lifetimes'])]
        for p in self.pars:
            if p.kind == 'ref' and not p.shut:
                self.front([f'obs:{p.name}', f'bor:{p.name}'])
                self.put(f'feqI ! (List Val) (vptr {p.b} {p.o} ∷ []) (vptr {p.b} {p.o} ∷ []) refl $ fjoin3 ! $'); self.ctx = [f'own:{p.name}'] + self.ctx[2:]
            if p.kind in ('mut', 'ref'): have.append(f'own:{p.name}')
        for p in reversed(self.pars): sup = f'(held {sup})' if p.kind in ('mut', 'ref') else f'(made (id⊢ 𝓤 _) {sup})'
        self.put(f'keep ! ({cons(str(self.at(x)) for x in have)}) $')
        said = self.d['says'][n]
        self.put(f'ends W f.ended stayed (f.clauses 𝓤 H A mem run) y {self.T.val(r.ty, r.term)} {r.term} {lasts} {fit} ({self.T.data(r.ty)} .makes 𝓤 H A W {r.term} _ {r.is_}) {f"(so 𝓤 {said})" if said else "(id⊢ 𝓤 _)"} {sup}')

    # ---- the whole
    def body(self):
        N = self.N
        self.loc = [None] * N
        self.ctx = [x for k in reversed(range(N)) for x in (f'L{k}', f'D{k}')] + ['TOKS', 'OWNS']
        self.pieces = set()
        self.lines = []
        self.bind(''.join(f'alloc1 ! (λ {L(k)}. ' for k in range(N)) + 'alloc0 ! $ params1 ! $'); self.open = N
        out = []
        for p in self.pars:
            k = p.i + 1
            if p.kind in ('shr', 'mut'): out.append(f'pass1 ! (init ! {self.at(f"L{k}")} refl (tt, (tt, (record {{ fits = {p.name}-room .0 }}, tt)))) $'); self.loc[k] = Lent(p, p.kind)
            elif p.kind == 'ref': out.append(f'pass1 ! (init ! {self.at(f"L{k}")} refl (tt, tt)) $'); self.loc[k] = Lent(p, 'ref')
            else:
                self.loc[k] = Value(p.ty, p.name, f'{p.name}-is'); out.append(f'pass1 ! (init ! {self.at(f"L{k}")} refl {self.T.typed(p.ty, p.name, p.name + "-is")}) $')
        self.put(' '.join(out) + ' pass0 ! $')
        for j in range(self.fn['lifetimes']):
            self.front(['TOKS']); self.put('split ! $'); self.ctx = [f'tok{j}'] + self.ctx
        self.drop('TOKS')
        for p in self.pars:
            self.front(['OWNS']); self.put('fsplit ! $'); self.ctx = [f'own:{p.name}'] + self.ctx
            if p.kind == 'plain': self.drop(f'own:{p.name}')
            if p.kind == 'ref' and not p.shut: self.put('fsplit3 ! $ drop ! $'); self.ctx = [f'obs:{p.name}', f'bor:{p.name}'] + self.ctx[1:]
        self.drop('OWNS')
        for p in self.pars:
            if p.kind != 'ref' or p.shut: continue
            nm, R = p.name, p.row
            self.front([f'obs:{nm}', f'bor:{nm}', f'tok{p.lft}'])
            self.bind(f'opens ! tt {R} {{h = {nm}}} {p.b} {p.o} (λ {nm}-vs. spelt ! {R} (Is {R}) (shows 𝓤 H A {R}) {self.T.vals(p.elem)} ({self.T.tells(p.elem)}) fullShare {nm} {nm}-vs {p.b} {p.o} $ move ! (1 ∷ []) $')
            self.bind(f'peeks ! {R} (Is {R}) (shows 𝓤 H A {R}) {nm} ({self.T.val(p.elem, nm)} ∷ []) (λ {nm}-is. move ! (1 ∷ 0 ∷ []) $')
            self.ctx = [f'cell:{nm}', f'cown:{nm}', f'obor:{nm}', f'obs:{nm}', f'auth:{nm}'] + self.ctx[3:]
            p.value = Value(p.elem, nm, f'{nm}-is')
        self.run(self.fn['body'], None, 0)
        self.lines[-1] += ')' * self.open

def fields_of(texts, fns_types):
    found = {}
    for crate, text in texts:
        text = re.sub(r'//[^\n]*', '', text)
        for m in re.finditer(r'struct\s+(\w+)\s*\{([^}]*)\}', text):
            found[f'{crate}::{m[1]}'] = [n for n in re.findall(r'(\w+)\s*:', m[2])]
        for m in re.finditer(r'struct\s+(\w+)\s*\(([^)]*)\)', text):
            found[f'{crate}::{m[1]}'] = [str(i) for i in range(len([x for x in m[2].split(',') if x.strip()]))]
    return found

def tables(text):
    found = {}
    def walk(x):
        if isinstance(x, list):
            if len(x) == 3 and x[0] == 'pair' and isinstance(x[2], list) and x[2][0] == 'fields': found[x[1].strip('"')] = lst(x[2][1], 'tcons')
            for y in x: walk(y)
    walk(parse(text))
    return found

def names_of(path):
    out, data = {}, False
    for line in open(path, encoding='utf-8'):
        if line.startswith('pub data'): data = True
        elif not line.startswith('  '): data = False
        elif data: out[line.split()[0]] = 1
        m = re.match(r'(?:unfoldable |abbrev )?pub use .*\.\{(.*)\}\s*$', line)
        if m:
            for n in m[1].split(','): out[n.strip().split(' as ')[-1].strip()] = 1
        m = re.match(r'\s*(?:unfoldable |abbrev )?pub (\S+) :', line)
        if m: out[m[1]] = 1
        m = re.match(r'pub use .* as (\S+)\s*$', line)
        if m: out[m[1]] = 'mod'
    return out

def main():
    ap = argparse.ArgumentParser(description=__doc__, formatter_class=argparse.RawDescriptionHelpFormatter)
    for x in ('mir', 'desc', 'kit', 'out'): ap.add_argument('--' + x, required=x != 'desc')
    ap.add_argument('--src', nargs='+', required=True, help='CRATE=FILE')
    ap.add_argument('--others', nargs='*', default=[], help='with --types: other crates whose structs are to stand there too; CRATE=OTHER: its structs are taken from the Types.antt of OTHER')
    ap.add_argument('--types', help='CRATE: write its Types.antt, with --kit the name of the crate of the shared modules; --desc is not read')
    a = ap.parse_args()
    d = a.types or described(a.desc)
    text = open(a.mir, encoding='utf-8').read()
    fns, tys = functions(text), tables(text)
    names = fields_of([(s.split('=')[0], open(s.split('=')[1], encoding='utf-8').read()) for s in a.src], tys)
    esc = lambda n: f'«{n}»' if '_' in n else n
    fields = {q: list(zip([esc(n) for n in names[q]], ts)) for q, ts in tys.items() if q in names}
    if a.types:
        open(a.out, 'w', encoding='utf-8').write(types_file(a.types, fields, a.kit, a)); return
    by_crate(d['callees'])
    w = Walk(a, d, fns, fields)
    w.body()
    open(a.out, 'w', encoding='utf-8').write(whole(a, d, w))

def whole(a, d, w):
    T, crate, name = w.T, w.crate, w.name
    own = f'Rattle·{crate}·proofs.proofs'
    within = lambda q: '.'.join(q.split('::')[1:])
    mod = lambda q: own + '.' + within(q) if q.split('::')[0] == crate else f'Rattle·{q.split("::")[0]}.proofs.{within(q)}'
    dec = lambda q: f'Rattle·{crate}·specs.specs.declared.{q.split("::")[1]}' if q.split('::')[0] == crate else f'Rattle·{q.split("::")[0]}.specs.declared.{q.split("::")[1]}'
    rec, dashed = d.get('measure'), name.replace('_', '-')
    self_c = alias(d['fn']) + 'ᶜ'
    others = [q for q in d['callees'] if q != d['fn']]
    nl = w.fn['lifetimes']
    κs, qs = nest([f'κ{j}' for j in range(nl)]), nest([f'q{j}' for j in range(nl)])
    w.setup(); pars = w.pars
    N = w.N
    stay, go, vals, tells, av, vv, rows = [], [], [], [], [], [], []
    binds, holds, passed, given = [], [], [], []
    for p in pars:
        A, ar = f'a{path(p.i)}', f'are{path(p.i)}'
        if p.kind in ('shr', 'mut'):
            sl = f'(plain (λ _. {p.row}))'
            if p.kind == 'shr': stay.append(f'stay-dropped (shrSliceOf ({p.lft} ∷ []) tt {sl}) yes'); go.append(f'goes-dropped 𝓤 H A W {nl} (shrSliceOf ({p.lft} ∷ []) tt {sl}) yes (λ κs x f. refl)')
            else: stay.append(f'stay-slice ({p.lft} ∷ []) tt {sl}'); go.append(f'goes-slice 𝓤 H A W {nl} {p.lft} tt {sl}')
            vals.append('slice-vals'); tells.append(f'{"mut" if p.kind == "mut" else "shr"}-slice-tells (named {p.lft}) (κs{path(p.lft)}) {p.row}')
            av.append(w.lying(p)); vv.append(f'{p.name}-s'); rows.append(f'{"Mut" if p.kind == "mut" else "Shr"}Slice (named {p.lft}) κ{p.lft} {p.row}')
            binds.append(f'({p.b} {p.o} : ℕ) ({p.g} : GName) ({p.name} : List {T.denot(p.elem)})'); holds.append(f'({p.name}-room : Room {p.row} (length {p.name}))')
            passed.append(f'({A} .ptr .0) ({A} .ptr .1) ({A} .name) ({A} .now)'); given.append(f'({ar} .0 .1)')
        elif p.kind == 'ref':
            sl = f'(plain (λ _. {p.row}))'
            stay.append(f'stay-ref ({p.lft} ∷ []) tt {sl}'); go.append(f'goes-ref 𝓤 H A W {nl} {p.lft} tt {sl}')
            vals.append('ptr-vals'); tells.append(f'mut-tells (named {p.lft}) (κs{path(p.lft)}) {p.row}')
            av.append(f'record {{ ptr = ({p.b}, {p.o}); name = {p.g}; now = {p.name} }}'); vv.append(f'vptr {p.b} {p.o}'); rows.append(f'MutRef (named {p.lft}) κ{p.lft} {p.row}')
            binds.append(f'({p.b} {p.o} : ℕ) ({p.g} : GName) ({p.name} : {T.denot(p.elem)})')
            passed.append(f'({A} .ptr .0) ({A} .ptr .1) ({A} .name) ({A} .now)')
        else:
            stay.append(f'stay-dropped {T.slot(p.ty)} yes'); go.append(f'goes-dropped 𝓤 H A W {nl} {T.slot(p.ty)} yes (λ κs x f. refl)')
            vals.append(T.vals(p.ty)); tells.append(T.tells(p.ty)); av.append(p.name); vv.append(T.val(p.ty, p.name)); rows.append(T.row(p.ty))
            binds.append(f'({p.name} : {T.denot(p.ty)})'); holds.append(f'({p.name}-is : Is {T.row(p.ty)} {p.name} ({T.val(p.ty, p.name)} ∷ []))')
            passed.append(f'({A})'); given.append(f'({ar})')
    req = d.get('requires', '')
    now = {p.name: p.name for p in pars}
    atn = {p.name: (f'(a{path(p.i)} .now)' if p.kind != 'plain' else f'(a{path(p.i)})') for p in pars}
    if req: holds.append(f'(asked : {req.format(**now)})')
    machine = cons(vv)
    fun = f'code.{dashed}-function' if rec else 'code.function'
    o = []
    o.append(d.get('lemmas', '').strip('\n') + '\n' if d.get('lemmas') else '')
    o.append(f'''abbrev stayed : Stays (f.ended .signature .params) (f.ended .kept)
stayed = {nest(stay)}

module _ {{M : Type 1}} (𝓤 : URA M) (H : Heap 𝓤) (A : Atoms 𝓤) (mem : Memory → SProp 𝓤) (run : Routine → Fun 𝓤) where''')
    for q in d['callees']:
        g = alias(q); m = 'f' if q == d['fn'] else g
        o.append(f'''  abbrev {g}ᶜ : Contract 𝓤
  {g}ᶜ = tripleOf 𝓤 H A {m}.signature ({m}.spec 𝓤 H A mem run)
''')
    kn = ' × '.join(f'Triple 𝓤 (C {alias(q)}-def.name) {alias(q)}ᶜ' for q in others)
    if len(others) > 2:
        kn = ''
        for i, q in enumerate(others):
            g = alias(q)
            kn += f'Triple 𝓤 (C {g}-def.name) {g}ᶜ' + (' × (' if i < len(others) - 2 else ' × ' if i < len(others) - 1 else '')
        kn += ')' * (len(others) - 2)
    o.append(f'''  -- what is known of the callees
  abbrev Known : Calls 𝓤 H → Type 1
  Known C = {kn}
''')
    o.append(f'''module _ {{M : Type 1}} (𝓤 : URA M) (H : Heap 𝓤) (A : Atoms 𝓤) (W : Given 𝓤 H A) (mem : Memory → SProp 𝓤) (run : Routine → Fun 𝓤) ({' '.join(f'κ{j}' for j in range(nl))} : Lft) ({' '.join(f'q{j}' for j in range(nl))} : Share) {' '.join(binds)}
    {' '.join(holds)} where''')
    for p in pars:
        if p.kind in ('shr', 'mut'):
            o.append(f'''  abbrev {p.name}-n : ℕ
  {p.name}-n = length {p.name}

  abbrev {p.name}-s : Val
  {p.name}-s = sliceVal ({p.b}, {p.o}) {p.name}-n
''')
    o.append(f'''  abbrev y : walkOf 𝓤 H A f.ended stayed (f.clauses 𝓤 H A mem run) .Ghost
  y = (({κs}, {qs}, tt, {nest(av)}, {nest([v + ' ∷ []' for v in vv])}), tt)

  abbrev Post : Val → SProp 𝓤
  Post = walkOf 𝓤 H A f.ended stayed (f.clauses 𝓤 H A mem run) .post y
''')
    ls = ' '.join(L(k) for k in range(N))
    if w.pieces:
        o.append(f'''  abbrev En : ({ls} : ℕ) → Env 𝓤 H
  En {ls} = {' ∷ '.join(f'({T.mir(t)}, {L(k)})' for k, t in enumerate(w.fn['locals']))} ∷ []
''')
        for k in sorted(w.pieces):
            b = f'{fun} .body'
            for _ in range(k): b = f'after ({b})'
            o.append(f'''  abbrev after-{k} : Body
  after-{k} = {b}
''')
    μ = ''
    if rec:
        into = rec.split(' ', 1)
        i = [p.name for p in pars].index(into[0])
        into = ' ' + into[1] if len(into) > 1 else ''
        weighed = lambda x: f'{d["weight"]} ({x})' if 'weight' in d else x
        μ = weighed(f'y′ .0 .3{path(i)}{into}')
        rec = weighed(rec)
    selft = f'\n      → ((y′ : {self_c} 𝓤 H A mem run .Ghost) → {μ} < {rec} → ent 𝓤 ({self_c} 𝓤 H A mem run .pre y′) (C #f ({self_c} 𝓤 H A mem run .args y′) ({self_c} 𝓤 H A mem run .post y′)))' if rec else ''
    toks = '‵ ftrue'
    for j in reversed(range(nl)): toks = f'(‵ (flft κ{j} q{j}) ⊛ {toks})'
    o.append(f'''  walk : (C : Calls 𝓤 H) (Λ : Loops 𝓤 H) → FmC 𝓤 H (W .laws) C → Known 𝓤 H A mem run C{selft}
      → ent 𝓤 (onEntry 𝓤 H A f.signature {κs} {qs} (y .0 .3) (y .0 .4)) (WpFn 𝓤 H C Λ {fun} ({machine}) Post)
  walk C Λ fm known{' self' if rec else ''} =
      qed W ({toks} ∷ ‵ (owns ({cons(rows)}) (y .0 .3) (y .0 .4)) ∷ []) ∵ enter ! C Λ {fun} ({machine}) _ $''')
    buf = ''
    for s in w.lines:
        if s.startswith('--') or s.startswith('let ') or s.startswith('(λ '):
            if buf: o.append('      ' + buf.strip()); buf = ''
            if s.startswith('--'): o.append('      ' + s)
            else: buf = s + ' '
        else: buf += s + ' '
    o.append('      ' + buf.strip())
    o.append('')
    Wm = f'''module _ {{M : Type 1}} (𝓤 : URA M) (H : Heap 𝓤) (A : Atoms 𝓤) (W : Given 𝓤 H A) (mem : Memory → SProp 𝓤) (run : Routine → Fun 𝓤) where
  goes : AllGo 𝓤 H A W {nl} (f.signature .params) (f.ended .kept) stayed
  goes = {nest(go)}
'''
    o.append(Wm)
    call = f'walk 𝓤 H A W mem run {" ".join(f"(κs{path(j)})" for j in range(nl))} {" ".join(f"(qs{path(j)})" for j in range(nl))} {" ".join(passed)} {" ".join(given)}'
    if req: start = lambda s: f'needs 𝓤 ({req.format(**atn)}) _ (λ asked. {call} asked{s})'
    else: start = lambda s: f'via 𝓤 _ (fst∗ 𝓤 _ (emp 𝓤)) ({call}{s})'
    WP = f'(WpFn 𝓤 H (𝓣 .C) (𝓣 .Λ) {fun})'
    cite = lambda q: f'cited 𝓤 H ({alias(q)}ᶜ 𝓤 H (𝓖 .A) (𝓜 .mem) (𝓡 .run)) 𝓜 𝓡 code.env {alias(q)}-def.name {alias(q)}-def.routine code.calls-{q.replace("::", "·").replace("_", "-")} ({alias(q)}-thm.met 𝓤 H 𝓜 𝓖 𝓡)'
    cites = lambda c: nest([cite(q) for q in others[:-1]], cite(others[-1])) if len(others) > 1 else f'({cite(others[0])})'
    if not rec:
        o.append(f'''  walks : (𝓣 : Tables 𝓤 H) → Known 𝓤 H A mem run (𝓣 .C) → Walks 𝓤 H A f.ended stayed {WP} (f.clauses 𝓤 H A mem run)
  walks 𝓣 known = walked 𝓤 H A f.ended stayed (f.clauses 𝓤 H A mem run) {WP} (λ κs. {nest(vals)}) (λ κs. {nest(tells)})
      (λ κs qs bounds a g are. {start(' (𝓣 .C) (𝓣 .Λ) (fmOf 𝓤 H (W .laws) 𝓣) known')})

  meets : (𝓣 : Tables 𝓤 H) → Known 𝓤 H A mem run (𝓣 .C) → Meets 𝓤 H A f.signature {WP} (f.spec 𝓤 H A mem run)
  meets 𝓣 known = walk-meets 𝓤 H A f.ended stayed W goes (f.clauses 𝓤 H A mem run) {WP} (WpFn-mono 𝓤 H (W .laws) 𝓣 {fun}) (walks 𝓣 known)

pub {name.replace("_", "-")}-spec : {{M : Type 1}} → stated.statement M
unfolding code.routine tablesOf
{name.replace("_", "-")}-spec 𝓤 H 𝓜 𝓖 𝓡 =
    entered 𝓤 H (tripleOf 𝓤 H (𝓖 .A) f.signature (f.spec 𝓤 H (𝓖 .A) (𝓜 .mem) (𝓡 .run)))
    (tables 𝓤 H 𝓜 𝓡 code.env .C) (tables 𝓤 H 𝓜 𝓡 code.env .Λ) #f code.function (code.unfolded 𝓤 H 𝓜 𝓡)
    (meets 𝓤 H (𝓖 .A) (givenOf 𝓤 H 𝓜 𝓖) (𝓜 .mem) (𝓡 .run) (tablesOf 𝓤 H 𝓜 (tables 𝓤 H 𝓜 𝓡 code.env))
    {cites(None)})
''')
    else:
        o.append(f'''  -- the contract at one choice of what the triple binds outside, from the contract where the measure is less
  meets-at : (𝓣 : Tables 𝓤 H) → Known 𝓤 H A mem run (𝓣 .C) → (y : {self_c} 𝓤 H A mem run .Ghost)
      → ((y′ : {self_c} 𝓤 H A mem run .Ghost) → {μ} < {weighed(f"y .0 .3{path(i)}{into}")} → ent 𝓤 ({self_c} 𝓤 H A mem run .pre y′) (𝓣 .C #f ({self_c} 𝓤 H A mem run .args y′) ({self_c} 𝓤 H A mem run .post y′)))
      → ent 𝓤 ({self_c} 𝓤 H A mem run .pre y) ({WP[1:-1]} ({self_c} 𝓤 H A mem run .args y) ({self_c} 𝓤 H A mem run .post y))
  meets-at 𝓣 known y self =
      let κs = y .0 .0 in let qs = y .0 .1 in let a = y .0 .3 in
      walk-meets-at 𝓤 H A f.ended stayed W goes (f.clauses 𝓤 H A mem run) {WP} (WpFn-mono 𝓤 H (W .laws) 𝓣 {fun}) y
      (walked-at 𝓤 H A f.ended stayed (f.clauses 𝓤 H A mem run) {WP} y {nest(vals)} {nest(tells)}
      (λ are. {start(' (𝓣 .C) (𝓣 .Λ) (fmOf 𝓤 H (W .laws) 𝓣) known self')}))

pub +{name.replace("_", "-")}-spec : {{M : Type 1}} → cycle.statement M
unfolding code.{dashed}-routine tablesOf
+{name.replace("_", "-")}-spec 𝓤 H 𝓜 𝓖 𝓡 =
    mutual-elim 𝓤 H (𝓖 .A) (cycle.functions 𝓤 H (𝓖 .A) (𝓜 .mem) (𝓡 .run)) _<_ (Nat·lt-wfRel .wf)
    (measured 𝓤 H (𝓖 .A) (record {{ signature = f.signature; run = 𝓡 .run code.{dashed}-routine; spec = f.spec 𝓤 H (𝓖 .A) (𝓜 .mem) (𝓡 .run) }}) (λ y′. {μ}))
    (λ t smaller. at-on 𝓤 H (𝓖 .A) f.signature (f.spec 𝓤 H (𝓖 .A) (𝓜 .mem) (𝓡 .run)) (WpFn 𝓤 H (tables 𝓤 H 𝓜 𝓡 code.env .C) (tables 𝓤 H 𝓜 𝓡 code.env .Λ) {fun}) (𝓡 .run code.{dashed}-routine) (code.{dashed}-unfolded 𝓤 H 𝓜 𝓡) (λ y′. {μ}) t
    (λ y e. meets-at 𝓤 H (𝓖 .A) (givenOf 𝓤 H 𝓜 𝓖) (𝓜 .mem) (𝓡 .run) (tablesOf 𝓤 H 𝓜 (tables 𝓤 H 𝓜 𝓡 code.env))
    {cites(None)} y
    (λ y′ less. smaller ({μ}) (subst (λ (n : ℕ). {μ} < n) e less) y′ refl)))
''')
    text = '\n'.join(o)
    # ---- imports: the names of the shared modules that the text uses
    words = set(re.findall(r'[^\s(){},;]+', text))
    words |= {'_×_'} if False else set()
    uses = []
    kit = f'Rattle·{d["kit"]}.proofs' if d['kit'] != crate else own
    infix = {'_≡_': '≡', '_∷_': '∷', '_⊛_': '⊛', '_$_': '$', '_∵_': '∵', '_∙_': '∙', '_<_': '<', '_≤_': '≤', '_+_': '+', '_-_': '-', '_*_': '*', '_^_': '^', '[]': '[]'}
    taken = set()
    for m in d.get('modules', ['Walk', 'Data', 'Calls', 'Lent', 'After']):
        ns = names_of(os.path.join(a.kit, m + '.antt'))
        got = [n for n in ns if (n in words or infix.get(n) in words or any(x.startswith(n + '.') and ns[n] == 'mod' for x in words)) and n not in taken]
        taken |= set(got)
        plain = [n for n in got if ns[n] != 'mod']
        for i in range(0, len(plain), 70): uses.append(f'use {kit}.{m}.{{{", ".join(plain[i:i + 70])}}}')
        uses += [f'use {kit}.{m}.{n}' for n in got if ns[n] == 'mod']
    if 'local' in d:
        ns = [n for n in ('pointing', 'lend-ref', 'back-ref', 'lend-local', 'back-local', 'lend-array', 'back-array', 'repeated', 'came-held', 'forks') if n in words]
        if ns: uses.append(f'use {d["local"]}.{{{", ".join(ns)}}}')
    if 'factI' in words: uses.append('use contract.Monad.{factI}')
    if 'rep' in words: uses.append('use types.Part.{rep}')
    if 'replicate' in words: uses.append('use lib.ListN.{replicate, length-replicate}')
    def used(n):
        n = n.split(' as ')[-1]
        return n in words or (n.startswith('_') and n.strip('_') in words)
    for m, ns in d.get('spec', {}).items():
        ns = [n for n in dict.fromkeys(ns) if used(n)]
        if ns: uses.append(f'use {m}.{{{", ".join(ns)}}}')
    for q in T.used:
        n = q.split('::')[1]
        if n in words: uses.append(f'use {dec(q)}.{{{n}}}')
    for cr in dict.fromkeys(q.split('::')[0] for q in T.used):
        ns = []
        for q in T.used:
            if q.split('::')[0] == cr:
                n = q.split('::')[1]
                ns += [x for x in [f'{n}ᴿ', f'{n}ᵀ', f'{n}ᴰ'] + [f'{n}-{plainly(f)}' for f, _ in w.T.fields[q]] if x in words]
        home = d.get('types', {}).get(cr, cr)
        if ns: uses.append(f'use {own if home == crate else f"Rattle·{home}.proofs"}.Types.{{{", ".join(ns)}}}')
    for q in others:
        g = alias(q)
        uses += [f'use {mod(q)} as {g}', f'use {mod(q)}.Symbol as {g}-def', f'use {mod(q)}.Met as {g}-thm']
    if name == 'record': uses.append(f'use {own}.{name}.Key as key'); text = text.replace('#f', 'key.name')
    else: uses.append(f'use {own}.{name}.Key.{{name as #f}}')
    uses.append(f'use {own}.{name} as f')
    if rec: uses += [f'use {own}.+{name} as cycle', f'use {own}.+{name}.Code as code']
    else: uses += [f'use {own}.{name}.Statement as stated', f'use {own}.{name}.Code as code']
    head = f'-- `{d["fn"]}` meets its contract: a walk of its MIR. tools/walk.py wrote it from {os.path.basename(a.desc)}. {d.get("about", "")}\n-- Assumes nothing.\n'
    return head + '\n'.join(uses) + '\n\n' + text.lstrip('\n')

main()
