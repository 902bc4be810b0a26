"""The definitions of crates/notation_calculus (Words, Grammar, Making, Make) written in Python, one function after the other: what the tests
hold the proved call `make` to, beside the second program. Nothing of the package asks it.

It is held to every known result that the definitions are proved to give (test_notation_reference), and to `second make` on 100,000 generated
texts (bench/texts).
"""
import sys
from collections import namedtuple

class Refusal(Exception):
    def __init__(self, number, place): self.number, self.place = number, place
def need(test, number, place):
    if not test: raise Refusal(number, place)

# ---- Words
SIGN = {b'fun': 'fun', b'fix': 'fix', b'let': 'let', b'in': 'in', b'type': 'type', b'edition': 'edition', b'table': 'table'}
PARTS = [b'zero', b'reg', b'and', b'or', b'xor', b'inv', b'one']
INPUTS = [0, 1, 2, 2, 2, 1, 0]
SIGNS = [(b'->', '->'), (b'-o', '-o')] + [(bytes([c]), chr(c)) for c in b'*()=,:.[]{}+^'] + [
    (b'\xce\xbb', 'fun'), (b'\xc3\x97', '*'), (b'\xe2\x86\x92', '->'), (b'\xe2\x8a\xb8', '-o')]
Word = namedtuple('Word', 'kind value place')   # kind: 'sign' 'part' 'number' 'name'
digit = lambda c: 48 <= c <= 57
letter = lambda c: 65 <= c <= 90 or 97 <= c <= 122 or c == 95
in_name = lambda c: letter(c) or digit(c) or c == 39
def gap(s, at):
    comment = False
    while at < len(s):
        c = s[at]
        if comment: comment = c not in (10, 13)
        elif 9 <= c <= 13 or c == 32: pass
        elif c == 45 and s[at + 1:at + 2] == b'-': comment = True
        else: return at
        at += 1
    return at
def words(s):
    out, at = [], 0
    while True:
        at = gap(s, at)
        if at == len(s): return out + [Word('sign', 'ends', at)]
        end = at
        while end < len(s) and in_name(s[end]): end += 1
        run = s[at:end]
        if digit(s[at]):
            need(all(map(digit, run)), 31, at)
            need(int(run) <= 255, 34, at)
            out.append(Word('number', int(run), at)); at = end
        elif letter(s[at]):
            out.append(Word('sign', SIGN[run], at) if run in SIGN else Word('part', PARTS.index(run), at) if run in PARTS else Word('name', run, at)); at = end
        else:
            for spelling, sign in SIGNS:
                if s.startswith(spelling, at):
                    out.append(Word('sign', sign, at)); at += len(spelling); break
            else: raise Refusal(31, at)

# ---- Grammar. A reader takes the index of a word, and gives a value and the next index
MOST_NESTED, MOST_CLAUSES, MOST_PUTS, MOST_ENTRIES = 80, 256, 32767, 1024
Bound = namedtuple('Bound', 'name place'); Number = namedtuple('Number', 'open name plus place'); Clause = namedtuple('Clause', 'head types numbers type body end')
Group = namedtuple('Group', 'place names')
def nameless(at): return Bound((256 + at,), at)   # no name of a text, which are bytes
def groups_tree(gs, e):
    for g in reversed(gs):
        e = ('apart', g.place, g.names, ('spine', g.place, ('named', g.place, nameless(g.place).name, [], []), []), e)
    return e
class Grammar:
    def __init__(self, ws): self.ws = ws
    def peek(self, i): return self.ws[i] if i < len(self.ws) else Word('sign', 'ends', 0)
    def is_(self, s, i): return self.peek(i)[:2] == ('sign', s)
    def place(self, i): return self.peek(i).place
    def expect(self, s, i): need(self.is_(s, i), 32, self.place(i)); return i + 1
    def name(self, i): need(self.peek(i).kind == 'name', 32, self.place(i)); return Bound(self.peek(i).value, self.place(i)), i + 1
    def value(self, i): need(self.peek(i).kind == 'number', 32, self.place(i)); return self.peek(i).value
    def list(self, read, i):
        xs = []
        while True:
            x, i = read(i); xs.append(x)
            if not self.is_(',', i): return xs, i
            i += 1
    def number(self, i):
        w = self.peek(i)
        if w.kind == 'number': return Number(False, b'', w.value, w.place), i + 1
        need(w.kind == 'name', 32, w.place)
        if self.is_('+', i + 1): return Number(True, w.value, self.value(i + 2), w.place), i + 3
        return Number(True, w.value, 0, w.place), i + 1
    def group(self, read, a, b, i):
        if not self.is_(a, i): return [], i
        xs, i = self.list(read, i + 1)
        return xs, self.expect(b, i)
    def type_atom(self, more, i):
        w = self.peek(i)
        if w.kind == 'sign':
            need(w.value == '(', 32, w.place)
            t, i = self.type(more, False, i + 1)
            return ('inside', t), self.expect(')', i)
        need(w.kind != 'part', 32, w.place)
        if w.kind == 'number':
            need(w.value == 1, 32, w.place)
            if not self.is_('^', i + 1): return ('one',), i + 1
            k, j = self.number(i + 2)
            return ('ones', self.place(i + 1), k), j
        return self.use(more, i)
    def use(self, more, i):
        w = self.peek(i)
        ts, i = self.group(lambda j: self.type(more, False, j), '[', ']', i + 1)
        ks, i = self.group(self.number, '{', '}', i)
        return ('named', w.place, w.value, ts, ks), i
    def type(self, more, tight, i):
        at = self.place(i)
        need(more > 0, 34, at)
        a, i = self.type_atom(more - 1, i)
        p = q = None
        if self.is_('*', i):
            s = self.place(i); t, i = self.type(more - 1, True, i + 1); p = (2, s, t)
        if not tight and (self.is_('->', i) or self.is_('-o', i)):
            s, k = self.place(i), 3 if self.is_('->', i) else 4
            t, i = self.type(more - 1, False, i + 1); q = (k, s, t)
        return (at, a, p, q), i
    def behind_group(self, i):
        deep = 0
        while i < len(self.ws):
            opens, closes = self.is_('[', i) or self.is_('{', i), self.is_(']', i) or self.is_('}', i)
            if deep == 0 and not opens: return i
            deep += 1 if opens else -1 if closes else 0
            i += 1
        return i
    def begins_atom(self, i):
        w = self.peek(i)
        return self.is_('(', i) or w.kind == 'part' or (w.kind == 'name' and not self.is_('=', self.behind_group(i + 1)))
    def atom(self, more, i):
        w = self.peek(i)
        if w.kind == 'sign':
            need(w.value == '(', 32, w.place)
            e, i = self.term(more, i + 1); es = []
            while self.is_(',', i):
                s = self.place(i); x, i = self.term(more, i + 1); es.append((s, x))
            return ('tuple', e, es), self.expect(')', i)
        if w.kind == 'part': return ('part', w.place, w.value), i + 1
        need(w.kind == 'name', 32, w.place)
        return self.use(more, i)
    def term(self, more, i):
        at = self.place(i)
        need(more > 0, 34, at)
        if self.is_('fun', i) or self.is_('fix', i):
            many, xs, i = self.is_('fun', i), [], i + 1
            if many and self.is_('(', i):
                p = self.place(i); (names, inner), i = self.lists(more, i)
                i = self.expect(':', i); t, i = self.type(more - 1, False, i); i = self.expect('.', i)
                e, i = self.term(more - 1, i)
                return ('fun', at, [nameless(p)], t, groups_tree([Group(p, names)] + inner, e)), i
            x, i = self.name(i); xs.append(x)
            while many and not self.is_(':', i): x, i = self.name(i); xs.append(x)
            i = self.expect(':', i); t, i = self.type(more - 1, False, i); i = self.expect('.', i)
            e, i = self.term(more - 1, i)
            return ('fun' if many else 'fix', at, xs, t, e), i
        if self.is_('let', i):
            apart = self.is_('(', i + 1)
            if apart: (names, inner), i = self.lists(more, i + 1)
            else: x, i = self.name(i + 1)
            i = self.expect('=', i); v, i = self.term(more - 1, i); i = self.expect('in', i)
            e, i = self.term(more - 1, i)
            return ('apart', at, names, v, groups_tree(inner, e)) if apart else ('let', at, [x], v, e), i
        a, i = self.atom(more - 1, i); rest = []
        while self.begins_atom(i): b, i = self.atom(more - 1, i); rest.append(b)
        return ('spine', at, a, rest), i
    def item(self, more, i):
        """One of a list: what it binds, and its groups."""
        if not self.is_('(', i): x, i = self.name(i); return (x, []), i
        at = self.place(i)
        (names, inner), i = self.lists(more, i)
        return (nameless(at), [Group(at, names)] + inner), i
    def lists(self, more, i):
        """( names and lists, two at least ): the names, and the groups of the lists in it."""
        need(more > 0, 34, self.place(i))
        xs, i = self.list(lambda j: self.item(more - 1, j), i + 1)
        need(len(xs) >= 2, 32, self.place(i)); i = self.expect(')', i)
        return ([bound for bound, _ in xs], [g for _, groups in xs for g in groups]), i
    def clause(self, is_type, i):
        x, i = self.name(i)
        ts, i = self.group(self.name, '[', ']', i); ks, i = self.group(self.number, '{', '}', i)
        i = self.expect('=', i)
        b, i = self.type(MOST_NESTED, False, i) if is_type else self.term(MOST_NESTED, i)
        return Clause(x, ts, ks, is_type, b, self.place(i)), i
    def text(self):
        second, i, clauses, lines = False, 0, [], []
        if self.is_('edition', 0):
            k = self.value(1); need(k in (1, 2), 32, self.place(1)); second, i = k == 2, 2
        while not self.is_('ends', i):
            if self.is_('table', i):
                ts, i = self.list(lambda j: self.type(MOST_NESTED, False, j), i + 1)
                lines += [(len(clauses), t) for t in ts]; continue
            d, i = self.clause(True, i + 1) if self.is_('type', i) else self.clause(False, i)
            need(len(clauses) < MOST_CLAUSES, 34, d.head.place)
            need(all(may_follow(c, d) for c in clauses), 36, d.head.place)
            clauses.append(d)
        return second, clauses, lines, self.place(i)
def covers(p, q): return p.plus <= q.plus if p.open else not q.open and p.plus == q.plus
def namesake(c, sort, n): return c.type == sort and c.head.name == n
def may_follow(c, d):
    return not namesake(c, d.type, d.head.name) or (len(c.types) == len(d.types) and len(c.numbers) == len(d.numbers)
        and not all(covers(p, q) for p, q in zip(c.numbers, d.numbers)))

# ---- Making. A scope is (seen, under, types, numbers, variables), entries (name, value), the nearest variable first
Made = namedtuple('Made', 'term type deep places')
class Making:
    def __init__(self, X):
        self.second, self.clauses, self.lines, self.end = X
        self.table, self.nodes, self.puts = [(1,)], 0, 0
    def listed(self, r, at):
        if r in self.table: return self.table.index(r)
        k, a, b = r
        need((self.shares(a) and self.shares(b)) if k == 2 else self.shares(a) if k == 3 else not self.shares(a), 35, at)
        need(self.bits(a) + self.bits(b) <= 128, 34, at)
        need(len(self.table) < 256, 34, at)
        self.table.append(r); return len(self.table) - 1
    def bits(self, t):
        r = self.table[t]; return 1 if r[0] == 1 else self.bits(r[1]) + self.bits(r[2])
    def shares(self, t): return self.table[t][0] <= 2
    def put(self, sort, S, more, at, n, ts, ks):
        seen, under, types, numbers, variables = S
        entries = under + len(variables); xs = []
        for i, t in enumerate(ts):
            need(entries + i + 1 <= MOST_ENTRIES, 34, at)
            xs.append(self.type(more, (seen, under + i, types, numbers, variables), t))
        ns = []
        for k in ks:
            need(entries + len(xs) + len(ns) + 1 <= MOST_ENTRIES, 34, at)
            ns.append(self.number(numbers, k))
        for i, c in enumerate(self.clauses[:seen]):
            if namesake(c, sort, n) and len(c.types) == len(xs) and len(c.numbers) == len(ns) and all(
                    k.plus <= v if k.open else k.plus == v for k, v in zip(c.numbers, ns)): break
        else: raise Refusal(33, at)
        knows = i
        if c.numbers: knows = max(j + 1 for j, d in enumerate(self.clauses) if namesake(d, c.type, c.head.name))
        R = (knows, entries + len(c.types) + len(c.numbers), [(b.name, x) for b, x in zip(c.types, xs)],
             [(k.name, v - k.plus) for k, v in zip(c.numbers, ns) if k.open], [])
        self.pay(c, at)
        return R, c.body
    def pay(self, c, at):
        cost = 1 + max(0, c.end - c.head.place) // 32
        need(self.puts + cost <= MOST_PUTS, 34, at); self.puts += cost
    def number(self, numbers, k):
        if not k.open: return k.plus
        for n, v in numbers:
            if n == k.name: need(v + k.plus <= 255, 34, k.place); return v + k.plus
        raise Refusal(33, k.place)
    def type(self, more, S, tree):
        at, a, p, q = tree
        need(more > 0, 34, at); more -= 1
        t = self.atom_type(more, S, a)
        for s in (p, q):
            if s: u = self.type(more, S, s[2]); t = self.listed((s[0], t, u), s[1])
        return t
    def atom_type(self, more, S, a):
        if a[0] == 'one': return 0
        if a[0] == 'ones':
            n, t = self.number(S[3], a[2]), 0
            need(n > 0, 33, a[2].place)
            for _ in range(n - 1): t = self.listed((2, 0, t), a[1])
            return t
        if a[0] == 'inside': return self.type(more, S, a[1])
        _, at, n, ts, ks = a
        if not ts and not ks:
            for m, v in S[2]:
                if m == n: return v
        R, body = self.put(True, S, more, at, n, ts, ks)
        return self.type(more, R, body)
    def node(self, at, e, t, below, places):
        need(self.nodes < 2048, 34, at); need(below < 64, 34, at); self.nodes += 1
        return Made(e, t, below + 1, [at] + places)
    def over(self, at, head, t, a, b): return self.node(at, head + a.term + b.term, t, max(a.deep, b.deep), a.places + b.places)
    def part(self, at, p):
        n = INPUTS[p]
        if n == 0: t = 0
        elif n == 1: t = self.listed((3, 0, 0), at)
        elif self.second: t = self.listed((3, self.listed((2, 0, 0), at), 0), at)
        else: t = self.listed((3, 0, self.listed((3, 0, 0), at)), at)
        return self.node(at, bytes([0x1A, p, t]), t, 0, [])
    def function(self, x, t, e):
        w = self.listed((3 if self.shares(t) else 4, t, e.type), x.place)
        return self.node(x.place, bytes([0x13 if self.shares(t) else 0x15, w]) + e.term, w, e.deep, e.places)
    def halves(self, t): r = self.table[t]; return (r[1], r[2]) if r[0] == 2 else (0, 0)
    def atom(self, more, S, a):
        if a[0] == 'part': return self.part(a[1], a[2])
        if a[0] == 'tuple':
            made = [(None, self.term(more, S, a[1]))] + [(s, self.term(more, S, e)) for s, e in a[2]]
            at, b = made.pop()
            while made:
                s, x = made.pop()
                half = lambda t: t if self.shares(t) else 0
                t = self.listed((2, half(x.type), half(b.type)), at)
                b = self.over(at, bytes([0x17, t]), t, x, b); at = s
            return b
        _, at, n, ts, ks = a
        if not ts and not ks:
            for i, (m, t) in enumerate(S[4]):
                if m == n: return self.node(at, bytes([0x11 if self.shares(t) else 0x12, min(i, 255)]), t, 0, [])
        R, body = self.put(False, S, more, at, n, ts, ks)
        return self.term(more, R, body)
    def room(self, S, n, at): need(S[1] + len(S[4]) + n <= MOST_ENTRIES, 34, at)
    def term(self, more, S, tree):
        form, at = tree[:2]
        need(more > 0, 34, at); more -= 1
        bound = lambda xs: S[:4] + (xs + S[4],)
        if form == 'spine':
            f = self.atom(more, S, tree[2])
            for a in tree[3]:
                x = self.atom(more, S, a)
                r = self.table[f.type]
                linear = r[0] == 4 if r[0] > 2 else not self.shares(x.type)
                f = self.over(at, bytes([0x16 if linear else 0x14]), r[2] if r[0] > 2 else 0, f, x)
            return f
        if form in ('fun', 'fix'):
            _, _, xs, t, e = tree
            t = self.type(more, S, t); self.room(S, len(xs), at)
            b = self.term(more, bound([(x.name, t) for x in reversed(xs)]), e)
            if form == 'fix': return self.node(xs[0].place, bytes([0x19, t]) + b.term, t, b.deep, b.places)
            for x in reversed(xs): b = self.function(x, t, b)
            return b
        _, _, xs, v, e = tree
        v = self.term(more, S, v)
        if form == 'let':
            self.room(S, 1, at); x = xs[0]
            b = self.term(more, bound([(x.name, v.type)]), e)
            if self.second and self.shares(v.type): return self.over(x.place, b'\x1b', b.type, v, b)
            f = self.function(x, v.type, b)
            return self.over(x.place, bytes([0x14 if self.shares(v.type) else 0x16]), b.type, f, v)
        self.room(S, 2 * len(xs), at)
        new, values = [], [v]
        for i in range(len(xs) - 1):
            l, r = self.halves(values[-1].type)
            if i == len(xs) - 2: new = [(xs[i + 1].name, r), (xs[i].name, l)] + new
            else:
                new = [(None, r), (xs[i].name, l)] + new
                values.append(self.node(xs[i + 1].place, b'\x11\x00', r, 0, []))
        b = self.term(more, bound(new), e)
        for x, v in reversed(list(zip(xs, values))): b = self.over(x.place, b'\x18', b.type, v, b)
        return b
    def sheet(self):
        top = lambda seen: (seen, 0, [], [], [])
        for seen, t in self.lines: self.type(MOST_NESTED, top(seen), t)
        for i, c in enumerate(self.clauses):
            if c.types or c.numbers or namesake(c, False, b'main'): continue
            self.pay(c, c.head.place)
            table = list(self.table)
            self.type(MOST_NESTED, top(i), c.body) if c.type else self.term(MOST_NESTED, top(i), c.body)
            self.table, self.nodes = table, 0
        R, body = self.put(False, top(len(self.clauses)), MOST_NESTED, self.end, b'main', [], [])
        m = self.term(MOST_NESTED, R, body)
        return (b'\x31' if self.second else b'') + b''.join(bytes(r) for r in self.table) + m.term, m.places
def make_by_definition(text):
    """('made', bytes, places) or ('refused', number, place)."""
    kept = sys.getrecursionlimit()
    sys.setrecursionlimit(max(kept, 20000))
    try:
        need(len(text) <= 65535, 30, 0)
        return ('made',) + Making(Grammar(words(text)).text()).sheet()
    except Refusal as r: return ('refused', r.number, r.place)
    finally: sys.setrecursionlimit(kept)
