"""Terms of the calculus in Python, and their sheets as commented hex. Used by build.py; nothing at run time needs it."""

PARTS = ["zero", "reg", "and", "or", "xor", "inv", "one"]


class Ty:
    def __init__(self, kind, left=None, right=None):
        self.kind, self.left, self.right = kind, left, right

    def key(self):
        return (self.kind,) if self.kind == 1 else (self.kind, self.left.key(), self.right.key())

    def __eq__(self, other):
        return self.key() == other.key()

    def __str__(self):
        if self.kind == 1:
            return "1"
        sign = {2: "×", 3: "→", 4: "⊸"}[self.kind]
        return "(%s %s %s)" % (self.left, sign, self.right)


bit = Ty(1)


def prod(a, b):
    return Ty(2, a, b)


def arrow(a, b):
    return Ty(3, a, b)


def lolli(a, b):
    return Ty(4, a, b)


class Edition:
    """what an edition decides (document 02, L7): its first byte, the type of the two-input gates, how a value gets a name"""

    def __init__(self, opening, gate_type, naming):
        one = arrow(bit, bit)
        self.opening, self.naming = opening, naming
        self.part_types = [bit, one, gate_type, gate_type, gate_type, one, bit]

    def const(self, name):
        p = PARTS.index(name)
        return Node(0x1A, [p, self.part_types[p]], [], [], self.part_types[p], name)

    def gate(self, name, *args):
        part = self.const(name)
        return app(part, *(args if part.ty.left == bit else [pair(*args)]))

    def let(self, name, value, body):
        """a name for a value of sharable type"""
        return self.naming(name, node(value), body)


class Binder:
    def __init__(self, name, ty):
        self.name, self.ty = name, ty


class Node:
    """kind, the record's own bytes after the kind (as types or numbers), subterms, binders of the last subterm, type, comment"""

    def __init__(self, kind, own, subs, binds, ty, words):
        self.kind, self.own, self.subs, self.binds, self.ty, self.words = kind, own, subs, binds, ty, words


def var(b):
    shared = b.ty.kind in (1, 2)
    return Node(0x11 if shared else 0x12, [b], [], [], b.ty, "%s" % b.name)


def fun(name, ty, body):
    """a function, sharable or linear by its argument's type; body takes the variable"""
    b = Binder(name, ty)
    inner = body(var_maker(b))
    shared = ty.kind in (1, 2)
    whole = (arrow if shared else lolli)(ty, inner.ty)
    return Node(0x13 if shared else 0x15, [whole], [inner], [b], whole, "%s%s : %s" % ("λ" if shared else "λ^", name, ty))


class var_maker:
    """a variable that makes a fresh node wherever it is used"""

    def __init__(self, b):
        self.b = b


def node(x):
    return var(x.b) if isinstance(x, var_maker) else x


def app(f, *args):
    f = node(f)
    for a in args:
        a = node(a)
        assert f.ty.left == a.ty, (str(f.ty), str(a.ty))
        shared = f.ty.kind == 3
        f = Node(0x14 if shared else 0x16, [], [f, a], [], f.ty.right, "apply" if shared else "apply, linear")
    return f


def pair(a, b):
    a, b = node(a), node(b)
    t = prod(a.ty, b.ty)
    return Node(0x17, [t], [a, b], [], t, "pair")


def proj(a, x, y, body):
    a = node(a)
    bx, by = Binder(x, a.ty.left), Binder(y, a.ty.right)
    e = node(body(var_maker(bx), var_maker(by)))
    return Node(0x18, [], [a, e], [bx, by], e.ty, "take apart into %s, %s" % (x, y))


def fix(name, ty, body):
    b = Binder(name, ty)
    e = node(body(var_maker(b)))
    assert e.ty == ty, (str(e.ty), str(ty))
    return Node(0x19, [ty], [e], [b], ty, "fix %s : %s" % (name, ty))


def by_function(name, value, body):
    return app(fun(name, value.ty, lambda x: node(body(x))), value)


def by_naming(name, value, body):
    b = Binder(name, value.ty)
    e = node(body(var_maker(b)))
    return Node(0x1B, [], [value, e], [b], e.ty, "name %s" % name)


first = Edition([], arrow(bit, arrow(bit, bit)), by_function)
second = Edition([0x31], arrow(prod(bit, bit), bit), by_naming)


def collect(term, table):
    def add(t):
        if t.kind != 1:
            add(t.left)
            add(t.right)
        if all(t != q for q in table):
            table.append(t)

    def go(n):
        for x in n.own:
            if isinstance(x, Ty):
                add(x)
        for s in n.subs:
            go(s)

    go(term)


def sheet(term, edition):
    """the sheet's lines: (bytes, comment)"""
    term = node(term)
    table = [bit]
    collect(term, table)
    number = lambda t: next(i for i, q in enumerate(table) if q == t)
    lines = [(edition.opening, "second edition")] if edition.opening else []
    for i, t in enumerate(table):
        own = [t.kind] if t.kind == 1 else [t.kind, number(t.left), number(t.right)]
        lines.append((own, "type %d: %s" % (i, t)))
    count = [0]

    def go(n, env, depth):
        own = [n.kind]
        for x in n.own:
            if isinstance(x, Ty):
                own.append(number(x))
            elif isinstance(x, Binder):
                own.append(next(i for i, b in enumerate(env) if b is x))
            else:
                own.append(x)
        lines.append((own, "node %d: %s%s" % (count[0], "  " * depth, n.words)))
        count[0] += 1
        for i, s in enumerate(n.subs):
            inner = list(reversed(n.binds)) + env if i == len(n.subs) - 1 else env
            go(s, inner, depth + 1)

    go(term, [], 0)
    return lines
