#!/usr/bin/env python3
"""A second, slow finder, written from the rules in docs/: it works out what the cases of program `worked` must print.

    python3 tools/reference.py > crates/worked/stdin
    python3 tools/reference.py expected > OUT      # then the lines for the label are added by hand

It shares nothing with the Rattle code: words are recognised by derivatives of the expression, and distances are
taken from their definitions by listing words.
"""
import sys
from functools import lru_cache

SPECIAL = set(b"()[]<>|*+?.\\^-")


class Refused(Exception):
    def __init__(self, number, place, matches=None):
        self.number, self.place, self.matches = number, place, matches


# ---------------------------------------------------------------- expressions
class Parser:
    """Recursive descent; `fail` is how many bytes of the front an expression can have there."""

    def __init__(self, text, mode):
        self.t, self.mode, self.i = text, mode, 0
        self.groups, self.ranges, self.atoms = [], [], []

    def bad(self):
        raise Refused(2, self.i)

    def peek(self):
        return self.t[self.i] if self.i < len(self.t) else None

    def expression(self, depth):
        tree = self.branch(depth)
        while self.peek() == ord("|"):
            self.i += 1
            tree = ("either", tree, self.branch(depth))
        return tree

    def branch(self, depth):
        tree = self.item(depth)
        while self.peek() is not None and self.peek() not in b"|)":
            tree = ("join", tree, self.item(depth))
        return tree

    def item(self, depth):
        tree = self.atom(depth)
        mark = self.peek()
        if mark in (ord("*"), ord("+"), ord("?")):
            self.i += 1
            tree = ({"*": "star", "+": "plus", "?": "maybe"}[chr(mark)], tree)
        return tree

    def atom(self, depth):
        c, at = self.peek(), self.i
        if c is None:
            self.bad()
        if c == ord("("):
            self.groups.append((depth + 1, at))
            self.i += 1
            inner = self.expression(depth + 1)
            if self.peek() != ord(")"):
                self.bad()
            self.i += 1
            return ("group", inner)
        if c == ord("."):
            self.i += 1
            return self.simple(at, self.all(), None)
        if c == ord("[" if self.mode == "byte" else "<"):
            return self.set(at)
        if self.mode == "field":
            self.bad()
        value = self.unit()
        return self.simple(at, {value}, value)

    def all(self):
        return set(range(256 if self.mode == "byte" else 100))

    def simple(self, at, codes, single):
        self.atoms.append((at, codes))
        return ("atom", len(self.atoms), frozenset(codes), single)

    def unit(self):
        c = self.peek()
        if c is None:
            self.bad()
        if c == ord("\\"):
            self.i += 1
            d = self.peek()
            if d is None or not (d in SPECIAL or d == ord("n")):
                self.bad()
            self.i += 1
            return 10 if d == ord("n") else d
        if c in SPECIAL:
            self.bad()
        self.i += 1
        return c

    def digits(self):
        value = 0
        for _ in range(2):
            c = self.peek()
            if c is None or not 48 <= c <= 57:
                self.bad()
            value = value * 10 + c - 48
            self.i += 1
        return value

    def member(self):
        at = self.i
        read = self.unit if self.mode == "byte" else self.digits
        low = read()
        if self.peek() != ord("-"):
            return {low}, low
        self.i += 1
        high = read()
        self.ranges.append((low, high, at))
        return set(range(low, high + 1)), None

    def set(self, at):
        self.i += 1
        negated = self.peek() == ord("^")
        if negated:
            self.i += 1
        close = ord("]" if self.mode == "byte" else ">")
        codes, single = self.member()
        count = 1
        while self.peek() != close:
            if self.mode == "field":
                if self.peek() != ord(","):
                    self.bad()
                self.i += 1
            more, _ = self.member()
            codes |= more
            count += 1
        self.i += 1
        if negated:
            codes = self.all() - codes
        alone = self.mode == "field" and count == 1 and not negated
        return self.simple(at, codes, single if alone else None)


def read(text, mode="byte"):
    if len(text) > 1024:
        raise Refused(1, 1024)
    p = Parser(text, mode)
    tree = p.expression(0)
    if p.i < len(text):
        p.bad()
    for depth, at in p.groups:
        if depth > 16:
            raise Refused(3, at)
    for low, high, at in p.ranges:
        if high < low:
            raise Refused(4, at)
    for at, codes in p.atoms:
        if not codes:
            raise Refused(5, at)
    if len(p.atoms) > 63:
        raise Refused(6, p.atoms[63][0])
    return Expression(tree, [codes for _, codes in p.atoms])


# ------------------------------------------------- words, by derivatives
EMPTY, NONE = ("empty",), ("none",)


def join(a, b):
    if a == NONE or b == NONE:
        return NONE
    if a == EMPTY:
        return b
    return a if b == EMPTY else ("join", a, b)


def either(parts):
    flat = set()
    for p in parts:
        flat |= p[1] if p[0] == "or" else {p}
    flat.discard(NONE)
    if not flat:
        return NONE
    return next(iter(flat)) if len(flat) == 1 else ("or", frozenset(flat))


def backwards(tree):
    """The expression of the words read right to left."""
    kind = tree[0]
    if kind == "atom":
        return ("sym", tree[1], tree[2])
    if kind == "group":
        return backwards(tree[1])
    if kind == "join":
        return join(backwards(tree[2]), backwards(tree[1]))
    if kind == "either":
        return either([backwards(tree[1]), backwards(tree[2])])
    inner = backwards(tree[1])
    if kind == "star":
        return ("star", inner)
    if kind == "plus":
        return join(inner, ("star", inner))
    return either([EMPTY, inner])


def nullable(e):
    if e[0] in ("empty", "star"):
        return True
    if e[0] == "join":
        return nullable(e[1]) and nullable(e[2])
    return e[0] == "or" and any(nullable(x) for x in e[1])


@lru_cache(maxsize=None)
def derive(e, code):
    if e[0] == "sym":
        return EMPTY if code in e[2] else NONE
    if e[0] == "join":
        first = join(derive(e[1], code), e[2])
        return either([first, derive(e[2], code)]) if nullable(e[1]) else first
    if e[0] == "star":
        return join(derive(e[1], code), e)
    if e[0] == "or":
        return either([derive(x, code) for x in e[1]])
    return NONE


class Expression:
    def __init__(self, tree, sets):
        self.tree, self.sets = tree, sets
        self.back = backwards(tree)
        self.shortest = shortest(tree)
        self._jumps = None

    def state(self, word):
        """What is left to read, leftwards, after the word; NONE if it is no tail."""
        e = self.back
        for c in reversed(word):
            e = derive(e, c)
        return e

    def is_tail(self, word):
        return self.state(word) != NONE

    def is_word(self, word):
        return nullable(self.state(word))

    def spelling(self):
        """The plain word, if the expression is one."""
        def go(t):
            if t[0] == "atom":
                return None if t[3] is None else [t[3]]
            if t[0] == "join":
                a, b = go(t[1]), go(t[2])
                return None if a is None or b is None else a + b
            return None
        return go(self.tree)

    def distances(self):
        if self._jumps is None:
            self._jumps = Distances(self)
        return self._jumps


def shortest(t):
    if t[0] == "atom":
        return 1
    if t[0] in ("group", "plus"):
        return shortest(t[1])
    if t[0] == "join":
        return shortest(t[1]) + shortest(t[2])
    if t[0] == "either":
        return min(shortest(t[1]), shortest(t[2]))
    return 0


# ---------------------------------------------------------------- positions
def first_last_follow(t):
    """(nullable, first, last, pairs that may stand side by side)"""
    if t[0] == "atom":
        return False, {t[1]}, {t[1]}, set()
    if t[0] == "group":
        return first_last_follow(t[1])
    if t[0] in ("join", "either"):
        n, f, l, p = first_last_follow(t[1])
        m, g, k, q = first_last_follow(t[2])
        if t[0] == "either":
            return n or m, f | g, l | k, p | q
        return n and m, f | (g if n else set()), k | (l if m else set()), p | q | {(a, b) for a in l for b in g}
    n, f, l, p = first_last_follow(t[1])
    if t[0] != "maybe":
        p = p | {(a, b) for a in l for b in f}
    return n or t[0] != "plus", f, l, p


class Distances:
    """Straight from the definitions, by listing words of kinds."""
    INFINITE = 10 ** 9

    def __init__(self, e):
        self.e = e
        kinds = {}
        for c in range(256):
            kinds.setdefault(tuple(c in s for s in e.sets), c)
        self.kind = {c: kinds[tuple(c in s for s in e.sets)] for c in range(256)}
        self.codes = sorted(kinds.values())
        level, tails = [()], [()]
        self.k = 0
        while self.k < e.shortest:
            level = [(c,) + v for v in level for c in self.codes if e.is_tail((c,) + v)]
            if len(tails) + len(level) > 256:
                break
            tails += level
            self.k += 1
        self.full = {v for v in tails if len(v) == self.k}
        n, f, l, pairs = first_last_follow(e.tree)
        self.into = {0: l}
        for q in range(1, len(e.sets) + 1):
            self.into[q] = {a for a, b in pairs if b == q}
        self.t = {q: self.position(q) for q in range(len(e.sets) + 1)}

    def first(self, v):
        k, best = self.k, self.INFINITE
        for f in self.full:
            for n in range(1, k - len(v) + 1):
                end = f[k - len(v) - n:]
                if end[:len(v)] == v:
                    best = min(best, n)
        return best

    def second(self, v):
        for n in range(1, max(1, self.k) + 1):
            # v and n symbols of any sort: does some full tail fit at the end?
            over = self.k - n
            if over <= 0:
                return n
            if over <= len(v) and any(f[:over] == v[len(v) - over:] for f in self.full):
                return n
        return max(1, self.k)

    def least(self, v):
        return min(self.first(v), self.second(v))

    def step(self, states, code):
        return {q for s in states for q in self.into[s] if code in self.e.sets[q - 1]}

    def states(self, word):
        now = {0}
        for c in reversed(word):
            now = self.step(now, c)
        return now

    def position(self, q):
        if q == 0:
            return self.least(())
        way, front = 0, {0}
        while q not in front:
            front = {x for s in front for x in self.into[s]}
            way += 1
        a = min(self.k, way)
        words = [()]
        for _ in range(a):
            words = [(c,) + w for w in words for c in self.codes if self.e.is_tail((c,) + w)]
        best = self.INFINITE
        for w in words:
            reach = set(self.states(w))
            todo = list(reach)
            while todo:
                for x in self.into[todo.pop()]:
                    if x not in reach:
                        reach.add(x)
                        todo.append(x)
            if q in reach:
                best = min(best, self.least(w))
        return best


# ------------------------------------------------------------------ engines
def jump(engine, e, v):
    """How far to go on from a place where the longest tail is v."""
    if engine == "single":
        return 1
    d = e.distances()
    if engine == "tabled":
        return max(d.t[q] for q in d.states(v))
    word = e.spelling()
    kinds = tuple(d.kind[c] for c in word[len(word) - len(v):])
    return d.least(kinds)


# ------------------------------------------------------------------- search
class Search:
    def __init__(self, e, text, size):
        if len(text) > 65535:
            raise Refused(8, 65535)
        self.e, self.text, self.size = e, text, size
        self.frm = self.next = self.walks = self.reads = 0
        self.found = []

    def look(self):
        """The matches that end at next, shorter first, and the length of the longest tail."""
        here, p, left = [], self.next, self.e.back
        j = 0
        if nullable(left):
            here.append((p, p))
        for s in range(p - 1, -1, -1):
            left = derive(left, self.text[s])
            if left == NONE:
                break
            j = p - s
            if nullable(left):
                here.append((s, p))
        return here, j

    def stop(self):
        if self.next > len(self.text):
            return Refused(9, self.next)
        here, _ = self.look()
        if len(here) > max(0, self.size - len(self.found)):
            return Refused(10, self.next, len(here))
        return None

    def step(self, engine):
        why = self.stop()
        if why:
            raise why
        here, j = self.look()
        p = self.next
        self.found += here
        self.walks += 1
        self.reads += min(p, j + 1)
        self.next = min(p + jump(engine, self.e, tuple(self.text[p - j:p])), len(self.text) + 1)
        return len(here)

    def run(self, engine, budget):
        done = 0
        while True:
            if self.next > len(self.text):
                return done, "finished"
            if done == budget:
                return done, "budget"
            if self.stop():
                return done, "room"
            self.step(engine)
            done += 1

    def clear(self):
        n = len(self.found)
        self.frm, self.found, self.walks, self.reads = self.next, [], 0, 0
        return n

    def move(self, place):
        if place > len(self.text):
            raise Refused(11, place)
        self.frm = self.next = place
        self.found, self.walks, self.reads = [], 0, 0


def refused(r):
    return f"refused {r.number} at {r.place}" + (f" with {r.matches}" if r.matches is not None else "")


def perform(expression, size, calls, text, mode="byte"):
    """What program `calls` prints."""
    try:
        e = read(expression, mode)
        if any("word" in c for c in calls) and e.spelling() is None:
            raise Refused(7, 0)
        s = Search(e, text, size)
    except Refused as r:
        return [refused(r)]
    out = []
    for c in calls:
        w = c.split()
        try:
            if w[0] == "step":
                out.append(f"wrote {s.step(w[1])}")
            elif w[0] == "run":
                out.append("ran %d %s" % s.run(w[1], int(w[2])))
            elif w[0] == "clear":
                out.append(f"cleared {s.clear()}")
            else:
                s.move(int(w[1]))
                out.append("moved")
        except Refused as r:
            out.append(refused(r))
    out.append(f"from {s.frm} next {s.next} filled {len(s.found)} walks {s.walks} reads {s.reads}")
    return out + [f"{a} {b}" for a, b in s.found]


# -------------------------------------------------------------------- cases
def cases():
    """(expression, table's size, calls, text) of each case."""
    whole = lambda g: [f"run {g} 9999"]
    for g in ("single", "tabled", "word"):
        yield b"aba", 9, whole(g), b"ababa"
        yield b"aba", 1, [f"run {g} 9", f"step {g}", "clear", f"step {g}", "move 5", "move 6"], b"ababa"
        yield b"a", 0, [f"step {g}", f"step {g}", "clear", f"run {g} 9"], b"ba"
        yield b"a", 9, ["move 4", "move 3", f"step {g}", f"step {g}", "move 0", f"run {g} 0", f"run {g} 2"], b"aaa"
        yield b"abcabd", 9, whole(g), b"abcabcabdabcabdab"
        yield b"a" * 63, 9, whole(g), b"a" * 65
        yield b"a" * 64, 9, whole(g), b"a" * 65
        yield b"\\*\\.\\n", 9, whole(g), b"*.\n*.*.\n\n"
        yield b"[a]", 9, whole(g), b"aa"
        yield b"(a)", 9, whole(g), b"aa"
        yield b"ab|c", 9, whole(g), b"abc"
    for g in ("single", "tabled"):
        yield b"ab+c", 9, whole(g), b"xabbcabc"
        yield b"a*", 9, whole(g), b""
        yield b"a*", 9, whole(g), b"a"
        yield b"a*", 4, [f"run {g} 9", "clear", f"run {g} 9", "clear", f"run {g} 9"], b"aaa"
        yield b"a+", 6, [f"run {g} 2", f"run {g} 99", f"run {g} 0", "clear", f"run {g} 99"], b"aaaa"
        yield b"(a|b)*abb", 99, whole(g), b"abbabaabbbabb"
        yield b"LOT.*7", 99, whole(g), b"LOT 17, LOT 27"
        yield b"[0-9][0-9]?-[A-Z]", 99, whole(g), b"7-A 12-B 123-C -D"
        yield b"[^a-z]x", 99, whole(g), b"1xaxAx xx"
        yield b"(LOT)?A1", 99, whole(g), b"LOTA1 A1 LOA1"
        yield b"((a|b)(c|d))+", 99, whole(g), b"acbdacxad"
        yield b"a(b|c)?d|e", 99, whole(g), b"adabdacdeabcd"
        yield b"abcdefgh", 99, whole(g), b"abcdefgabcdefghabcdefgh"
        yield b"....", 99, whole(g), b"abcdef"
        yield b"[a-c][b-d][c-e]", 99, whole(g), b"abcdeabccceddd"
        yield b"(aa|bb)(aa|bb)", 99, whole(g), b"aabbaabbabbaa"
        yield b"x(y|zz)w", 99, whole(g), b"xywxzzwxzw"
        yield b".", 3, [f"run {g} 9", "clear", f"step {g}", f"step {g}"], b"abcde"
        yield b"a?b?c?", 99, whole(g), b"abcacb"
        yield b"[b-a]", 9, whole(g), b"ab"
        yield b"", 9, whole(g), b"ab"
        yield b"a**", 9, whole(g), b"ab"
        yield b"(ab", 9, whole(g), b"ab"
        yield b"[^\\n]", 9, whole(g), b"a\nb"
    for x in (b"aba", b"ab+c", b"(ab|ba)c", b"[ab][bc]a", b"a(bc)*d", b"abcabc", b"(a|b)(a|b)(a|b)c"):
        word = read(x).spelling() is not None
        third = "word" if word else "tabled"
        for text in (b"abcabcabacbacbad", b"aabbccaabbccabcd"):
            yield x, 9, ["step single", "run tabled 3", f"run {third} 2", "clear", "move 4", "run tabled 99"], text
            yield x, 1, ["run tabled 99", "step single", "clear", f"run {third} 99", "clear", "run single 99"], text
            yield x, 5, ["move 99", f"step {third}", "move 16", f"step {third}", f"step {third}", "clear", f"step {third}"], text


def block(expression, size, calls, text):
    return b"\n".join([expression, b"table %d" % size] + [c.encode() for c in calls]) + b"\n\n" + text


if __name__ == "__main__":
    out = sys.stdout.buffer
    for n, case in enumerate(cases(), 1):
        if sys.argv[1:] == ["expected"]:
            out.write(b"case %d\n" % n + "".join(line + "\n" for line in perform(*case)).encode())
        else:
            data = block(*case)
            out.write(b"input %d\n" % len(data) + data + b"\n")
