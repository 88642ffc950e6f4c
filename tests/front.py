#!/usr/bin/env python3
"""OpenQASM 2.0 read anew from the rules in docs/, in another language and by another hand than the compiler:
tokens, statements, scope and expansion by plain replacing.

    front.py FILE      the native ops of a source, one a line, or the line of its refusal
"""
import functools
import re
import sys
import threading

RESERVED = "include qreg creg gate opaque measure reset barrier if pi sin cos tan exp ln sqrt".split()
FUNCTIONS = "sin cos tan exp ln sqrt".split()
PIECES = [
    ("blank", re.compile(rb"[ \t\r\n]")),
    ("blank", re.compile(rb"//[^\n]*")),
    ("word", re.compile(rb"[a-z][A-Za-z0-9_]*")),
    ("real", re.compile(rb"(?:[0-9]+\.[0-9]*|\.[0-9]+)(?:[eE][+-]?[0-9]+)?|[0-9]+[eE][+-]?[0-9]+")),
    ("string", re.compile(rb'"[^"\n]*"')),
    ("sign", re.compile(rb"->|==|[;,(){}\[\]+\-*/^]")),
]
CAPITAL = re.compile(rb"[A-Z][A-Za-z0-9_]*")
DIGITS = re.compile(rb"[0-9]+")


class Refused(Exception):
    pass


class Limited(Exception):
    pass


def lex(source):
    at, tokens = 0, []
    while at < len(source):
        best = (0, None)
        for kind, pattern in PIECES:
            m = pattern.match(source, at)
            if m and m.end() - at > best[0]:
                best = (m.end() - at, kind)
        m = CAPITAL.match(source, at)
        if m and m.group() in (b"OPENQASM", b"U", b"CX"):
            best = (m.end() - at, "capital")
        m = DIGITS.match(source, at)
        if m and best[1] != "real" and (m.group() == b"0" or m.group()[:1] != b"0"):
            best = (m.end() - at, "whole")
        if best[0] == 0:
            raise Refused("Lex", at)
        if best[1] != "blank":
            tokens.append((best[1], source[at : at + best[0]].decode("latin-1"), at))
        at += best[0]
    return tokens


class Reader:
    """One statement by recursive descent; the fault is at the first token that can't be taken."""

    def __init__(self, tokens, end):
        self.tokens, self.end, self.i = tokens, end, 0

    def peek(self, ahead=0):
        i = self.i + ahead
        return self.tokens[i] if i < len(self.tokens) else ("end", "", self.end)

    def fail(self):
        raise Refused("Syntax", self.peek()[2])

    def take(self, text=None, kind=None):
        t = self.peek()
        if t[0] == "end" or (text is not None and t[1] != text) or (kind is not None and t[0] != kind):
            self.fail()
        if text is not None and t[0] == "string":
            self.fail()
        self.i += 1
        return t

    def ident(self):
        t = self.peek()
        if t[0] != "word" or t[1] in RESERVED:
            self.fail()
        self.i += 1
        return t

    def sees(self, text):
        t = self.peek()
        return t[0] in ("sign", "word", "capital") and t[1] == text

    def list_of(self, item):
        items = [item()]
        while self.sees(","):
            self.i += 1
            items.append(item())
        return items

    def arg(self):
        t = self.ident()
        index = None
        if self.sees("["):
            self.i += 1
            index = min(int(self.take(kind="whole")[1]), 2**64 - 1)
            self.take("]")
        return (t[1], index, t[2])

    def name(self):
        t = self.ident()
        return (t[1], t[2])

    def inner_arg(self):
        t = self.ident()
        return (t[1], None, t[2])

    def expr(self):
        left = self.term()
        while self.sees("+") or self.sees("-"):
            sign = self.take()[1]
            left = (sign, left, self.term())
        return left

    def term(self):
        left = self.neg()
        while self.sees("*") or self.sees("/"):
            sign = self.take()[1]
            left = (sign, left, self.neg())
        return left

    def neg(self):
        if self.sees("-"):
            self.i += 1
            return ("neg", self.neg())
        base = self.atom()
        if self.sees("^"):
            self.i += 1
            return ("^", base, self.neg())
        return base

    def atom(self):
        t = self.peek()
        if t[0] in ("whole", "real"):
            self.i += 1
            return ("number", t[1])
        if t[0] == "word" and t[1] == "pi":
            self.i += 1
            return ("pi",)
        if t[0] == "word" and t[1] in FUNCTIONS:
            self.i += 1
            self.take("(")
            inner = self.expr()
            self.take(")")
            return ("call", t[1], inner)
        if self.sees("("):
            self.i += 1
            inner = self.expr()
            self.take(")")
            return inner
        if t[0] == "word" and t[1] not in RESERVED:
            self.i += 1
            return ("name", t[1], t[2])
        self.fail()

    def exprs_in_parens(self, may_be_empty):
        self.take("(")
        exprs = []
        if not (may_be_empty and self.sees(")")):
            exprs = self.list_of(self.expr)
        self.take(")")
        return exprs

    def call(self, arg):
        t = self.peek()
        if self.sees("U") and t[0] == "capital":
            self.i += 1
            exprs = self.exprs_in_parens(False)
            args = [arg()]
        elif self.sees("CX") and t[0] == "capital":
            self.i += 1
            exprs = []
            args = [arg()]
            self.take(",")
            args.append(arg())
        else:
            self.ident()
            exprs = self.exprs_in_parens(True) if self.sees("(") else []
            args = self.list_of(arg)
        self.take(";")
        return {"name": t[1], "at": t[2], "exprs": exprs, "args": args}

    def qop(self):
        t = self.peek()
        if self.sees("measure"):
            self.i += 1
            source = self.arg()
            self.take("->")
            into = self.arg()
            self.take(";")
            return ("measure", source, into, t[2])
        if self.sees("reset"):
            self.i += 1
            arg = self.arg()
            self.take(";")
            return ("reset", arg, t[2])
        return ("call", self.call(self.arg))

    def signature(self):
        params = []
        if self.sees("("):
            self.i += 1
            if not self.sees(")"):
                params = self.list_of(self.name)
            self.take(")")
        return params, self.list_of(self.name)

    def statement(self, first):
        t = self.peek()
        if first:
            self.take("OPENQASM")
            n = self.peek()
            if n[0] not in ("whole", "real"):
                self.fail()
            self.i += 1
            self.take(";")
            return ("version", n[1], n[2])
        if self.sees("include"):
            self.i += 1
            s = self.take(kind="string")
            self.take(";")
            return ("include", s[1][1:-1], s[2])
        if self.sees("qreg") or self.sees("creg"):
            self.i += 1
            n = self.ident()
            self.take("[")
            size = min(int(self.take(kind="whole")[1]), 2**64 - 1)
            self.take("]")
            self.take(";")
            return (t[1], n[1], size, n[2])
        if self.sees("gate"):
            self.i += 1
            n = self.ident()
            params, args = self.signature()
            self.take("{")
            body = []
            while not self.sees("}"):
                if self.sees("barrier"):
                    b = self.take()
                    inner = self.list_of(self.inner_arg)
                    self.take(";")
                    body.append({"name": "barrier", "at": b[2], "exprs": [], "args": inner})
                else:
                    body.append(self.call(self.inner_arg))
            self.take("}")
            return ("gate", n[1], params, args, body, n[2])
        if self.sees("opaque"):
            self.i += 1
            n = self.ident()
            params, args = self.signature()
            self.take(";")
            return ("opaque", n[1], params, args, n[2])
        if self.sees("barrier"):
            self.i += 1
            args = self.list_of(self.arg)
            self.take(";")
            return ("barrier", args, t[2])
        if self.sees("if"):
            self.i += 1
            self.take("(")
            self.ident()
            self.take("==")
            self.take(kind="whole")
            self.take(")")
            self.qop()
            return ("if", t[2])
        return self.qop()


MOST_CALLS = 262144
FIRST = "u3 u2 u1 cx id x y z h s sdg t tdg rx ry rz cy ch ccx crz cu1 cu3 cz".split()


class Scope:
    def __init__(self, header=None):
        self.own, self.header = {}, header or {}
        self.included = False
        # what was measured: places, and of whole registers their sizes
        self.read, self.read_whole = set(), {}
        self.items = []
        self.qubits = self.bits = 0

    def meaning(self, name):
        if name in self.own:
            return self.own[name]
        return self.header.get(name) if self.included else None

    def declared(self, name):
        return name in self.own or (self.included and name in FIRST)

    def callee(self, name):
        if name == "U":
            return ("gate", "U", 3, 1)
        if name == "CX":
            return ("gate", "CX", 0, 2)
        if name == "barrier":
            return ("barrier",)
        m = self.meaning(name)
        if m is None or m[0] in ("qreg", "creg"):
            return ("unknown",)
        return m

    def size(self, name, kind):
        m = self.meaning(name)
        return m[1] if m and m[0] == kind else None

    def applications(self, args):
        for w, i, _ in args:
            if i is None:
                return self.size(w, "qreg") or 0
        return 1

    def places(self, args, k):
        return [(w, k if i is None else i) for w, i, _ in args]

    def repeats(self, args):
        """Some application has a place twice."""
        n = self.applications(args)
        for at, (w, i, _) in enumerate(args):
            for v, j, _ in args[:at]:
                if w == v and n > 0 and (i == j or (i is None and j < n) or (j is None and i < n)):
                    return True
        return False

    def was_read(self, args):
        """Some application is on a place that was measured."""
        n = self.applications(args)
        for w, i, _ in args if n > 0 else []:
            if i is None and (self.read_whole.get(w, 0) > 0 or any(v == w and k < n for v, k in self.read)):
                return True
            if i is not None and ((w, i) in self.read or i < self.read_whole.get(w, 0)):
                return True
        return False

    def add(self, args, item):
        """An item for each application; past the limit of calls no more are needed."""
        for k in range(min(self.applications(args), MOST_CALLS + 1 - len(self.items))):
            self.items.append(item(k))

    def refusals(self, s):
        kind = s[0]
        if kind == "version" and s[1] != "2.0":
            yield 0, s[2]
        if kind == "if":
            yield 1, s[1]
        if kind == "reset":
            yield 2, s[2]
        if kind == "include":
            if s[1] != "qelib1.inc":
                yield 3, s[2]
            if not self.included and any(n in self.own for n in FIRST):
                yield 4, s[2]
        if kind in ("qreg", "creg", "gate", "opaque") and self.declared(s[1]):
            yield 4, s[-1]
        quantum = {"call": lambda: s[1]["args"], "barrier": lambda: s[1], "measure": lambda: [s[1]]}.get(kind, list)()
        classical = [s[2]] if kind == "measure" else []
        for args, register in ((quantum, "qreg"), (classical, "creg")):
            for w, i, at in args:
                n = self.size(w, register)
                if n is None:
                    yield 5, at
                elif i is not None and i >= n:
                    yield 11, at
        for call in [s[1]] if kind == "call" else s[4] if kind == "gate" else []:
            c = self.callee(call["name"])
            if c[0] == "unknown":
                yield 6, call["at"]
            if c[0] == "opaque":
                yield 7, call["at"]
            if c[0] == "gate":
                if len(call["exprs"]) != c[2]:
                    yield 8, call["at"]
                if len(call["args"]) != c[3]:
                    yield 9, call["at"]
        if kind == "call":
            call = s[1]
            sizes = {self.size(w, "qreg") for w, i, _ in call["args"] if i is None}
            if len(sizes) > 1:
                yield 10, call["at"]
            if self.repeats(call["args"]):
                yield 12, call["at"]
            if self.was_read(call["args"]):
                yield 14, call["at"]
            for e in call["exprs"]:
                for at in names(e, []):
                    yield 13, at
        if kind == "measure":
            (w, i, _), (v, j, _) = s[1], s[2]
            if (i is None) != (j is None) or (i is None and self.size(w, "qreg") != self.size(v, "creg")):
                yield 10, s[3]
            if self.was_read([s[1]]):
                yield 14, s[3]
        if kind in ("gate", "opaque"):
            seen = set()
            for n, at in s[2] + s[3]:
                if n in seen:
                    yield 13, at
                seen.add(n)
        if kind == "gate":
            params, args = [n for n, _ in s[2]], [n for n, _ in s[3]]
            for op in s[4]:
                words = [w for w, _, _ in op["args"]]
                if op["name"] != "barrier" and len(set(words)) < len(words):
                    yield 12, op["at"]
                for w, _, at in op["args"]:
                    if w not in args:
                        yield 13, at
                for e in op["exprs"]:
                    for at in names(e, params):
                        yield 13, at

    def judge(self, s):
        first = min(self.refusals(s), default=None)
        if first:
            kinds = "Version Control Reset Include Redeclared NotDeclared UnknownGate Opaque Params Arity Sizes Index Repeated Name AfterRead"
            raise Refused(kinds.split()[first[0]], first[1])

    def number(self, place):
        return self.own[place[0]][2] + place[1]

    def enter(self, s):
        kind = s[0]
        if kind == "include":
            self.included = True
        if kind == "qreg":
            self.own[s[1]] = ("qreg", s[2], self.qubits)
            self.qubits += s[2]
        if kind == "creg":
            self.own[s[1]] = ("creg", s[2], self.bits)
            self.bits += s[2]
        if kind == "opaque":
            self.own[s[1]] = ("opaque",)
        if kind == "gate":
            params, args = [n for n, _ in s[2]], [n for n, _ in s[3]]
            body = [(self.callee(op["name"]), op["exprs"], [args.index(w) for w, _, _ in op["args"]]) for op in s[4]]
            self.own[s[1]] = ("gate", (params, body), len(params), len(args))
        if kind == "call":
            c = s[1]
            self.add(c["args"], lambda k: (self.callee(c["name"]), c["exprs"], self.places(c["args"], k)))
        if kind == "measure":
            self.add([s[1]], lambda k: (("read",), [], self.places([s[1], s[2]], k)))
            w, i, _ = s[1]
            if i is None:
                self.read_whole[w] = self.size(w, "qreg")
            else:
                self.read.add((w, i))
        if kind == "barrier" and len(self.items) <= MOST_CALLS:
            self.items.append((("barrier",), [], []))


def names(e, params):
    if e[0] == "name":
        return [e[2]] if e[1] not in params else []
    return [at for part in e[1:] if isinstance(part, tuple) for at in names(part, params)]


def size_of(e):
    return 1 + sum(size_of(part) for part in e[1:] if isinstance(part, tuple))


def depth_of(e):
    return 1 + max((depth_of(part) for part in e[1:] if isinstance(part, tuple)), default=0)


def put(e, angles):
    if e[0] == "name":
        return angles[e[1]]
    return tuple(put(part, angles) if isinstance(part, tuple) else part for part in e)


def text(e):
    if e[0] in ("number", "name"):
        return e[1]
    if e[0] == "pi":
        return "pi"
    if e[0] == "neg":
        return f"(-{text(e[1])})"
    if e[0] == "call":
        return f"{e[1]}({text(e[2])})"
    return f"({text(e[1])}{e[0]}{text(e[2])})"


def numbers(e):
    if e[0] == "number":
        return [e[1]]
    return [n for part in e[1:] if isinstance(part, tuple) for n in numbers(part)]


HEADER_TEXT = b"""OPENQASM 2.0;
gate u3(theta,phi,lambda) q { U(theta,phi,lambda) q; }
gate u2(phi,lambda) q { U(pi/2,phi,lambda) q; }
gate u1(lambda) q { U(0,0,lambda) q; }
gate cx c,t { CX c,t; }
gate id a { U(0,0,0) a; }
gate x a { u3(pi,0,pi) a; }
gate y a { u3(pi,pi/2,pi/2) a; }
gate z a { u1(pi) a; }
gate h a { u2(0,pi) a; }
gate s a { u1(pi/2) a; }
gate sdg a { u1(-pi/2) a; }
gate t a { u1(pi/4) a; }
gate tdg a { u1(-pi/4) a; }
gate rx(theta) a { u3(theta,-pi/2,pi/2) a; }
gate ry(theta) a { u3(theta,0,0) a; }
gate rz(phi) a { u1(phi) a; }
gate cy a,b { sdg b; cx a,b; s b; }
gate ch a,b { h b; sdg b; cx a,b; h b; t b; cx a,b; t b; h b; s b; x b; s a; }
gate ccx a,b,c { h c; cx b,c; tdg c; cx a,c; t c; cx b,c; tdg c; cx a,c;
  t b; t c; h c; cx a,b; t a; tdg b; cx a,b; }
gate crz(lambda) a,b { u1(lambda/2) b; cx a,b; u1(-lambda/2) b; cx a,b; }
gate cu1(lambda) a,b { u1(lambda/2) a; cx a,b; u1(-lambda/2) b; cx a,b; u1(lambda/2) b; }
gate cu3(theta,phi,lambda) c,t { u1((lambda-phi)/2) t; cx c,t;
  u3(-theta/2,0,-(phi+lambda)/2) t; cx c,t; u3(theta/2,phi,0) t; }
gate u(theta,phi,lambda) q { U(theta,phi,lambda) q; }
gate p(lambda) q { U(0,0,lambda) q; }
gate sx a { sdg a; h a; sdg a; }
gate sxdg a { s a; h a; s a; }
gate swap a,b { cx a,b; cx b,a; cx a,b; }
gate cswap a,b,c { cx c,b; ccx a,b,c; cx c,b; }
gate cp(lambda) a,b { p(lambda/2) a; cx a,b; p(-lambda/2) b; cx a,b; p(lambda/2) b; }
gate crx(lambda) a,b { u1(pi/2) b; cx a,b; u3(-lambda/2,0,0) b; cx a,b; u3(lambda/2,-pi/2,0) b; }
gate cry(lambda) a,b { ry(lambda/2) b; cx a,b; ry(-lambda/2) b; cx a,b; }
gate rzz(theta) a,b { cx a,b; rz(theta) b; cx a,b; }
gate rxx(theta) a,b { h a; h b; cx a,b; rz(theta) b; cx a,b; h b; h a; }
"""


def read_into(scope, source):
    tokens = lex(source)
    reader = Reader(tokens, len(source))
    statements = []
    while not statements or reader.i < len(tokens):
        s = reader.statement(not statements)
        scope.judge(s)
        scope.enter(s)
        statements.append(s)
    return statements


@functools.cache
def header():
    base = Scope()
    read_into(base, HEADER_TEXT)
    return {**base.own, "cz": ("gate", "CZ", 0, 2)}


def program(source):
    scope = Scope(header())
    statements = read_into(scope, source)
    limits(scope, statements)
    return scope


def limits(scope, statements):
    for s in statements:
        for call in [s[1]] if s[0] == "call" else s[4] if s[0] == "gate" else []:
            for e in call["exprs"]:
                for n in numbers(e):
                    if len(n) > 40:
                        raise Limited("Literal", len(n))
    for kind, register, most in (("Qubits", "qreg", 4096), ("Bits", "creg", 65536)):
        total = 0
        for s in statements:
            if s[0] == register:
                total = min(total + s[2], 2**64 - 1)
                if total > most:
                    raise Limited(kind, total)


def native(scope):
    """The ops, by a list of calls whose first call with a body is replaced; and the counts beside it."""
    ops, calls, nodes = [], 0, 0
    pending = [(1, item) for item in reversed(scope.items)]
    while pending:
        depth, (callee, exprs, args) = pending.pop()
        calls += 1
        if calls > MOST_CALLS:
            raise Limited("Calls", calls)
        if depth > 64:
            raise Limited("Depth", depth)
        for e in exprs:
            if size_of(e) > 256:
                raise Limited("AngleNodes", size_of(e))
            if depth_of(e) > 64:
                raise Limited("AngleDepth", depth_of(e))
            nodes += size_of(e)
            if nodes > 4194304:
                raise Limited("AngleTotal", nodes)
        if callee[0] == "barrier":
            ops.append(("fence",))
        elif callee[0] == "read":
            ops.append(("read", scope.number(args[0]), scope.number(args[1])))
        elif callee[1] == "U":
            ops.append(("one", scope.number(args[0]), [text(e) for e in exprs]))
        elif callee[1] == "CX":
            c, t = map(scope.number, args)
            h = ("one", t, ["(pi/2)", "0", "pi"])
            ops += [h, ("two", c, t), h]
        elif callee[1] == "CZ":
            ops.append(("two", *map(scope.number, args)))
        else:
            params, body = callee[1]
            angles = dict(zip(params, exprs))
            for inner, inner_exprs, places in reversed(body):
                pending.append((depth + 1, (inner, [put(e, angles) for e in inner_exprs], [args[i] for i in places])))
    return ops


def deeply(work):
    """Runs the work with room for statements that are nested as deep as a file can hold, and answers what it answers."""
    sys.setrecursionlimit(10**7)
    threading.stack_size(2**30)
    answers = []
    thread = threading.Thread(target=lambda: answers.append(work()))
    thread.start()
    thread.join()
    return answers[0] if answers else sys.exit(1)


def answer():
    source = open(sys.argv[1], "rb").read()
    try:
        for op in native(program(source)):
            print(*op)
    except Refused as fault:
        print("source refused: %s at %d" % fault.args)
    except Limited as fault:
        print("limit: %s %d" % fault.args)


if __name__ == "__main__":
    deeply(answer)
