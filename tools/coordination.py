"""What the tools share: an object as its plain form says it, its tables, and why methods are ordered, in words.

Everything is asked of the program by its commands `normal`, `tables` and `derive`. The variable HAMSAZ names the program;
without it the launcher at the top of the repository is used.
"""
import itertools
import os
import subprocess
import sys
import tempfile

TOP = os.path.dirname(os.path.dirname(os.path.abspath(__file__)))


def hamsaz(*words):
    """What the program writes; where it ends with another status than 0, so does the tool."""
    program = os.environ.get("HAMSAZ", os.path.join(TOP, "hamsaz"))
    ended = subprocess.run([program, *words], capture_output=True, text=True, stdin=subprocess.DEVNULL)
    if ended.returncode:
        sys.stderr.write(ended.stderr + ended.stdout or f"hamsaz {' '.join(words)}: status {ended.returncode}\n")
        sys.exit(ended.returncode)
    return ended.stdout


class Method:
    def __init__(self, name):
        self.name, self.params, self.guards, self.effects = name, [], [], []

    def ids(self):
        return [name for name, kind in self.params if kind == "id"]

    def with_constant(self, name, param, constant):
        """This method under another name, with a constant in place of a parameter."""
        other = Method(name)
        other.params = [p for p in self.params if p[0] != param]
        swap = lambda part: part[:2] + [constant if term == param else term for term in part[2:]]
        other.guards, other.effects = [*map(swap, self.guards)], [*map(swap, self.effects)]
        return other

    def lines(self):
        yield f"method {self.name}"
        for kind, parts in (("param", self.params), ("guard", self.guards), ("effect", self.effects)):
            for part in parts:
                yield " ".join([kind, *part])


class Object:
    """An object, read from its plain form."""

    def __init__(self, text):
        self.head, self.invariants, self.methods = [], [], {}
        method = None
        for line in text.splitlines()[1:-1]:
            kind, *words = line.split(" ")
            if kind == "method":
                method = self.methods[words[0]] = Method(words[0])
            elif method is None:
                self.head.append(line)
                if kind == "invariant":
                    self.invariants.append(words)
            else:
                getattr(method, kind + "s").append(words)

    def fresh_constants(self):
        """Two ids that no part of the object names."""
        parts = itertools.chain.from_iterable(m.guards + m.effects for m in self.methods.values())
        greatest = max((int(term[1:]) for words in parts for term in words[2:] if term[0] == "#"), default=0)
        return f"#{greatest % 2**32 + 1}", f"#{greatest % 2**32 + 2}"

    def text(self, methods):
        """The plain form with these methods in place of its own."""
        lines = ["hamsaz object 1", *self.head]
        for method in methods:
            lines.extend(method.lines())
        return "\n".join([*lines, "end", ""])


class Tables:
    """What `hamsaz tables` writes."""

    def __init__(self, text):
        lines = text.splitlines()
        if not lines or lines[-1] != "end":
            sys.exit("these are no tables: the last line is not `end`")
        self.conflicts, self.depends, self.groups, self.free = [], [], [], []
        self.group_of = {}
        for words in map(str.split, lines):
            if words[0] == "conflict":
                self.conflicts.append((words[1], words[2]))
            elif words[0] == "depend":
                self.depends.append((words[1], words[2]))
            elif words[0] == "group":
                self.groups.append((words[1], words[3], words[4:]))
                self.group_of.update((method, words[1]) for method in words[4:])
            elif words[0] == "lane" and words[2] != "group" and words[2] not in self.free:
                self.free.append(words[2])

    def waits(self):
        """The dependencies that make a call wait: those that no group's lane meets."""
        return [(m, n) for m, n in self.depends if m not in self.group_of or self.group_of[m] != self.group_of.get(n)]


def part(method, words):
    return f"`{' '.join(words)}` of {method.name}"


def promise(invariant):
    """What an invariant says."""
    kind, name, *rest = invariant
    if kind == "reference":
        to, *columns = rest
        what = "column " + columns[0] if len(columns) == 1 else "columns " + ", ".join(columns)
        return f"each row of {name} names one of {to} by its {what}"
    if kind == "unique":
        what = "column " + rest[0] if len(rest) == 1 else "columns " + ", ".join(rest)
        return f"no two rows of {name} agree on {what}"
    return f"{name} stays at {'least' if kind == 'low' else 'most'} {rest[0]}"


def obligations(obj, kind, m, n=None):
    """What each obligation of a claim asks, in the order in which a claim owes them."""
    one, other = obj.methods[m], obj.methods[n] if n else None
    if kind == "sc":
        for e, f in itertools.product(one.effects, other.effects):
            yield f"{part(one, e)} and {part(other, f)} give another state in the other order"
    elif kind == "is":
        for g in one.guards:
            yield f"the guard {part(one, g)} may fail"
        for v, e in itertools.product(obj.invariants, one.effects):
            yield f"{part(one, e)} may break that {promise(v)}"
    else:
        for g, f in itertools.product(one.guards, other.effects):
            if kind == "pr":
                yield f"{part(other, f)} may make the guard {part(one, g)} fail"
            else:
                yield f"{part(other, f)} may be what makes the guard {part(one, g)} hold"
        for v, e, f in itertools.product(obj.invariants, one.effects, other.effects):
            if kind == "pr":
                yield f"after {part(other, f)}, {part(one, e)} may break that {promise(v)}"
            else:
                yield f"without {part(other, f)}, {part(one, e)} may break that {promise(v)}"


class Coordination:
    """An object's file among so many replicas, and the reasons of its tables."""

    def __init__(self, path, replicas):
        self.path = path
        self.object = Object(hamsaz("normal", path))
        self.text = hamsaz("tables", path, replicas)
        self.tables = Tables(self.text)

    def why_not(self, kind, m, n=None):
        """None where the claim is derivable, else its first obligation without a reason, in words."""
        answer = hamsaz("derive", self.path, kind, *([m, n] if n else [m]))
        if not answer.startswith("none "):
            return None
        return next(itertools.islice(obligations(self.object, kind, m, n), int(answer.split()[1]) - 1, None))

    def conflict(self, m, n):
        """Why two methods conflict: what is left without a reason of commuting, and of staying permissible."""
        found = [self.why_not("sc", m, n)]
        for one, other in dict.fromkeys([(m, n), (n, m)]):
            if self.why_not("is", one):
                found.append(self.why_not("pr", one, other))
        return [why for why in found if why]

    def only_of_one(self, m, n):
        """The pairs of ids such that calls in which they are two different constants need no order."""
        one, other = self.object.methods[m], self.object.methods[n]
        pairs = list(itertools.product(one.ids(), other.ids()))[:16]
        made = []
        fresh, next_fresh = self.object.fresh_constants()
        for i, (p, q) in enumerate(pairs):
            made += [one.with_constant(f"a{i}", p, fresh), other.with_constant(f"b{i}", q, next_fresh)]
        if not made:
            return []
        with tempfile.NamedTemporaryFile("w", suffix=".object") as file:
            file.write(self.object.text(made))
            file.flush()
            conflicts = Tables(hamsaz("tables", file.name, "1")).conflicts
        return [pair for i, pair in enumerate(pairs) if (f"a{i}", f"b{i}") not in conflicts]


def remark(pairs):
    """Of which ids an order is needed, as the remark beside a conflict."""
    if not pairs:
        return ""
    one = [p if p == q else f"{p} and {q}" for p, q in pairs]
    return " (needed only of one " + ", of one ".join(one) + ")"
