"""Random programs with a derivation that `rgc prove` finds proofs for: of what the parts do next to nothing is asked."""

WIDTHS = (1, 2, 3, 8, 32, 64)


class Generated:
    """A program with a derivation: each part's guarantee is that it keeps the words that it doesn't set."""

    def __init__(self, random):
        self.random = random
        self.words = self.declared()
        self.words[0] = (self.words[0][0], self.words[0][1], False)
        self.rows, self.number = [], 0
        self.pre, self.rely = self.relied()
        parts = [self.part(it) for it in self.part_names()]
        words = " ".join(("fixed " if fixed else "") + f"{name}:{width}" for name, width, fixed in self.words)
        self.guarantees = [guarantee for _, guarantee in parts]
        self.text = f"words {words}\npre {self.pre}\nrely {self.rely}\nguar true\npost true\n" + "".join(text for text, _ in parts)
        self.derivation = "\n".join(self.rows) + "\n"
        self.start = self.values(0.7)
        moves = random.choice([0, 0, 1, 2, 5])
        self.moves = "\n".join(f"at {random.choice([0, 1, 2, 3, 7, 1000])} {self.values(0.5)}" for _ in range(moves))
        self.limit = random.choice([0, 1, 2, 5, 30, 100])

    def declared(self):
        """The words: the name, the width, and whether it is fixed. The first one never is."""
        return [(f"w{k}", self.random.choice(WIDTHS), self.random.random() < 0.2) for k in range(self.random.randint(1, 4))]

    def relied(self):
        """The program's pre and rely."""
        return "true", self.random.choice(["true", "true", "(w0' = w0)", "(w0' >= w0)"])

    def part_names(self):
        return [f"p{k}" for k in range(self.random.randint(1, 4))]

    def values(self, share):
        """Values for some of the words."""
        chosen = [it for it in self.words if self.random.random() < share]
        return " ".join(f"{name} = {self.value(width)}" for name, width, _ in chosen)

    def value(self, width):
        return self.random.choice([0, 1, 2**width - 1, self.random.randrange(2**width)])

    def expression(self, width, depth=2):
        names = [name for name, own, _ in self.words if own == width]
        kind = self.random.randrange(4 if depth else 2)
        if kind == 0 and names or kind == 1 and names:
            return self.random.choice(names)
        if kind < 2:
            return str(self.value(width))
        if kind == 2:
            operator = self.random.choice(["+", "-", "band", "bor", "bxor"])
            return f"({self.expression(width, depth - 1)} {operator} {self.expression(width, depth - 1)})"
        return f"(if {self.guard(depth - 1)} then {self.expression(width, depth - 1)} else {self.expression(width, depth - 1)})"

    def guard(self, depth=1):
        name, width, _ = self.random.choice(self.words)
        compare = f"({name} {self.random.choice(['=', '!=', '<', '<=', '>', '>='])} {self.expression(width, depth)})"
        return self.random.choice([compare, compare, f"not {compare}", "true"])

    def assignment(self, changed):
        name, width, _ = self.random.choice([it for it in self.words if not it[2]])
        changed.add(name)
        return f"{name} := {self.expression(width)}"

    def line(self, rule, number, premises, pre, guarantee):
        after = f" from {' '.join(map(str, premises))}" if premises else ""
        self.rows.append(f"line {len(self.rows) + 1} {rule} {number}{after} pre {pre} rely true guar {guarantee} post true")
        return len(self.rows)

    def tree(self, depth, changed):
        """A statement, before its guarantee is known."""
        kind = self.random.choice(["skip", "assign", "assign", "await"] + ["if", "while", "seq"] * (depth > 0))
        if kind == "skip":
            return ("skip",)
        if kind == "assign":
            return ("assign", self.assignment(changed))
        if kind == "await":
            act = [self.assignment(changed) for _ in range(self.random.randint(1, 3))]
            return ("await", self.guard(), "; ".join(act))
        if kind == "seq":
            items = [self.tree(depth - 1, changed) for _ in range(self.random.randint(2, 3))]
            flat = [inner for it in items for inner in (it[1] if it[0] == "seq" else [it])]
            return ("seq", flat)
        if kind == "while":
            return ("while", self.guard(), self.tree(depth - 1, changed))
        return ("if", self.guard(), self.tree(depth - 1, changed), self.tree(depth - 1, changed))

    def body(self, changed):
        return self.tree(2, changed)

    def written(self, tree):
        kind = tree[0]
        if kind == "skip":
            return "skip"
        if kind == "assign":
            return tree[1]
        if kind == "await":
            return f"await {tree[1]} do {tree[2]} end"
        if kind == "seq":
            return ";\n".join(self.written(it) for it in tree[1])
        if kind == "while":
            return f"while {tree[1]} do\n{self.written(tree[2])}\nend"
        return f"if {tree[1]} then\n{self.written(tree[2])}\nelse\n{self.written(tree[3])}\nend"

    def derive(self, tree, pre, guarantee):
        """Adds lines that derive the statement with this pre; the number of the last."""
        self.number += 1
        number, kind = self.number, tree[0]
        # (a test as a pre wouldn't be stable under a rely that is true)
        if kind in ("skip", "assign"):
            last = self.line("basic", number, [], "true", guarantee)
        elif kind == "await":
            last = self.line("atomic", number, [], "true", guarantee)
        elif kind == "seq":
            premises = [self.derive(it, "true", guarantee) for it in tree[1]]
            last = self.line("seq", number, premises, "true", guarantee)
        elif kind == "while":
            body = self.derive(tree[2], f"(true and {tree[1]})", guarantee)
            last = self.line("loop", number, [body], "true", guarantee)
        else:
            first = self.derive(tree[2], f"(true and {tree[1]})", guarantee)
            second = self.derive(tree[3], f"(true and not {tree[1]})", guarantee)
            last = self.line("if", number, [first, second], "true", guarantee)
        return last if pre == "true" else self.line("conseq", number, [last], pre, guarantee)

    def part(self, name):
        changed = set()
        tree = self.body(changed)
        kept = [word for word, _, _ in self.words if word not in changed]
        if self.random.random() < 0.3:
            kept = []
        guarantee = " and ".join(f"({it}' = {it})" for it in kept)
        guarantee = f"({guarantee})" if len(kept) > 1 else guarantee or "true"
        self.derive(tree, "true", guarantee)
        return f"part {name}\npre true rely true guar {guarantee} post true\nbegin\n{self.written(tree)}\nend\n", kept


class AllOperators(Generated):
    """A program with all operators, many widths, names that another language may take, and an environment that keeps all words but one at most."""

    WIDTHS = (1, 2, 5, 7, 8, 9, 12, 15, 16, 17, 24, 31, 32, 33, 48, 63, 64)
    NAMES = ("x", "y", "old", "done", "int", "bool", "w", "_v", "x_", "w_int", "INT8_MAX", "rgc_a", "RGC_LOAD", "atomic_x")
    PARTS = ("a", "b", "int", "_p", "run_a")

    def declared(self):
        widths = self.random.sample(self.WIDTHS, self.random.choice([1, 2]))
        names = self.random.sample(self.NAMES, self.random.randint(2, 5))
        return [(it, self.random.choice(widths), self.random.random() < 0.1) for it in names]

    def relied(self):
        kept = [name for name, _, _ in self.words]
        if self.random.random() < 0.2:
            kept.remove(self.random.choice(kept))
        kept = " and ".join(f"({it}' = {it})" for it in kept)
        # (where the rely is false, each word counts as one that the world outside may change, and few steps can be done in C)
        kept = "false" if self.random.random() < 0.1 else f"({kept})" if " and " in kept else kept
        return self.random.choice(["true", self.guard()]), kept

    def part_names(self):
        return self.random.sample(self.PARTS, self.random.choice([1, 2, 2, 2, 3]))

    def body(self, changed):
        """Several statements, so that parts have something to do with one another."""
        items = [self.tree(self.random.choice([0, 0, 1]), changed) for _ in range(self.random.randint(2, 4))]
        return ("seq", [inner for it in items for inner in (it[1] if it[0] == "seq" else [it])])

    def expression(self, width, depth=2):
        if depth and self.random.random() < 0.25:
            inner = self.expression(width, depth - 1)
            count = self.random.choice([0, 1, width - 1, min(width, 63), self.random.randrange(64)])
            return self.random.choice([f"inv {inner}", f"({inner} shl {count})", f"({inner} shr {count})"])
        return super().expression(width, depth)

    def guard(self, depth=1):
        if depth and self.random.random() < 0.3:
            one, other = self.guard(depth - 1), self.guard(depth - 1)
            return f"({one} {self.random.choice(['and', 'or', 'implies', 'iff'])} {other})"
        return super().guard(depth)


def asking(words, formulas):
    """A text whose one part tests these formulas one after the other, and its derivation. The words are those of a text, as they are declared there."""
    maker = object.__new__(Generated)
    maker.rows, maker.number = [], 0
    tests = [("if", it, ("skip",), ("skip",)) for it in formulas]
    tree = ("seq", tests) if len(tests) > 1 else tests[0]
    maker.derive(tree, "true", "true")
    text = f"words {words}\npre true rely false guar true post true\npart p pre true rely true guar true post true\nbegin\n{maker.written(tree)}\nend\n"
    return text, "\n".join(maker.rows) + "\n"
