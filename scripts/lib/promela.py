"""The text of a program as Promela, the language of the model checker spin.

    written, prefix = promela.written(promela.program(text))

Each word is an `unsigned` of its width, and each part a process. Each of its blocks, which `rgc emit` lists (a `skip`, an assignment, an `await`,
or the single test of an `if` or a `while`), is one statement of Promela under a label of its own. So a step of the program is one step in spin,
and the states are the same: the values of the words, and the place of each part. A step that assigns words keeps their old values in variables
of C, which are no part of a state, and asserts the program's guarantee. The step that brings the last part to its end
asserts the post. A part that has ended stays where it is. The environment makes no step.

The words that the pre equates with a number begin with it. Where it says more, or leaves words open, a process of its own first chooses their
bits, one in a step, and waits for the pre to hold; `prefix` is how many steps spin makes before the first one of the program, else 0."""
import dataclasses
import re

# (spin computes with signed numbers of 32 bits)
MOST_WIDTH = 30
COMPARISONS = {"=": "==", "!=": "!=", "<": "<", "<=": "<=", ">": ">", ">=": ">="}
CONNECTIVES = {"and": "({} && {})", "or": "({} || {})", "implies": "(!{} || {})", "iff": "({} == {})"}
WITHIN = {"+": "+", "-": "-", "band": "&", "bor": "|", "bxor": "^"}


class Unwritable(Exception):
    """Why a program can't be written in Promela."""


@dataclasses.dataclass
class Part:
    name: str
    # Each block is a test or None, assignments, the place that it leads to, and the one that it leads to where the test fails, or None where it
    # waits until the test holds. The place after the last one is the end.
    blocks: list


@dataclasses.dataclass
class Program:
    # The width of each word.
    words: dict
    spec: dict
    parts: list


# Reading. A tree is ("num", n), ("word", name), ("next", name), ("true",), ("false",), ("not", a), ("inv", a), ("if", f, a, b) or (op, a, b).


class Reader:
    def __init__(self, text):
        self.tokens = re.findall(r"\w+'?|:=|!=|<=|>=|\S", re.sub(r"#[^\n]*", "", text))
        self.at = 0

    def take(self, wanted=None):
        token = self.tokens[self.at]
        if wanted not in (None, token):
            raise Unwritable(f"`{wanted}` is wanted where `{token}` stands")
        self.at += 1
        return token

    def is_at(self, token):
        """Whether this token comes, which then is taken."""
        is_there = self.tokens[self.at : self.at + 1] == [token]
        self.at += is_there
        return is_there

    def tree(self):
        """A formula or a value."""
        token = self.take()
        if token in ("true", "false"):
            return (token,)
        if token in ("not", "inv"):
            return token, self.tree()
        if token.isdigit():
            return "num", int(token)
        if token != "(":
            return ("next", token[:-1]) if token.endswith("'") else ("word", token)
        if self.is_at("if"):
            found = "if", self.tree(), self.after("then"), self.after("else")
            self.take(")")
            return found
        found = self.tree()
        while not self.is_at(")"):
            found = self.take(), found, self.tree()
        return found

    def after(self, token):
        """The tree after this token."""
        self.take(token)
        return self.tree()

    def spec(self):
        return {name: self.after(name) for name in ("pre", "rely", "guar", "post")}

    def list_of(self, read):
        """What is read, with `;` between."""
        found = [read()]
        while self.is_at(";"):
            found.append(read())
        return found

    def assignment(self):
        return self.take(), self.after(":=")

    def statements(self):
        return self.list_of(self.statement)

    def statement(self):
        """A statement as its kind, its test or None, its assignments, and the lists of statements in it."""
        if self.is_at("skip"):
            return "do", None, [], []
        if self.is_at("await"):
            test, _ = self.tree(), self.take("do")
            found = "await", test, self.list_of(self.assignment), []
        elif self.is_at("if"):
            test, _ = self.tree(), self.take("then")
            first, _ = self.statements(), self.take("else")
            found = "if", test, [], [first, self.statements()]
        elif self.is_at("while"):
            test, _ = self.tree(), self.take("do")
            found = "while", test, [], [self.statements()]
        else:
            return "do", None, [self.assignment()], []
        self.take("end")
        return found


def count(body):
    """How many blocks statements have."""
    return sum(1 + sum(count(it) for it in bodies) for _, _, _, bodies in body)


def push_blocks(body, after, blocks):
    """Adds the blocks of statements, after which comes the block at place `after`."""
    for number, (kind, test, act, bodies) in enumerate(body):
        place = len(blocks)
        end = place + count(body[number : number + 1]) if number + 1 < len(body) else after
        if kind == "if":
            blocks.append((test, [], place + 1, place + 1 + count(bodies[0])))
        elif kind == "while":
            blocks.append((test, [], place + 1, end))
        else:
            blocks.append((test, act, end, None))
        for inner in bodies:
            push_blocks(inner, place if kind == "while" else end, blocks)


def program(text):
    """The program that a text spells."""
    reader, words = Reader(text), {}
    reader.take("words")
    while reader.tokens[reader.at] != "pre":
        reader.is_at("fixed")
        name, _ = reader.take(), reader.take(":")
        words[name] = int(reader.take())
    spec, parts = reader.spec(), []
    while reader.is_at("part"):
        name = reader.take()
        reader.spec()
        reader.take("begin")
        body, blocks = reader.statements(), []
        reader.take("end")
        push_blocks(body, count(body), blocks)
        parts.append(Part(name, blocks))
    wide = [name for name, width in words.items() if width > MOST_WIDTH]
    if wide:
        raise Unwritable(f"the word {wide[0]} has more than {MOST_WIDTH} bits")
    return Program(words, spec, parts)


# Writing


class Writer:
    def __init__(self, of):
        self.of = of
        conjuncts = self.conjuncts(of.spec["pre"])
        plain = [it for it in conjuncts if it[0] == "=" and it[1][0] == "word" and it[2][0] == "num"]
        self.values = {word: number for _, (_, word), (_, number) in plain}
        self.open = [it for it in of.words if it not in self.values]
        is_plain = not self.open and len(plain) == len(conjuncts)
        self.prefix = 0 if is_plain else sum(of.words[it] for it in self.open) + 1 + len(of.parts)

    def conjuncts(self, formula):
        """The conjuncts of a formula."""
        return [*self.conjuncts(formula[1]), *self.conjuncts(formula[2])] if formula[0] == "and" else [formula]

    def width(self, tree):
        """The width of the first word of a group, or None. The formula of an `if` has groups of its own."""
        if tree[0] in ("word", "next"):
            return self.of.words[tree[1]]
        inner = tree[2:] if tree[0] == "if" else [it for it in tree[1:] if isinstance(it, tuple)]
        return next((it for it in map(self.width, inner) if it), None)

    def tree(self, tree, old=(), width=None):
        """A tree in Promela, in a group of this width. A plain word is read in the state before a step that assigns the words `old`."""
        kind = tree[0]
        if kind == "num":
            return str(tree[1])
        if kind in ("word", "next"):
            return f"c_expr {{ before_{tree[1]} }}" if kind == "word" and tree[1] in old else f"w_{tree[1]}"
        if kind in ("true", "false", "not"):
            # (`!!` is an operator of its own)
            return f"(!{self.tree(tree[1], old)})" if kind == "not" else kind
        if kind in CONNECTIVES:
            return CONNECTIVES[kind].format(self.tree(tree[1], old), self.tree(tree[2], old))
        if kind in COMPARISONS:
            width = self.width(tree)
            return f"({self.tree(tree[1], old, width)} {COMPARISONS[kind]} {self.tree(tree[2], old, width)})"
        most = (1 << width) - 1
        if kind == "if":
            return f"({self.tree(tree[1], old)} -> {self.tree(tree[2], old, width)} : {self.tree(tree[3], old, width)})"
        left = self.tree(tree[1], old, width)
        if kind == "inv":
            return f"({most} - {left})"
        if kind in ("shl", "shr"):
            return "0" if tree[2][1] >= width else f"(({left} {'<<' if kind == 'shl' else '>>'} {tree[2][1]}) & {most})"
        return f"(({left} {WITHIN[kind]} {self.tree(tree[2], old, width)}) & {most})"

    def step(self, part, test, act, place):
        """A step of a part to a place, with what it asserts."""
        words = [*dict(act)]
        lines = [self.tree(test)] if test else []
        lines += [f"c_code {{ {' '.join(f'before_{it} = now.w_{it};' for it in words)} }}"] if words else []
        lines += [f"w_{word} = {self.tree(value, width=self.of.words[word])}" for word, value in act]
        same = " && ".join(f"c_expr {{ before_{it} == now.w_{it} }}" for it in words)
        if words:
            lines.append(f"assert(({same}) || {self.tree(self.of.spec['guar'], words)})")
        if place == len(part.blocks):
            lines += ["ended++", f"assert(ended < {len(self.of.parts)} || {self.tree(self.of.spec['post'])})"]
        return f"d_step {{ {'; '.join(lines)} }}" if len(lines) > 1 else lines[0] if lines else "skip"

    def part(self, part):
        yield f"{'' if self.prefix else 'active '}proctype p_{part.name}() {{"
        for place, (test, act, to, other) in enumerate(part.blocks):
            failed = f" :: {self.step(part, ('not', test), [], other)} -> goto B{other}" if other is not None else ""
            # (a `d_step` alone can't be jumped to)
            yield f"B{place}: if :: {self.step(part, test, act, to)} -> goto B{to}{failed} fi;"
        yield f"B{len(part.blocks)}: end_{part.name}: false\n}}"

    def start(self):
        """The process that chooses the values that the pre leaves open."""
        yield "init { atomic {"
        for word in self.open:
            yield from (f"if :: w_{word} = w_{word} + {1 << bit} :: skip fi;" for bit in range(self.of.words[word]))
        yield f"{self.tree(self.of.spec['pre'])};"
        yield "".join(f"run p_{part.name}(); " for part in self.of.parts) + "}\nend: false }"

    def lines(self):
        for word, width in self.of.words.items():
            yield f"unsigned w_{word} : {width} = {self.values.get(word, 0)};"
        yield f"byte ended;\nc_decl {{ static int {', '.join(f'before_{it}' for it in self.of.words)}; }}"
        for part in self.of.parts:
            yield from self.part(part)
        if self.prefix:
            yield from self.start()


def written(of):
    """A program in Promela, and how many steps spin makes before the first one of the program."""
    writer = Writer(of)
    return "".join(f"{it}\n" for it in writer.lines()), writer.prefix
