"""A second reading of texts, derivations, starts and moves, from docs/LANGUAGE.md, RULES.md and REFUSALS.md alone: the first fault of a file with its number and
its line, or what the file says. It is slow and plain: the grammar stands here as the page has it, and what can follow is tried in all ways at once."""
import collections
import re
import sys

# A number of a text may have as many digits as the text has bytes.
sys.set_int_max_str_digits(0)
MOST_BYTES = 1_048_576
WORDS, PARTS, STATEMENTS, ASSIGNMENTS, LINES, OPENERS, OPERANDS = 64, 32, 4000, 16, 20_000, 200, 64
MOST_NUMBER = 4_294_967_295
KEYWORDS = set(
    "words fixed show pre rely guar post part begin end skip await do if then else while not and or implies iff true false inv "
    "band bor bxor shl shr line from basic atomic seq loop conseq at".split()
)
BLANK = re.compile(rb"[ \t\r\n]+|#[^\n]*")
TOKEN = re.compile(rb"([A-Za-z_][A-Za-z0-9_]*)(')?|([0-9]+)|(:=|!=|<=|>=|[():;=<>+-])")
COMPARISONS, OPERATORS = ("=", "!=", "<", "<=", ">", ">="), ("+", "-", "band", "bor", "bxor")
RULES = ("basic", "atomic", "seq", "if", "loop", "conseq")

# kind is one of name, primed, number, and of every other token its own text.
Token = collections.namedtuple("Token", "kind text line")
Program = collections.namedtuple("Program", "words spec parts statements")
Part = collections.namedtuple("Part", "name spec first")
Statement = collections.namedtuple("Statement", "kind test items")
Line = collections.namedtuple("Line", "number rule statement premises spec at")


class Fault(Exception):
    """The first fault: its number and its line in the file."""

    def __init__(self, number, line):
        super().__init__(number, line)
        self.number, self.line = number, line


# The first pass: tokens


def tokens_of(source):
    if len(source) > MOST_BYTES:
        raise Fault(11, 1)
    found, at, line = [], 0, 1
    while at < len(source):
        blank = BLANK.match(source, at)
        if blank:
            line += blank[0].count(b"\n")
            at = blank.end()
            continue
        it = TOKEN.match(source, at)
        if not it:
            raise Fault(1, line)
        text, at = it[0].decode(), it.end()
        if it[1]:
            word = it[1].decode()
            # (a keyword has no prime: the `'` after it begins no token)
            if it[2] and word in KEYWORDS:
                raise Fault(1, line)
            kind = word if word in KEYWORDS else "primed" if it[2] else "name"
        else:
            kind = "number" if it[3] else text
        found.append(Token(kind, text, line))
    return found


# The second pass: shape. Each row is a form and the ways to write it, as the page has them, but that what begins alike is joined; a form in capitals.

GRAMMAR = {
    "SHOW": [["words", "WORD", "MORE WORDS", "show", "F"]],
    "PROGRAM": [["words", "WORD", "MORE WORDS", "SPEC", "PART", "MORE PARTS"]],
    "MORE WORDS": [[], ["WORD", "MORE WORDS"]],
    "WORD": [["name", ":", "number"], ["fixed", "name", ":", "number"]],
    "SPEC": [["pre", "F", "rely", "F", "guar", "F", "post", "F"]],
    "MORE PARTS": [[], ["PART", "MORE PARTS"]],
    "PART": [["part", "name", "SPEC", "begin", "B", "end"]],
    "B": [["S", "MORE S"]],
    "MORE S": [[], [";", "S", "MORE S"]],
    "S": [["skip"], ["A"], ["await", "F", "do", "A", "MORE A", "end"], ["if", "F", "then", "B", "else", "B", "end"], ["while", "F", "do", "B", "end"]],
    "A": [["name", ":=", "E"]],
    "MORE A": [[], [";", "A", "MORE A"]],
    "F": [["true"], ["false"], ["not", "F"], ["(", "F", "CONNECTED"], ["(", "E", "COMPARED"]],
    "CONNECTED": [["and", "F", "MORE AND", ")"], ["or", "F", "MORE OR", ")"], ["implies", "F", ")"], ["iff", "F", ")"]],
    "COMPARED": [[it, "E", ")"] for it in COMPARISONS],
    "MORE AND": [[], ["and", "F", "MORE AND"]],
    "MORE OR": [[], ["or", "F", "MORE OR"]],
    "E": [
        ["number"], ["name"], ["primed"], ["inv", "E"], ["(", "E", "OPERATED"], ["(", "if", "F", "then", "E", "else", "E", ")"],
    ],
    "OPERATED": [*[[it, "E", ")"] for it in OPERATORS], ["shl", "number", ")"], ["shr", "number", ")"]],
    "DERIVATION": [[], ["LINE", "DERIVATION"]],
    "LINE": [["line", "number", it, "number", "PREMISES", "SPEC"] for it in RULES],
    "PREMISES": [[], ["from", "number", "MORE NUMBERS"]],
    "MORE NUMBERS": [[], ["number", "MORE NUMBERS"]],
    "START": [[], ["name", "=", "number", "START"]],
    "MOVES": [[], ["at", "number", "START", "MOVES"]],
}


class Ways:
    """All ways to go on: a set of lists of what is still to come. A list is a number: 0 is the empty one, each other one has a first and the rest."""

    lists, numbers, known = [None], {}, {}

    def __init__(self, form):
        self.ways = {self.made(form, 0)}

    @classmethod
    def made(cls, first, rest):
        if (first, rest) not in cls.numbers:
            cls.numbers[first, rest] = len(cls.lists)
            cls.lists.append((first, rest))
        return cls.numbers[first, rest]

    @classmethod
    def heads(cls, way):
        """What may come after each token that may come first in a list; and whether nothing need come."""
        if way in cls.known:
            return cls.known[way]
        found, seen, left, is_over = collections.defaultdict(set), set(), [way], False
        while left:
            it = left.pop()
            if it == 0 or it in seen:
                is_over = is_over or it == 0
                continue
            seen.add(it)
            first, rest = cls.lists[it]
            if first not in GRAMMAR:
                found[first].add(rest)
                continue
            for form in GRAMMAR[first]:
                made = rest
                for part in reversed(form):
                    made = cls.made(part, made)
                left.append(made)
        cls.known[way] = found, is_over
        return cls.known[way]

    def goes_on(self, kind):
        self.ways = set().union(*(self.heads(way)[0].get(kind, ()) for way in self.ways))
        return bool(self.ways)

    def is_over(self):
        return any(self.heads(way)[1] for way in self.ways)


class Openers:
    """The openers that are open, with what else has an end of its own."""

    COUNTED = ("(", "not", "inv", "if", "while")

    def __init__(self):
        self.open, self.count, self.chains = [], 0, []

    def push(self, kind):
        self.open.append(kind)
        self.count += kind in self.COUNTED

    def pop(self):
        self.count -= self.open.pop() in self.COUNTED

    def operand(self):
        """An operand is complete, and with it those that wait for one."""
        while self.open and self.open[-1] in ("not", "inv"):
            self.pop()

    def takes(self, token, before, is_rule):
        """Takes a token that fits; whether it keeps the limits of depth."""
        kind = token.kind
        if kind in self.COUNTED and not is_rule:
            if self.count >= OPENERS:
                return False
            self.push(kind)
            if kind == "(":
                self.chains.append(1)
        elif kind in ("and", "or"):
            self.chains[-1] += 1
            return self.chains[-1] <= OPERANDS
        elif kind in ("await", "begin"):
            self.push(kind)
        elif kind == "end":
            self.pop()
        elif kind == ")":
            while self.open[-1] != "(":
                self.pop()
            self.pop()
            self.chains.pop()
            self.operand()
        elif kind in ("true", "false", "name", "primed", "number"):
            self.operand()
        return True


class Counts:
    """What has a limit of its own: words, parts, statements, assignments of an await, lines."""

    def __init__(self):
        self.words = self.parts = self.statements = self.assignments = self.lines = 0
        self.blocks, self.in_words, self.is_statement = [], False, False

    def takes(self, token, before, after, is_rule):
        """Takes a token that fits, before which and after which these stand; whether it keeps the limits."""
        kind = token.kind
        if kind == "words":
            self.in_words = True
        elif kind in ("show", "pre"):
            self.in_words = False
        if self.in_words and (kind == "fixed" or kind == "name" and before.kind != "fixed"):
            self.words += 1
            return self.words <= WORDS
        if kind == "part":
            self.parts += 1
            return self.parts <= PARTS
        if kind == "line":
            self.lines += 1
            return self.lines <= LINES
        return self.takes_statement(kind, before, is_rule)

    def takes_statement(self, kind, before, is_rule):
        """The statements: of each block that is open, how many it has."""
        begins = before is not None and (before.kind in ("begin", "then", "else", "do", ";")) and self.blocks and not is_rule
        if kind == "begin":
            self.blocks = [["block", 0]]
            return True
        if not self.blocks:
            return True
        if begins and before.kind in ("then", "else") and self.blocks[-1][0] == "value":
            begins = False
        if begins and self.blocks[-1][0] == "await":
            self.assignments += 1
            return self.assignments <= ASSIGNMENTS
        fits = True
        if begins:
            self.blocks[-1][1] += 1
            # (a block of several is a statement of its own, which comes before them)
            self.statements += 2 if self.blocks[-1][1] == 2 else 1
            fits = self.statements <= STATEMENTS
        if kind == "await":
            self.assignments = 0
            self.blocks.append(["head of await", 0])
        elif kind == "while":
            self.blocks.append(["head", 0])
        elif kind == "if":
            self.blocks.append(["value" if before.kind == "(" else "head", 0])
        elif kind == "do":
            self.blocks[-1] = ["await" if self.blocks[-1][0] == "head of await" else "block", 0]
        elif kind in ("then", "else") and self.blocks[-1][0] != "value":
            self.blocks[-1] = ["block", 0]
        elif kind == "end":
            self.blocks.pop()
        return fits


def shaped(tokens, form, unexpected=2):
    """Whether the tokens are those of a form, or else the first fault."""
    ways, openers, counts, before, earlier = Ways(form), Openers(), Counts(), None, None
    values = []
    for at, token in enumerate(tokens):
        if not ways.goes_on(token.kind):
            raise Fault(unexpected, token.line)
        is_rule = before is not None and earlier is not None and earlier.kind == "line" and before.kind == "number"
        # the `)` of an `(if ..)` ends it, also where limits are counted
        if token.kind == "(":
            values.append(len(counts.blocks))
        if not openers.takes(token, before, is_rule):
            raise Fault(10, token.line)
        after = tokens[at + 1] if at + 1 < len(tokens) else None
        if not counts.takes(token, before, after, is_rule):
            raise Fault(11, token.line)
        if token.kind == ")":
            del counts.blocks[values.pop() :]
        earlier, before = before, token
    if not ways.is_over():
        raise Fault(12, tokens[-1].line if tokens else 1)


# The third pass: what the tokens mean. Every fault that is met is noted, and the one at the first token counts, with the least number.


class Reader:
    """Reads tokens whose shape is right."""

    def __init__(self, tokens, words=None):
        self.tokens, self.at, self.words, self.faults = tokens, 0, words or {}, []
        self.is_one_state = False

    def next(self):
        self.at += 1
        return self.tokens[self.at - 1]

    def peek(self):
        return self.tokens[self.at].kind if self.at < len(self.tokens) else None

    def fault(self, place, number):
        self.faults.append((place, number))

    def ends(self):
        """Reports the first fault, if there is one."""
        if self.faults:
            place, number = min(self.faults)
            raise Fault(number, self.tokens[place].line)

    def number(self, most=MOST_NUMBER):
        value = int(self.next().text)
        if value > most:
            self.fault(self.at - 1, 6)
        return value

    # Words and groups

    def declarations(self):
        self.next()
        while self.peek() in ("fixed", "name"):
            is_fixed = self.peek() == "fixed"
            if is_fixed:
                self.next()
            place, name = self.at, self.next().text
            self.next()
            width = int(self.next().text)
            if name in self.words:
                self.fault(place, 4)
            elif not 1 <= width <= 64:
                self.fault(self.at - 1, 5)
            if not 1 <= width <= 64 and name in self.words:
                self.fault(self.at - 1, 5)
            self.words.setdefault(name, (width, is_fixed))

    def settle(self, group):
        """Judges a group: its leaves in order, each its place and its token."""
        words = [(place, it) for place, it in group if it.kind != "number"]
        if not words:
            self.fault(group[0][0], 8)
            return
        first = self.words.get(words[0][1].text.rstrip("'"))
        if first is None:
            self.fault(words[0][0], 3)
            return
        for place, it in group:
            if it.kind == "number":
                if int(it.text) >= 2 ** first[0]:
                    self.fault(place, 6)
                continue
            found = self.words.get(it.text.rstrip("'"))
            if found is None:
                self.fault(place, 3)
            elif found[0] != first[0]:
                self.fault(place, 7)

    # Trees: a tuple of what it is and its parts

    def expression(self, group):
        token = self.next()
        if token.kind in ("number", "name", "primed"):
            group.append((self.at - 1, token))
            if token.kind == "primed" and self.is_one_state:
                self.fault(self.at - 1, 9)
            return (token.kind, int(token.text)) if token.kind == "number" else (token.kind, token.text.rstrip("'"))
        if token.kind == "inv":
            return ("inv", self.expression(group))
        if self.peek() == "if":
            self.next()
            test = self.formula()
            self.next()
            first = self.expression(group)
            self.next()
            second = self.expression(group)
            self.next()
            return ("if", test, first, second)
        first = self.expression(group)
        operator = self.next().kind
        second = ("number", self.number(63)) if operator in ("shl", "shr") else self.expression(group)
        self.next()
        return (operator, first, second)

    def is_comparison(self):
        """Whether what begins here, after a `(`, is an expression: by what stands at the depth of the parentheses."""
        at = self.at
        while self.tokens[at].kind in ("not", "inv"):
            if self.tokens[at].kind == "inv":
                return True
            at += 1
        first = self.tokens[at].kind
        if first in ("number", "name", "primed"):
            return True
        if first in ("true", "false") or at > self.at:
            return False
        if self.tokens[at + 1].kind == "if":
            return True
        # a parenthesis: past its end stands a connective, or an operation or a comparison
        depth = 0
        while True:
            depth += {"(": 1, ")": -1}.get(self.tokens[at].kind, 0)
            at += 1
            if depth == 0:
                return self.tokens[at].kind not in ("and", "or", "implies", "iff")

    def formula(self):
        token = self.next()
        if token.kind in ("true", "false"):
            return (token.kind,)
        if token.kind == "not":
            return ("not", self.formula())
        if self.is_comparison():
            group = []
            first = self.expression(group)
            comparison = self.next().kind
            second = self.expression(group)
            self.next()
            self.settle(group)
            return (comparison, first, second)
        tree = self.formula()
        while self.peek() != ")":
            connective = self.next().kind
            tree = (connective, tree, self.formula())
        self.next()
        return tree

    def of_one_state(self, is_one_state):
        before, self.is_one_state = self.is_one_state, is_one_state
        tree = self.formula()
        self.is_one_state = before
        return tree

    def spec(self):
        found = []
        for is_one_state in (True, False, False, True):
            self.next()
            found.append(self.of_one_state(is_one_state))
        return tuple(found)

    # Statements, each with a number

    def assignment(self):
        group = [(self.at, self.next())]
        name = group[0][1].text
        self.next()
        before, self.is_one_state = self.is_one_state, True
        self.expression(group)
        self.is_one_state = before
        self.settle(group)
        if name in self.words and self.words[name][1]:
            self.fault(group[0][0], 13)

    def statement(self, statements):
        kind, number = self.peek(), len(statements) + 1
        statements.append(None)
        test, items = None, []
        if kind == "name":
            kind = "assign"
            self.assignment()
        elif kind == "skip":
            self.next()
        else:
            self.next()
            test = self.of_one_state(True)
            self.next()
            if kind == "await":
                self.assignment()
                while self.next().kind == ";":
                    self.assignment()
            else:
                items.append(self.block(statements))
                while self.next().kind == "else":
                    items.append(self.block(statements))
        statements[number - 1] = Statement(kind, test, items)
        return number

    def has_several(self):
        """Whether the block that begins here has a `;` of its own."""
        depth, at = 0, self.at
        while True:
            kind = self.tokens[at].kind
            if kind in ("if", "while", "await") and not (kind == "if" and self.tokens[at - 1].kind == "("):
                depth += 1
            elif depth == 0 and kind in ("end", "else") and not self.is_of_value(at):
                return False
            elif kind == "end":
                depth -= 1
            elif kind == ";" and depth == 0:
                return True
            at += 1

    def is_of_value(self, place):
        """Whether an `else` is that of an `(if ..)`: one that stands in parentheses."""
        if self.tokens[place].kind != "else":
            return False
        depth, at = 0, self.at
        while at < place:
            depth += {"(": 1, ")": -1}.get(self.tokens[at].kind, 0)
            at += 1
        return depth > 0

    def block(self, statements):
        if not self.has_several():
            return self.statement(statements)
        number = len(statements) + 1
        statements.append(None)
        items = [self.statement(statements)]
        while self.peek() == ";":
            self.next()
            items.append(self.statement(statements))
        statements[number - 1] = Statement("seq", None, items)
        return number

    def program(self):
        self.declarations()
        spec, parts, statements, names = self.spec(), [], [], set()
        while self.peek() == "part":
            self.next()
            name = self.next().text
            if name in names:
                self.fault(self.at - 1, 4)
            names.add(name)
            own = self.spec()
            self.next()
            parts.append(Part(name, own, self.block(statements)))
            self.next()
        self.ends()
        return Program(self.words, spec, parts, statements)

    def shown(self):
        self.declarations()
        self.next()
        tree = self.formula()
        self.ends()
        return self.words, tree

    # Derivations, starts and moves

    def lines(self):
        found = []
        while self.peek():
            at = self.next().line
            number, rule, statement, premises = self.number(), self.next().kind, self.number(), []
            if self.peek() == "from":
                self.next()
                while self.peek() == "number":
                    premises.append(self.number())
            found.append(Line(number, rule, statement, premises, self.spec(), at))
        self.ends()
        return found

    def values(self):
        """Words with values, each once."""
        found = {}
        while self.peek() == "name":
            place, name = self.at, self.next().text
            if name not in self.words:
                self.fault(place, 3)
            elif name in found:
                self.fault(place, 4)
            self.next()
            value = int(self.next().text)
            if name in self.words and value >= 2 ** self.words[name][0]:
                self.fault(self.at - 1, 6)
            found[name] = value
        return found

    def moves(self):
        found = []
        while self.peek():
            self.next()
            at = self.number()
            found.append((at, self.values()))
        self.ends()
        return found


def read_program(source):
    tokens = tokens_of(source)
    shaped(tokens, "PROGRAM")
    return Reader(tokens).program()


def read_shown(source):
    tokens = tokens_of(source)
    shaped(tokens, "SHOW")
    return Reader(tokens).shown()


def read_start(source, words):
    tokens = tokens_of(source)
    shaped(tokens, "START")
    reader = Reader(tokens, words)
    found = reader.values()
    reader.ends()
    return found


def read_moves(source, words):
    tokens = tokens_of(source)
    shaped(tokens, "MOVES")
    return Reader(tokens, words).moves()


# The lines of a derivation

PREMISES = {"basic": 0, "atomic": 0, "loop": 1, "conseq": 1, "if": 2}
FOR = {"basic": ("skip", "assign"), "atomic": ("await",), "seq": ("seq",), "if": ("if",), "loop": ("while",)}


def has_right_rule(line, statement):
    if line.rule != "conseq" and statement.kind not in FOR[line.rule]:
        return False
    return len(line.premises) == (len(statement.items) if line.rule == "seq" else PREMISES[line.rule])


def has_right_trees(line, statement, of):
    """Whether the trees are equal that have to be; of are the premises' specifications."""
    (pre, rely, guar, post), test = line.spec, statement.test
    if line.rule == "conseq":
        return True
    if not all(it[1:3] == (rely, guar) for it in of):
        return False
    if line.rule == "seq":
        return [it[0] for it in of] + [post] == [pre] + [it[3] for it in of]
    if line.rule == "if":
        return [it[0] for it in of] == [("and", pre, test), ("and", pre, ("not", test))] and all(it[3] == post for it in of)
    if line.rule == "loop":
        return of[0][0] == ("and", pre, test) and of[0][3] == pre
    return True


def fault_of_line(line, place, lines, statements):
    """The number of the first fault of a line, or None."""
    if line.number != place:
        return 22
    if not 1 <= line.statement <= len(statements):
        return 25
    statement = statements[line.statement - 1]
    if not has_right_rule(line, statement):
        return 24
    if not all(1 <= it < place for it in line.premises):
        return 23
    of = [lines[it - 1] for it in line.premises]
    if [it.statement for it in of] != ([line.statement] if line.rule == "conseq" else statement.items if of else []):
        return 25
    return None if has_right_trees(line, statement, [it.spec for it in of]) else 26


def read_derivation(source, program):
    tokens = tokens_of(source)
    shaped(tokens, "DERIVATION", unexpected=21)
    lines = Reader(tokens, program.words).lines()
    for place, line in enumerate(lines, 1):
        number = fault_of_line(line, place, lines, program.statements)
        if number:
            raise Fault(number, line.at)
    for part in program.parts:
        if not any(it.statement == part.first and it.spec == part.spec for it in lines):
            raise Fault(27, tokens[-1].line if tokens else 1)
    return lines


# What a formula says of a state

MEANING = {"+": int.__add__, "-": int.__sub__, "band": int.__and__, "bor": int.__or__, "bxor": int.__xor__, "shl": int.__lshift__, "shr": int.__rshift__}
COMPARED = {"=": int.__eq__, "!=": int.__ne__, "<": int.__lt__, "<=": int.__le__, ">": int.__gt__, ">=": int.__ge__}


def width_of(tree, words):
    """The width of an expression by its first word; none where it has none."""
    if tree[0] in ("name", "primed"):
        return words[tree[1]][0]
    if tree[0] == "number":
        return None
    operands = tree[2:] if tree[0] == "if" else tree[1:2] if tree[0] in ("shl", "shr") else tree[1:]
    return next((it for it in (width_of(operand, words) for operand in operands) if it), None)


def value(tree, width, words, state):
    if tree[0] == "number":
        return tree[1]
    if tree[0] == "name":
        return state[tree[1]]
    if tree[0] == "inv":
        return 2**width - 1 - value(tree[1], width, words, state)
    if tree[0] == "if":
        return value(tree[2] if holds(tree[1], words, state) else tree[3], width, words, state)
    return MEANING[tree[0]](value(tree[1], width, words, state), value(tree[2], width, words, state)) % 2**width


def holds(tree, words, state):
    """Whether a formula without primes holds in a state."""
    if tree[0] in ("true", "false"):
        return tree[0] == "true"
    if tree[0] == "not":
        return not holds(tree[1], words, state)
    if tree[0] in COMPARED:
        width = width_of(tree[1], words) or width_of(tree[2], words)
        return COMPARED[tree[0]](value(tree[1], width, words, state), value(tree[2], width, words, state))
    first, second = (holds(it, words, state) for it in tree[1:])
    return {"and": first and second, "or": first or second, "implies": not first or second, "iff": first == second}[tree[0]]


# What commands answer


def verdict(files, has_start=False, has_moves=False):
    """The first refusal of text, derivation, start and moves as number, file and line; None where there is none."""
    at = "text"
    try:
        if b"show" in files["text"] and "derivation" not in files:
            read_shown(files["text"])
            return None
        program = read_program(files["text"])
        if "derivation" in files:
            at = "derivation"
            read_derivation(files["derivation"], program)
        state = {name: 0 for name in program.words}
        if has_start:
            at = "start"
            state |= read_start(files["start"], program.words)
        if has_moves:
            at = "moves"
            read_moves(files["moves"], program.words)
        if (has_start or has_moves) and not holds(program.spec[0], program.words, state):
            return 61, "start", 1
    except Fault as fault:
        return fault.number, at, fault.line
    return None
