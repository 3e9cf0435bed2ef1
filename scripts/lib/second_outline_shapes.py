"""The first two passes of the second reading of outlines (second_outlines.py): tokens, and shape by the grammar of docs/OUTLINES.md."""
import collections
import operator
import re
import sys

sys.set_int_max_str_digits(0)
MOST_BYTES, MOST_NUMBER = 1_048_576, 2**64 - 1
KEYWORDS = set(
    "words fixed show pre rely guar post part begin end skip await do if then else while not and or implies iff true false inv "
    "band bor bxor shl shr line from basic atomic seq loop conseq at let invariant owns unchanged keeps all some sum for".split()
)
BLANK = re.compile(rb"[ \t\r\n]+|#[^\n]*")
# (signs of other languages that would be two tokens are no signs)
SIGN = re.compile(rb"==|\+=|-=|\+\+|--|->|=>|<=>|<<|>>")
NUMBER = re.compile(rb"0x[0-9A-Fa-f_]+|0b[01_]+|[0-9][0-9_]*")
# (a name of a file in quotes is a token that fits nowhere here)
TOKEN = re.compile(rb"([A-Za-z_][A-Za-z0-9_]*)|([0-9])|(\.\.|:=|!=|<=|>=|[(){}\[\],:;=<>+'-]|\"[^\"\n]*\")")
COMPARISONS = {"=": operator.eq, "!=": operator.ne, "<": operator.lt, "<=": operator.le, ">": operator.gt, ">=": operator.ge}
CHAINS, ALONE = ("band", "bor", "bxor"), ("shl", "shr")

# A place is a line and a column, each from 1. A fault has the beginning of its sentence, where the page fixes it, or else nothing. Where the page doesn't fix
# the place, `is_placed` is false.
Fault = collections.namedtuple("Fault", "place says is_placed", defaults=("", True))
# kind is name or number, of every other token its own text.
Token = collections.namedtuple("Token", "kind text place ends")
Node = collections.namedtuple("Node", "kind place parts")


# What is said where a token doesn't fit in a block, by what is before it.
WANTED = {
    "block": "`end` is wanted here, or `;` and a statement",
    "step": "`end` is wanted here, or `;` and an assignment",
    "then": "`end` is wanted here, or `else`, or `;` and a statement",
    "}": "`end` is wanted here; or a `;` is missing behind the statement before the assertion",
}


class First(Exception):
    """The first fault of tokens and of shape, which ends the reading."""

    def __init__(self, place, says=""):
        super().__init__(place, says)
        self.fault = Fault(place, says)


# The first pass: tokens


def number_of(text):
    text = text.replace("_", "")
    return int(text, {"0x": 16, "0b": 2}.get(text[:2], 10))


def tokens_of(source):
    if len(source) > MOST_BYTES:
        raise First((1, 1))
    start = 3 if source.startswith(b"\xef\xbb\xbf") else 0
    found, at, line, begins, ended = [], start, 1, start, None
    while at < len(source):
        blank = BLANK.match(source, at)
        if blank:
            line += blank[0].count(b"\n")
            begins = at + blank[0].rfind(b"\n") + 1 if b"\n" in blank[0] else begins
            at = blank.end()
            continue
        place = line, at - begins + 1
        it = TOKEN.match(source, at)
        if not it or SIGN.match(source, at):
            raise First(place)
        if it[2]:
            it = NUMBER.match(source, at)
            text = it[0].decode()
            if "__" in text or text.endswith("_") or text[:3] in ("0x_", "0b_"):
                raise First(place)
            if number_of(text) > MOST_NUMBER:
                raise First(place)
            kind = "number"
        else:
            text = it[0].decode()
            kind = text if text in KEYWORDS or not it[1] else "name"
        if kind == "'" and ended != at:
            raise First(place)
        ended = at = it.end()
        found.append(Token(kind, text, place, (line, at - begins + 1)))
    return found


# The second pass: shape


class Shape:
    """Reads tokens by the grammar, and keeps which blocks are open."""

    def __init__(self, tokens):
        last = tokens[-1].ends if tokens else (1, 1)
        self.tokens, self.at = [*tokens, Token("the end", "", last, last)], 0
        # Of the part: what is open, and what its ends and its `else`s say of it.
        self.open, self.dedented, self.after_else = [], None, None
        # Where a name alone ends that stands for statements.
        self.bare = None

    @property
    def is_bare(self):
        return self.bare == self.at

    @property
    def token(self):
        return self.tokens[self.at]

    @property
    def kind(self):
        return self.token.kind

    @property
    def place(self):
        return self.token.place

    def is_word(self, text):
        return self.kind == "name" and self.token.text == text

    def unfit(self, says=""):
        raise First(self.place, says)

    def take(self, *kinds, says=""):
        if self.kind not in kinds:
            self.unfit(says)
        self.at += 1
        return self.tokens[self.at - 1]

    def takes(self, kind):
        if self.kind != kind:
            return False
        self.at += 1
        return True

    def takes_word(self, text):
        if not self.is_word(text):
            return False
        self.at += 1
        return True

    # (blocks)

    def opens(self, token):
        previous = self.tokens[self.at - 2].kind if self.at > 1 else ""
        self.open.append(token)
        if token.kind == "if" and previous == "else":
            self.after_else = token

    def closes(self, kind="block"):
        if self.kind != "end":
            if self.kind in ("part", "the end"):
                found = self.dedented or self.after_else
                if found is None:
                    found = self.open[-1]
                raise First(found.place, "an `end` is missing" if found is self.after_else else f"this `{found.text}` has no `end`")
            before = self.tokens[self.at - 1].kind
            self.unfit("" if self.is_bare else WANTED["}" if before == "}" and self.kind != "else" else kind])
        token = self.take("end")
        opened = self.open.pop()
        is_first = self.at < 2 or self.tokens[self.at - 2].place[0] != token.place[0]
        if is_first and token.place[1] < opened.place[1] and opened.kind != "begin" and not self.dedented:
            self.dedented = opened

    def outline(self):
        lets, items, parts = [], [], []
        while self.kind == "let":
            lets.append(self.let())
        self.take("words")
        words = [self.declaration()]
        while self.kind in ("name", "fixed"):
            words.append(self.declaration())
        if self.kind in KEYWORDS and self.tokens[self.at + 1].kind in (":", "["):
            self.unfit(f"`{self.kind}` is a keyword, so it can't name a word")
        while self.kind in ("let", "invariant", "pre", "rely", "guar", "post"):
            items.append(self.item())
        while True:
            parts.append(self.part())
            if self.kind == "the end":
                return Node("outline", (1, 1), (lets, words, items, parts))

    def declaration(self):
        mark = ""
        if self.kind == "fixed":
            mark = self.take("fixed").kind
        elif self.is_word("aux") and self.tokens[self.at + 1].kind == "name":
            mark = self.take("name").text
        name, ranges = self.take("name"), []
        while self.takes("["):
            place = self.place
            low = self.value()
            self.take("..")
            ranges.append(Node("range", place, (low, self.value(), [])))
            self.take("]")
        self.take(":")
        return Node("declaration", name.place, (mark, name, ranges, self.leaf()))

    def item(self):
        if self.kind == "let":
            return self.let()
        token = self.take("invariant", "pre", "rely", "guar", "post")
        return Node(token.kind, token.place, (self.formula(),))

    def let(self):
        self.take("let")
        name, parameters = self.take("name"), []
        if self.takes("("):
            parameters.append(self.take("name"))
            while self.takes(","):
                parameters.append(self.take("name"))
            self.take(")")
        self.take("=")
        is_block = self.kind == "begin"
        return Node("let", name.place, (name, parameters, self.begun() if is_block else self.formula(), is_block))

    def begun(self):
        self.open, self.dedented, self.after_else = [], None, None
        self.opens(self.take("begin"))
        body = self.block()
        self.closes()
        return body

    def part(self):
        place = self.take("part").place
        name, index, heads = self.take("name"), None, []
        if self.takes("["):
            index = self.take("name")
            self.word("in")
            index = index, self.range()
            self.take("]")
        while self.kind in ("let", "owns", "pre", "rely", "guar", "post"):
            if self.kind == "owns":
                token = self.take("owns")
                words = [self.word_node()]
                while self.kind == "name":
                    words.append(self.word_node())
                heads.append(Node("owns", token.place, words))
            else:
                heads.append(self.item())
        if self.kind != "begin":
            self.unfit()
        return Node("part", place, (name, index, heads, self.begun()))

    def word(self, text):
        if not self.takes_word(text):
            self.unfit()

    def range(self):
        place, low = self.place, self.value()
        self.take("..")
        high, others = self.value(), []
        if self.takes_word("but"):
            others.append(self.value())
            while self.takes(","):
                others.append(self.value())
        return Node("range", place, (low, high, others))

    # (statements)

    def block(self):
        found = self.notes()
        found.append(self.statement())
        while True:
            notes = self.notes()
            found += notes
            if self.kind == ";":
                if notes:
                    self.unfit("the `;` stands directly behind the statement, before the assertion")
                semicolon = self.take(";")
                found += self.notes()
                if self.kind in ("end", "else"):
                    raise First(semicolon.place)
                found.append(self.statement())
            else:
                return found

    def notes(self):
        found = []
        while self.kind == "{":
            place = self.take("{").place
            found.append(Node("note", place, (self.formula(),)))
            self.take("}")
        return found

    def statement(self):
        token, kind = self.token, self.kind
        if kind == "skip":
            self.take("skip")
            return Node("skip", token.place, ())
        if kind == "atomic":
            self.opens(self.take("atomic"))
            return Node("atomic", token.place, (self.step(),))
        compound = {"await": self.awaited, "if": self.tested, "while": self.loop, "for": self.rounds}.get(kind)
        if compound:
            return compound(self.take(kind))
        if kind != "name":
            self.unfit()
        return self.assignment() if self.tokens[self.at + 1].kind in (":=", "[", "part") else self.use()

    def awaited(self, token):
        test, steps = self.formula(), None
        if self.takes("do"):
            self.opens(token)
            steps = self.step()
        return Node("await", token.place, (test, steps))

    def tested(self, token):
        self.opens(token)
        test = self.formula()
        self.take("then")
        one, other = self.block(), None
        if self.takes("else"):
            other = self.block()
        self.closes("block" if other else "then")
        return Node("if", token.place, (test, one, other))

    def loop(self, token):
        self.opens(token)
        test, invariant = self.formula(), None
        if self.takes("invariant"):
            invariant = self.formula()
        self.take("do")
        body = self.block()
        self.closes()
        return Node("while", token.place, (test, invariant, body))

    def rounds(self, token):
        self.opens(token)
        name = self.take("name")
        self.word("in")
        over = self.range()
        self.take("do")
        body = self.block()
        self.closes()
        return Node("for", token.place, (name, over, body))

    def use(self):
        name, given = self.take("name"), []
        if self.kind == "(":
            given = self.arguments()
            if self.takes("'"):
                return Node("primed use", name.place, ())
        else:
            # (then an assignment could be meant)
            self.bare = self.at
        return Node("use", name.place, (name, given))

    def step(self):
        found = [self.assignment()]
        while self.kind == ";":
            semicolon = self.take(";")
            if self.kind == "end":
                raise First(semicolon.place)
            found.append(self.assignment())
        self.closes("step")
        return found

    def assignment(self):
        word = self.word_node()
        self.take(":=")
        return Node("assign", word.place, (word, self.value()))

    def word_node(self):
        name, indices = self.take("name"), []
        while self.takes("["):
            indices.append(self.value())
            self.take("]")
        return Node("word", name.place, (name, indices, False))

    def arguments(self):
        self.take("(")
        found = [self.formula()]
        while self.takes(","):
            found.append(self.formula())
        self.take(")")
        return found

    # (formulas and values)

    def formula(self):
        place, one = self.place, self.joined()
        if self.kind in ("implies", "iff"):
            kind = self.take("implies", "iff").kind
            one = Node(kind, place, (one, self.joined()))
            if self.kind in ("implies", "iff"):
                self.unfit("put parentheses: ")
        return one

    def joined(self):
        place, one = self.place, self.unary()
        if self.kind in ("and", "or"):
            kind = self.kind
            while self.takes(kind):
                one = Node(kind, place, (one, self.unary()))
            if self.kind in ("and", "or"):
                self.unfit("put parentheses: ")
        return one

    def unary(self):
        place, kind = self.place, self.kind
        if kind in ("not", "keeps"):
            self.take(kind)
            return Node(kind, place, (self.unary(),))
        if kind == "unchanged":
            self.take(kind)
            is_all, words = self.takes("all"), []
            if not is_all or self.takes_word("but"):
                words.append(self.word_node())
                while self.kind == "name":
                    words.append(self.word_node())
            return Node("unchanged", place, (is_all, words))
        if kind in ("all", "some"):
            self.take(kind)
            name = self.take("name")
            self.word("in")
            over = self.range()
            self.take(":")
            return Node(kind, place, (name, over, self.formula()))
        one = self.value()
        if self.kind in COMPARISONS:
            sign = self.take(*COMPARISONS).kind
            one = Node("compare", place, (sign, one, self.value()))
            if self.kind in COMPARISONS:
                self.unfit("comparisons aren't chained")
        return one

    def value(self):
        place, one = self.place, self.leaf()
        kind = self.operator()
        if not kind:
            return one
        family = ("+", "-") if kind in ("+", "-") else (kind,)
        while True:
            self.at += 1
            one = Node("operation", place, (kind, one, self.leaf()))
            kind = self.operator()
            if not kind:
                return one
            if kind not in family or family[0] not in ("+", *CHAINS):
                self.unfit("put parentheses: ")

    def operator(self):
        if self.kind in ("+", "-", *CHAINS, *ALONE):
            return self.kind
        return "mod" if self.is_word("mod") else ""

    def leaf(self):
        token, kind = self.token, self.kind
        if kind in ("number", "true", "false"):
            self.take(kind)
            return Node(kind, token.place, (token.text,))
        if kind == "inv":
            self.take("inv")
            return Node("inv", token.place, (self.leaf(),))
        if kind == "(":
            return self.parenthesized()
        if kind in ("sum", "if"):
            self.unfit("put parentheses ")
        name = self.take("name")
        if self.kind == "(":
            given = self.arguments()
            return Node("called", name.place, (name, given, self.takes("'")))
        indices = []
        while self.takes("["):
            indices.append(self.value())
            self.take("]")
        return Node("word", name.place, (name, indices, self.takes("'")))

    def parenthesized(self):
        place = self.take("(").place
        if self.takes("if"):
            test = self.formula()
            self.take("then")
            one = self.value()
            self.take("else")
            found = Node("choice", place, (test, one, self.value()))
        elif self.takes("sum"):
            name = self.take("name")
            self.word("in")
            over = self.range()
            self.take(":")
            found = Node("sum", place, (name, over, self.value()))
        else:
            found = Node("inner", place, (self.formula(),))
        self.take(")")
        if self.kind == "'" and found.kind == "inner":
            self.unfit("a prime stands behind a word or a name alone")
        return found
