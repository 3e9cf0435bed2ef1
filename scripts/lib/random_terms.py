"""Random formulas and values of outlines, each as text and as what it means.

A term's meaning is an expression of Python over S and T, the values of all words in the first and in the second state. It is made with what the
names in it stand for: numbers for the indices of parts, quantifiers, sums and `for`, terms for the parameters of a `let`, and under PRIME the
state in which a plain word is read. So one text has as many meanings as the outline has uses of it."""
import collections

PRIME = "'"
LEAF, VALUE, COMPARISON, UNARY, CHAIN, OPEN = range(6)
COMPARISONS = {"=": "==", "!=": "!=", "<": "<", "<=": "<=", ">": ">", ">=": ">="}
OPERATIONS = {"+": "+", "-": "-", "band": "&", "bor": "|", "bxor": "^"}

# The level tells where a term stands without parentheses. It is wordy where words remain in it however it is folded; it reads these families;
# and it has these forms of the grammar in it.
Term = collections.namedtuple("Term", "text level code wordy reads forms")
# A word, or a family of them: for each index its least and greatest number. The places are those of the members in a state.
Family = collections.namedtuple("Family", "name ranges width kind places")
# A name for a tree: its parameters with their widths (None is a formula), and its own width.
Let = collections.namedtuple("Let", "name parameters width body")
# The numbers that a name runs over, as text, and as what they are where the names around it stand for numbers; and all numbers that it may be.
Range = collections.namedtuple("Range", "text numbers most forms")


def inside(term, level):
    """The text of a term where only terms up to a level stand without parentheses."""
    return term.text if term.level <= level else f"({term.text})"


def made(text, level, code, *parts, forms=(), wordy=None):
    """A term of others."""
    wordy = any(it.wordy for it in parts) if wordy is None else wordy
    return Term(text, level, code, wordy, frozenset().union(*(it.reads for it in parts)), frozenset(forms).union(*(it.forms for it in parts)))


class Terms:
    """Makes terms over families of words, of which some may be read, with the names that are known at a place."""

    def __init__(self, rng, families, lets, names):
        self.rng, self.families, self.lets, self.names = rng, families, lets, names
        # the indices that are known here, with the numbers that each may be; the parameters, with their widths; whether primes may stand here
        self.indices, self.parameters, self.primes = {}, {}, False

    def having(self, **given):
        """The same maker at another place."""
        other = Terms(self.rng, self.families, self.lets, self.names)
        other.__dict__.update({**self.__dict__, **given})
        return other

    def happens(self, chance):
        return self.rng.random() < chance

    def widths(self):
        return sorted({it.width for it in self.families})

    # Numbers

    def number(self, value):
        """A number as it may be written."""
        form = self.rng.choice(["decimal"] * 4 + ["hexadecimal", "binary", "number with _"])
        text = {"decimal": str(value), "hexadecimal": hex(value), "binary": bin(value), "number with _": f"0b{value >> 1:b}_{value & 1}"}[form]
        return Term(text, LEAF, lambda env: str(value), False, frozenset(), frozenset([form]))

    def among(self, least, most):
        """A number in a range, which may be worked out of indices that are known here."""
        name = self.rng.choice([*self.indices]) if self.indices and self.happens(0.75) else None
        if name is None:
            return self.number(self.rng.randint(least, most))
        count, numbers = most - least + 1, self.indices[name]
        ways = [(name, LEAF, lambda k: k, ())] * 6
        ways += [(f"{least + most} - {name}", VALUE, lambda k: least + most - k, ("number arithmetic",))]
        ways += [(f"{name} + 1", VALUE, lambda k: k + 1, ("number arithmetic",)), (f"(1 shl {name}) - 1", VALUE, lambda k: (1 << k) - 1, ("number arithmetic",))]
        modulo = f"({name} + 1) mod {count}"
        ways += [(f"({modulo}) + {least}" if least else modulo, VALUE, lambda k: (k + 1) % count + least, ("mod", "number arithmetic"))]
        text, level, of, forms = self.rng.choice(ways)
        if not all(least <= of(it) <= most for it in numbers):
            return self.number(self.rng.randint(least, most))
        return Term(text, level, lambda env: str(of(env[name])), False, frozenset(), frozenset(["index as a number", *forms]))

    def range(self, least=0, most=2):
        """A range within these bounds, which may depend on an index that is known here, leave out numbers, or be empty."""
        low = self.rng.randint(least, max(least, most - 1))
        lower, upper, forms = self.number(low), self.number(most), {"range"}
        outer = [it for it, numbers in self.indices.items() if all(least <= number <= most for number in numbers)]
        if outer and self.happens(0.35):
            upper = Term(name := self.rng.choice(outer), LEAF, lambda env: str(env[name]), False, frozenset(), frozenset())
            forms |= {"range up to an index"}
        but = sorted(self.rng.sample(range(least, most + 1), self.rng.choice([1, 1, 2]))) if self.happens(0.35) and most > least else []
        forms |= {"but in a range"} if but else set()
        numbers = lambda env: [it for it in range(low, int(upper.code(env)) + 1) if it not in but]
        text = f"{lower.text}..{upper.text}" + f" but {', '.join(map(str, but))}" * bool(but)
        return Range(text, numbers, [it for it in range(low, most + 1) if it not in but], frozenset(forms))

    def bound(self):
        """A new name and its range, and the maker of what it governs."""
        bounds = [(least, most) for family in self.families for least, most in family.ranges] or [(0, 2)]
        name, over = self.names(), self.range(*self.rng.choice(bounds))
        # (most is all that it may be, so that an index is never outside of its family)
        return name, over, self.having(indices={**self.indices, name: over.most})

    # Words

    def word(self, width, depth=0):
        """A word of a width, where primes may stand perhaps a primed one."""
        family = self.rng.choice([it for it in self.families if it.width == width])
        choosing = self.rng.randrange(len(family.ranges)) if depth and family.ranges and self.happens(0.4) else None
        primed = self.primes and self.happens(0.5)
        maker = self.having(primes=self.primes and not primed)
        indices = [maker.chosen(family, at, depth) if at == choosing else self.among(*it) for at, it in enumerate(family.ranges)]
        text = family.name + "".join(f"[{it.text}]" for it in indices) + "'" * primed

        def code(env):
            env = {**env, PRIME: "T"} if primed else env
            places = {k: family.places[k] for k in family.places if all(at == choosing or k[at] == int(it.code(env)) for at, it in enumerate(indices))}
            if choosing is None:
                return f"{env[PRIME]}[{[*places.values()][0]}]"
            members = {k[choosing]: place for k, place in places.items()}
            return f"{env[PRIME]}[{members}.get({indices[choosing].code(env)}, {[*members.values()][-1]})]"

        forms = [f"word of {len(indices)} indices" if indices else "word", *["primed word"] * primed]
        forms += ["index over words, primed" if primed else "index over words"] if choosing is not None else []
        own = Term("", LEAF, None, True, frozenset([family.name]), frozenset(forms))
        return made(text, LEAF, code, own, *indices, wordy=True)

    def chosen(self, family, at, depth):
        """A value over words that is an index of a family: so wide that each member can be chosen."""
        wide = [it for it in self.widths() if family.ranges[at][1] < 1 << it]
        return self.value(self.rng.choice(wide), depth - 1, True) if wide else self.number(family.ranges[at][0])

    # Values

    def leaf(self, width, wordy):
        known = [it for it, of in self.parameters.items() if of == width]
        if known and self.happens(0.5):
            name = self.rng.choice(known)
            return Term(name, LEAF, lambda env: meaning(env, name), True, frozenset(), frozenset(["parameter"]))
        if not wordy and self.happens(0.35):
            return self.among(0, (1 << width) - 1)
        return self.word(width)

    def value(self, width, depth, wordy=False):
        """A value of a width; with `wordy` one in which words remain."""
        if depth <= 0 or self.happens(0.3):
            return self.leaf(width, wordy)
        ways = [self.operation, self.operation, self.shift, self.inverse, self.choice, self.sum, self.index_over_words, self.use_of_value]
        found = self.rng.choice(ways)(width, depth)
        return found if found.wordy or not wordy else self.word(width, depth)

    def operation(self, width, depth):
        name = self.rng.choice(["+", "-", "band", "bor", "bxor"])
        operands = [self.value(width, depth - 1, at == 0) for at in range(self.rng.choice([2, 2, 3]))]
        # (sums and differences chain with each other)
        names = [self.rng.choice("+-") if name in "+-" else name for _ in operands[1:]]
        text = inside(operands[0], LEAF) + "".join(f" {it} {inside(operand, LEAF)}" for it, operand in zip(names, operands[1:]))

        def code(env):
            found = operands[0].code(env)
            for it, operand in zip(names, operands[1:]):
                found = f"(({found} {OPERATIONS[it]} {operand.code(env)}) & {(1 << width) - 1})"
            return found

        return made(text, VALUE, code, *operands, forms=[*names, *["chain of values"] * (len(names) > 1)])

    def shift(self, width, depth):
        name, of, by = self.rng.choice(["shl", "shr"]), self.value(width, depth - 1, True), self.among(0, 3)
        sign = "<<" if name == "shl" else ">>"
        return made(f"{inside(of, LEAF)} {name} {inside(by, LEAF)}", VALUE, lambda env: f"(({of.code(env)} {sign} {by.code(env)}) & {(1 << width) - 1})", of, by, forms=[name])

    def inverse(self, width, depth):
        of = self.value(width, depth - 1, True)
        return made(f"inv {inside(of, LEAF)}", LEAF, lambda env: f"({(1 << width) - 1} - {of.code(env)})", of, forms=["inv"])

    def choice(self, width, depth):
        test, one, other = self.formula(depth - 1), self.value(width, depth - 1, True), self.value(width, depth - 1, True)
        text = f"(if {test.text} then {one.text} else {other.text})"
        return made(text, LEAF, lambda env: f"({one.code(env)} if {test.code(env)} else {other.code(env)})", test, one, other, forms=["if as a value"], wordy=one.wordy and other.wordy)

    def sum(self, width, depth):
        name, over, below = self.bound()
        of = below.value(width, depth - 1, True)

        def code(env):
            each = [of.code({**env, name: it}) for it in over.numbers(env)]
            return f"(({' + '.join(each) or '0'}) & {(1 << width) - 1})"

        some = "range up to an index" not in over.forms and bool(over.numbers({}))
        forms = {"sum", *over.forms} | ({"but in a sum"} if "but in a range" in over.forms else set())
        return made(f"(sum {name} in {over.text}: {of.text})", LEAF, code, of, forms=forms, wordy=some and of.wordy)

    def index_over_words(self, width, depth):
        return self.word(width, depth)

    def use_of_value(self, width, depth):
        return self.use(width, depth) or self.operation(width, depth)

    # Names

    def use(self, width, depth):
        """A use of a `let` of this width, None for a formula, or None where there is none."""
        read = {it.name for it in self.families}
        widths = {None, *self.widths()}
        known = [it for it in self.lets if it.width == width and it.body.reads <= read and {of for _, of in it.parameters} <= widths]
        if not known:
            return None
        let = self.rng.choice(known)
        primed = self.primes and self.happens(0.5)
        maker = self.having(primes=self.primes and not primed)
        given = [maker.formula(depth - 2) if it is None else maker.value(it, depth - 1, True) for _, it in let.parameters]
        text = let.name + f"({', '.join(it.text for it in given)})" * bool(given) + "'" * primed

        def code(env):
            env = {**env, PRIME: "T"} if primed else env
            return let.body.code({**env, **{name: (it, env) for (name, _), it in zip(let.parameters, given)}})

        forms = ["let with parameters" if given else "let", *["let, primed as a whole"] * primed]
        return made(text, LEAF, code, let.body, *given, forms=forms, wordy=let.body.wordy)

    # Formulas

    def comparison(self, depth):
        width = self.rng.choice(self.widths())
        return self.compared(self.value(width, depth, True), self.rng.choice([*COMPARISONS]), self.value(width, depth - 1))

    def compared(self, one, name, other):
        if self.happens(0.2) and name in "=!=":
            one, other = other, one
        text = f"{inside(one, VALUE)} {name} {inside(other, VALUE)}"
        return made(text, COMPARISON, lambda env: f"({one.code(env)} {COMPARISONS[name]} {other.code(env)})", one, other, forms=[name])

    def formula(self, depth):
        """A formula."""
        formulas = [it for it, of in self.parameters.items() if of is None]
        if formulas and self.happens(0.3):
            name = self.rng.choice(formulas)
            return Term(name, LEAF, lambda env: meaning(env, name), False, frozenset(), frozenset(["parameter"]))
        if depth <= 0 or self.happens(0.25):
            return self.of_numbers() if self.indices and self.happens(0.15) else self.comparison(depth)
        ways = [self.negation, self.chain, self.chain, self.implication, self.quantified, self.quantified, self.use_of_formula, self.constant]
        return self.rng.choice(ways)(depth)

    def of_numbers(self):
        name = self.rng.choice([*self.indices])
        sign, number = self.rng.choice([*COMPARISONS]), self.rng.randint(0, 3)
        code = lambda env: f"({env[name]} {COMPARISONS[sign]} {number})"
        return Term(f"{name} {sign} {number}", COMPARISON, code, False, frozenset(), frozenset(["comparison of numbers"]))

    def constant(self, depth):
        holds = self.happens(0.5)
        return Term("true" if holds else "false", LEAF, lambda env: str(holds), False, frozenset(), frozenset(["true" if holds else "false"]))

    def negation(self, depth):
        of = self.formula(depth - 1)
        return made(f"not {inside(of, UNARY)}", UNARY, lambda env: f"(not {of.code(env)})", of, forms=["not"])

    def chain(self, depth):
        return self.chained(self.rng.choice(["and", "or"]), [self.formula(depth - 1) for _ in range(self.rng.choice([2, 2, 3]))])

    def chained(self, name, operands):
        if len(operands) == 1:
            return operands[0]
        text = f" {name} ".join(inside(it, UNARY) for it in operands)
        return made(text, CHAIN, lambda env: "(" + f" {name} ".join(it.code(env) for it in operands) + ")", *operands, forms=[name])

    def implication(self, depth):
        name, one, other = self.rng.choice(["implies", "iff"]), self.formula(depth - 1), self.formula(depth - 1)
        code = lambda env: f"({one.code(env)} {'<=' if name == 'implies' else '=='} {other.code(env)})"
        return made(f"{inside(one, CHAIN)} {name} {inside(other, CHAIN)}", OPEN, code, one, other, forms=[name])

    def quantified(self, depth):
        kind, (name, over, below) = self.rng.choice(["all", "some"]), self.bound()
        of = below.formula(depth - 1)

        def code(env):
            each = [of.code({**env, name: it}) for it in over.numbers(env)]
            return f"({(' and ' if kind == 'all' else ' or ').join(each) or str(kind == 'all')})"

        forms = {kind, *over.forms} | ({"but in a quantifier"} if "but in a range" in over.forms else set())
        forms |= {"quantifier in a quantifier"} if of.forms & {"all", "some"} else set()
        return made(f"{kind} {name} in {over.text}: {of.text}", OPEN, code, of, forms=forms)

    def use_of_formula(self, depth):
        return self.use(None, depth) or self.comparison(depth)


    # Formulas over two states

    def keeps(self, depth):
        of = self.having(primes=False).formula(depth)
        code = lambda env: f"({of.code(env)} <= {of.code({**env, PRIME: 'T'})})"
        return made(f"keeps {inside(of, UNARY)}", UNARY, code, of, forms=["keeps"])

    def unchanged(self):
        """That some words stay as they are."""
        families = self.rng.sample(self.families, self.rng.choice([1, 1, min(2, len(self.families))]))
        if self.happens(0.4):
            return self.unchanged_but([it for it in families if it.kind != "fixed"])
        words = [self.some_of(it) for it in families]
        code = lambda env: all_same([place for _, of in words for place in of(env)])
        return Term(f"unchanged {' '.join(text for text, _ in words)}", UNARY, code, False, frozenset(), frozenset(["unchanged"]))

    def unchanged_but(self, changing):
        """That all words but those of these families stay as they are."""
        same = [place for it in self.families if it not in changing for place in it.places.values()]
        text = f"unchanged all but {' '.join(it.name for it in changing)}" if changing else "unchanged all"
        return Term(text, UNARY, lambda env: all_same(same), False, frozenset(), frozenset(["unchanged all but" if changing else "unchanged all"]))

    def some_of(self, family):
        """Members of a family as text, with as many indices as are written, and as places."""
        indices = [self.among(*it) for it in family.ranges[: self.rng.randint(0, len(family.ranges))]]

        def places(env):
            numbers = [int(it.code(env)) for it in indices]
            return [place for key, place in family.places.items() if [*key[: len(numbers)]] == numbers]

        return family.name + "".join(f"[{it.text}]" for it in indices), places


def all_same(places):
    return "(" + (" and ".join(f"S[{it}] == T[{it}]" for it in places) or "True") + ")"


def meaning(env, name):
    """What a parameter means: its argument where the name was used, and primed where the whole use is."""
    term, where = env[name]
    return term.code({**where, PRIME: env[PRIME]})
