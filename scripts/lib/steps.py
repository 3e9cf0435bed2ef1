"""What a program's text says of steps, worked out from the trees of second_reading: which guarantees a step is inside, and whether it is inside the rely.

    said = steps.Said(second_reading.read_program(source))
    said.covers(before, after)

A state is a list of the words' values, in their order. A step that changes nothing is inside each guarantee and inside the rely (docs/MEANING.md). It shares
nothing with the program."""
import second_reading

OPERATORS = {"band": "&", "bor": "|", "bxor": "^", "shl": "<<", "=": "=="}
CONNECTED = {"and": "{} and {}", "or": "{} or {}", "implies": "not {} or {}", "iff": "{} == {}"}


class Rows:
    """Rows of Python that work a formula out, a row for each of its operations, so that no depth of nesting is too much."""

    def __init__(self, words):
        self.words, self.places, self.rows = words, {name: at for at, name in enumerate(words)}, []

    def kept(self, text):
        self.rows.append(f"t{len(self.rows)} = {text}")
        return f"t{len(self.rows) - 1}"

    def value(self, tree, width):
        kind = tree[0]
        if kind == "number":
            return str(tree[1])
        if kind in ("name", "primed"):
            return f"{'before' if kind == 'name' else 'after'}[{self.places[tree[1]]}]"
        if kind == "if":
            test = self.formula(tree[1])
            first, second = (self.value(it, width) for it in tree[2:])
            return self.kept(f"{first} if {test} else {second}")
        most, first = 2**width - 1, self.value(tree[1], width)
        if kind == "inv":
            return self.kept(f"{most} - {first}")
        second = self.value(tree[2], width)
        return self.kept(f"({first} {OPERATORS.get(kind, '>>' if kind == 'shr' else kind)} {second}) & {most}")

    def formula(self, tree):
        kind = tree[0]
        if kind in ("true", "false"):
            return kind.capitalize()
        if kind == "not":
            return self.kept(f"not {self.formula(tree[1])}")
        if kind in CONNECTED:
            return self.kept(CONNECTED[kind].format(*(self.formula(it) for it in tree[1:])))
        width = second_reading.width_of(tree[1], self.words) or second_reading.width_of(tree[2], self.words)
        first, second = (self.value(it, width) for it in tree[1:])
        return self.kept(f"{first} {OPERATORS.get(kind, kind)} {second}")


def function_of(tree, words):
    """A function from the state before a step and the one after it to whether the formula holds of them."""
    it, made = Rows(words), {}
    holds = it.formula(tree)
    exec("\n    ".join(["def holds(before, after):", *it.rows, f"return {holds}"]), made)
    return made["holds"]


class Said:
    """What a program says of states and steps."""

    def __init__(self, program):
        self.words = list(program.words)
        self.widths = [width for width, _ in program.words.values()]
        self.fixed = [at for at, (_, is_fixed) in enumerate(program.words.values()) if is_fixed]
        pre, rely, _, _ = program.spec
        self.pre, self.rely = function_of(pre, program.words), function_of(rely, program.words)
        self.guarantees = [(part.name, function_of(part.spec[2], program.words)) for part in program.parts]

    def covers(self, before, after):
        """The names of the parts whose guarantee a step is inside, in their order."""
        return [name for name, holds in self.guarantees if before == after or holds(before, after)]

    def refusal(self, before, after):
        """The number by which a move is refused, or None."""
        if any(before[at] != after[at] for at in self.fixed):
            return 67
        return None if before == after or self.rely(before, after) else 62
