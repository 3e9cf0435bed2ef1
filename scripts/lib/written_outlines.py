"""Writes a random program that was followed as an outline, and counts the forms of the grammar that stand in it; and changes an outline somewhere."""
import collections
import random
import re

from followed_outlines import Followed
from random_outlines import For, If, Point, Skip, TRUE, While
from random_terms import UNARY, inside

# The forms that the random outlines have to have between them.
FORMS = """fixed word; auxiliary word; family of 1 index; family of 2 indices; family of 3 indices; let; let with parameters; let, primed as a whole;
let of a part; parameter; invariant; pre; rely; guar; post; part; family of parts; but in a family of parts; owns; owns a member; pre of a part;
post of a part; rely of a part; guar of a part; assertion; two assertions in a row; no assertion; skip; assignment; atomic; await; await do;
assignment over words; if; if without else; while; while true; invariant of a while; for; but in a for; implies; iff; and; or; not; keeps; unchanged;
unchanged all; unchanged all but; all; some; quantifier in a quantifier; but in a quantifier; range up to an index; =; !=; <; <=; >; >=; +; -; band;
bor; bxor; shl; shr; inv; mod; chain of values; number arithmetic; comparison of numbers; decimal; hexadecimal; binary; number with _; true; false;
if as a value; sum; but in a sum; word; word of 1 indices; word of 2 indices; word of 3 indices; primed word; index as a number; index over words;
index over words, primed; named statements; named statements in others"""
FORMS = [" ".join(it.split()) for it in FORMS.split(";")]


class Written:
    """The text of an outline, and its forms."""

    def __init__(self, seed):
        self.program, self.forms = Followed(seed), collections.Counter()
        # Of a `for` that is written as named statements; their definitions in the part; and the indices that the loops around a statement have.
        self.rng, self.definitions, self.indices = random.Random(f"{seed} named"), [], []
        self.text = "\n".join(self.rows()) + "\n"

    def has(self, *forms):
        self.forms.update(forms)

    def of(self, term, level=None):
        """The text of a term."""
        self.has(*term.forms)
        return term.text if level is None else inside(term, level)

    def rows(self):
        maker, program = self.program.maker, self.program
        yield "words " + " ".join(self.declared(it) for it in maker.families)
        yield from (self.named(it) for it in maker.lets)
        yield from self.items("invariant", program.invariants)
        yield f"pre {self.of(program.pre)}"
        yield from self.items("rely", [program.rely] if program.rely else [])
        yield from self.items("guar", program.guars)
        self.has("pre", *["post"] * bool(program.posts))
        yield from [f"post {self.conjunction(program.posts)}"] if program.posts else []
        for part in maker.parts:
            yield from self.part(part)

    def declared(self, family):
        self.has({"fixed": "fixed word", "aux": "auxiliary word"}.get(family.kind, "plain word"))
        count = len(family.ranges)
        self.has(*[f"family of {count} {'index' if count == 1 else 'indices'}"] * bool(count))
        return f"{family.kind} {family.name}".strip() + "".join(f"[{a}..{b}]" for a, b in family.ranges) + f":{family.width}"

    def named(self, let):
        given = ", ".join(name for name, _ in let.parameters)
        return f"let {let.name}" + f"({given})" * bool(given) + f" = {let.body.text}"

    def items(self, name, formulas, of="", before=""):
        for it in formulas:
            self.has(name + of)
            yield f"{before}{name} {self.of(it)}"

    def conjunction(self, formulas):
        return " and ".join(self.of(it, UNARY if len(formulas) > 1 else None) for it in formulas) or "true"

    # Parts

    def part(self, part):
        self.definitions = []
        body = [*self.block(part.body, "  ")]
        self.has("family of parts" if part.index else "part")
        if part.index and "but in a range" in part.over.forms:
            self.has("but in a family of parts")
        yield f"part {part.name}" + (f"[{part.index} in {part.over.text}]" if part.index else "")
        for let in part.lets:
            self.has("let of a part")
            yield f"  {self.named(let)}"
        yield from self.definitions
        if part.owned:
            self.has("owns a member" if part.index else "owns")
            yield f"  owns {' '.join(text for text, _ in part.owned)}"
        yield from self.items("rely", part.relies, " of a part", "  ")
        yield from self.items("guar", part.guars, " of a part", "  ")
        for name, point in (("pre", part.pre), ("post", part.post)):
            if point:
                self.has(f"{name} of a part")
                yield f"  {name} {self.conjunction(point.formulas)}"
        yield "begin"
        yield from body
        yield "end"

    def block(self, items, before):
        """The lines of a block."""
        for at, it in enumerate(items):
            if isinstance(it, Point):
                self.has("assertion", *["two assertions in a row"] * (at > 0 and isinstance(items[at - 1], Point)))
                yield f"{before}{{ {self.conjunction(it.formulas)} }}"
                continue
            more = any(not isinstance(other, Point) for other in items[at + 1 :])
            self.has(*["no assertion"] * (not (at + 1 < len(items) and isinstance(items[at + 1], Point))))
            lines = [*self.statement(it, before)]
            yield from lines[:-1]
            yield lines[-1] + ";" * more

    def statement(self, it, before):
        if isinstance(it, Skip):
            self.has("skip")
            yield f"{before}skip"
        elif isinstance(it, If):
            self.has("if" if it.other else "if without else")
            yield f"{before}if {self.of(it.test)} then"
            yield from self.block(it.one, f"{before}  ")
            if it.other:
                yield f"{before}else"
                yield from self.block(it.other, f"{before}  ")
            yield f"{before}end"
        elif isinstance(it, While):
            self.has("while true" if it.test is TRUE else "while", *["invariant of a while"] * bool(it.point))
            yield f"{before}while {self.of(it.test)}" + (f" invariant {self.conjunction(it.point.formulas)}" if it.point else "") + " do"
            yield from self.block(it.body, f"{before}  ")
            yield f"{before}end"
        elif isinstance(it, For):
            yield from self.repeated(it, before)
        else:
            yield before + self.step(it)

    def repeated(self, it, before):
        """The lines of a `for`; or its body as named statements, of which the index is a parameter, and a use for each number."""
        named = self.rng.random() < 0.4
        self.indices.append(it.name)
        body = [*self.block(it.body, "    " if named else f"{before}  ")]
        given = ", ".join(self.indices)
        self.indices.pop()
        if not named:
            self.has("for", *["but in a for"] * ("but in a range" in it.over.forms))
            yield f"{before}for {it.name} in {it.over.text} do"
            yield from body
            yield f"{before}end"
            return
        self.has("named statements", *["named statements in others"] * bool(self.indices))
        name, numbers = f"of_{it.name}", it.over.numbers({})
        self.definitions += [f"  let {name}({given}) = begin", *body, "  end"]
        for at, number in enumerate(numbers):
            yield f"{before}{name}({', '.join([*self.indices, str(number)])})" + ";" * (at + 1 < len(numbers))

    def step(self, it):
        self.has(it.form, *(form for assigned in it.assigned for form in assigned.forms))
        assigned = "; ".join(f"{one.text} := {one.value.text}" for one in it.assigned)
        guard = f"await {self.of(it.guard)}" if it.guard else ""
        return {"assignment": assigned, "atomic": f"atomic {assigned} end", "await": guard, "await do": f"{guard} do {assigned} end"}[it.form if it.assigned else "await"]


# What stands in the place of a token where an outline is changed.
OTHERS = """= != < <= > >=; and or; implies iff; all some; + -; band bor bxor; shl shr; 0 1 2 3; true false; x y f g"""
OTHERS = [it.split() for it in OTHERS.split(";")]


def changed(text, seed):
    """An outline in which up to three times a line is left out that is an assertion or belongs to a head, or a token below the words is another one."""
    rng = random.Random(seed)
    for _ in range(rng.choice([1, 2, 3])):
        words, *lines = text.split("\n")
        spare = [at for at, line in enumerate(lines) if re.match(r" *(\{|owns |rely |pre |post |invariant )", line)]
        if spare and rng.random() < 0.3:
            del lines[rng.choice(spare)]
            text = "\n".join([words, *lines])
            continue
        tokens = re.split(r"(\w+|[<>!:]?=|[<>])", "\n".join(lines))
        places = [at for at, it in enumerate(tokens) if any(it in group for group in OTHERS) and not tokens[at - 1].endswith(("[", "."))]
        at = rng.choice(places)
        tokens[at] = rng.choice([it for group in OTHERS if tokens[at] in group for it in group if it != tokens[at]])
        text = "\n".join([words, "".join(tokens)])
    return text
