"""Reads antt: the imports of a text, the definitions of a file of specs/, and the names that a text uses.

It is a reader of text: a name counts as used where it stands in a text and no variable of that text has it."""

import collections
import dataclasses
import re

# Kinds of what a name can mean: a definition of specs/, or a type, constant or trait of src/, or what contracts see of a type.
DEFINITION, TYPE, CONSTANT, VIEW, TRAIT = "definition", "type", "constant", "view", "trait"


@dataclasses.dataclass(eq=False)
class Definition:
    """What a name of a contract means: a definition of specs/, or a type, constant or trait of src/, or what contracts see of a type.

    A `mutual` block is one, with several names. The lines count from 1. `uses` has what it rests on, `given` the names of other libraries."""

    crate: str
    kind: str
    file: str
    names: tuple
    first: int
    last: int
    comment: str
    text: str
    uses: tuple = ()
    given: tuple = ()

    @property
    def title(self):
        return ", ".join(f"`{it}`" for it in self.names)

    @property
    def lines(self):
        return sum(1 for it in self.text.split("\n") if it.strip() and not it.lstrip().startswith(("--", "//")))


# Imports

Import = collections.namedtuple("Import", "crate module item")  # an item of a module, or the module itself where the item is ""


def imports_of(text):
    """Yields the local names of an antt `use` (without the word), each with what it means."""
    path, brace, rest = text.strip().rstrip(";").strip().partition("{")
    words = path.split()
    pieces = words[0].rstrip(".").split(".")
    if pieces[0] != "Rattle":
        return
    crate, module = pieces[1], ".".join(pieces[2:])
    if not brace:
        yield (words[2] if len(words) == 3 and words[1] == "as" else pieces[-1]), Import(crate, module, "")
        return
    for it in rest.rpartition("}")[0].split(","):
        name = it.split()
        if name:
            yield (name[2] if len(name) == 3 else name[0]), Import(crate, module, name[0])


# antt

STRINGS = re.compile(r'"(?:\\.|[^"\\])*"|(?:(?<=\s)|^)--[^\n]*', re.M)
HEAD = re.compile(r"(?P<indent> *)(?:(?:abbrev|unfoldable|pub|mutual) )*(?:(?P<made>data|record) )?(?P<name>[^\s:(){}]+)(?= |$)")
# What a signature, an equation or a field begins with, and its name.
BEGIN = re.compile(r"\s*(?:(?:abbrev|unfoldable|pub|mutual) )*(?:data |record )?([^\s:(){}]+)")


def is_head(line, indent):
    """Returns the match where a line begins a definition at this indent: a signature, or a data or record."""
    found = HEAD.match(line)
    if not found or len(found["indent"]) != indent or line.lstrip().startswith(("use ", "pub mod ", "mod ", "infix", "--", "pub use ", "unfoldable pub use ")):
        return None
    rest = line[found.end() :].lstrip()
    return found if found["made"] or re.match(r"(?:\{[^}]*\} *)?:(?: |$)", rest) else None


def antt_definitions(crate, file, text):
    """Returns the definitions of an antt file, and its imports."""
    lines = text.split("\n")
    found, imports, comment, at = [], {}, [], 0

    def end_of(start, indent):
        """Returns the line after a definition that begins at this line."""
        last = start
        for k in range(start + 1, len(lines)):
            line = lines[k]
            if not line.strip():
                continue
            own = len(line) - len(line.lstrip())
            if own < indent or own == indent and (line.lstrip().startswith(("--", "use ", "pub use ", "unfoldable pub use ", "pub mod ", "mod ", "infix")) or starts(k, indent)):
                break
            last = k
        return last + 1

    def starts(k, indent):
        return is_head(lines[k], indent) or re.match(rf" {{{indent}}}(?:(?:abbrev|unfoldable) )*mutual *$", lines[k])

    while at < len(lines):
        line = lines[at]
        if line.startswith("--"):
            comment.append(line.lstrip("- ").rstrip())
            at += 1
        elif re.match(r"(?:unfoldable )?(?:pub )?use ", line):
            whole = line
            while whole.count("{") > whole.count("}"):
                at += 1
                whole += " " + lines[at]
            imports.update(imports_of(whole.partition("use ")[2]))
            comment, at = [], at + 1
        elif starts(at, 0):
            end = end_of(at, 0)
            names, owned, said = names_in(lines[at:end])
            found.append((Definition(crate, DEFINITION, file, names, at + 1, end, " ".join(comment) or said, "\n".join(lines[at:end])), owned))
            comment, at = [], end
        else:
            if not line.startswith("infix"):
                comment = []
            at += 1
    return found, imports


def names_in(lines):
    """Returns the names that a definition or a mutual block makes, those of its constructors, and the comments in a block."""
    is_block = bool(re.match(r"(?:(?:abbrev|unfoldable) )*mutual *$", lines[0]))
    names, owned, said, inside = [], [], [], None
    for line in lines:
        indent = len(line) - len(line.lstrip())
        head = is_head(line, 2 if is_block else 0)
        if line.lstrip().startswith("--"):
            said += [line.strip().lstrip("- ")] if is_block and indent == 2 else []
        elif head:
            names.append(head["name"])
            inside = (head["made"], indent)
        elif inside and inside[0] == "data" and indent == inside[1] + 2:
            made = re.match(r"\s*(?:pub )?((?:[^\s:(){}]+ )+)(?:\{[^}]*\} *)?:", line)
            owned += made[1].split() if made else []
    return tuple(names), tuple(owned), "; ".join(said)


def operators(names):
    """Returns which first word of an operator's use means which of the names, as >>= means ◌>>=◌."""
    return {next(it for it in name.split("◌") if it): name for name in names if "◌" in name and name.strip("◌")}


def names_used(text, known, is_made, is_clause):
    """Returns which known names an antt text uses, in order, each with the name after its dot.

    `known` has the local names and aliases, `is_made` says whether a name is a constructor, which a pattern may name. A variable that a
    binder or a pattern makes hides a name from there to the end of its part: a signature, an equation or a field of a record."""
    text = STRINGS.sub(lambda it: " " * len(it[0]), text)
    symbols, found, fields = operators(known), {}, set()
    for part in [text] if is_clause else parts_of(text):
        hidden = {*fields}
        patterns = patterns_in(part, is_clause)
        words = [(it[0], it.start()) for it in re.finditer(r"[^\s(){}\[\],;]+|[(){}\[\],;]", part)]
        binders, head = binders_in(part), None if is_clause else BEGIN.match(part)
        if head and re.match(r"\s+pub \S+ :", part) and re.match(r"(?:pub )?record |(?:abbrev )?mutual", text):
            fields.add(head[1])
        labels = {it.start(1) for it in re.finditer(r"(?<=[{;])\s*([^\s(){}\[\],;:]+) =(?= )", part)}
        for word, at in words:
            if at in binders:
                hidden.add(word.rstrip("."))
                continue
            if word.startswith(".") or at in labels or head and at == head.start(1):
                continue
            name, dot, field = word.partition(".")
            if word in symbols:
                name, dot, field = symbols[word], "", ""
            elif word == "do":
                # (its lines are joined by whatever these operators mean)
                found.update({(it, ""): True for it in ("◌>>=◌", "◌>>◌") if it in known})
            if name in hidden or name not in known:
                continue
            if any(a <= at < b for a, b in patterns) and not dot and not is_made(name):
                hidden.add(name)
                continue
            found[name, field if dot else ""] = True
    return list(found)


def parts_of(text):
    """Returns a definition's signature and its equations, constructors or fields, each with the lines that go on with it."""
    parts, indents = [], []
    for line in text.split("\n"):
        indent = len(line) - len(line.lstrip())
        begins = not parts or indent == 0 or (re.match(r" {2}\S", line) and re.match(r"(?:(?:abbrev|unfoldable) )*mutual\b", text)) or re.match(r"\s+(?:pub )?[^\s:(){}]+ :(?: |$)", line)
        if begins:
            parts.append(line)
        else:
            parts[-1] += "\n" + line
    return parts


def after_of(part):
    """Returns where the right side of an equation begins: after its =, or 0 where it has none."""
    depth = 0
    for it in re.finditer(r"[(){}\[\]]|(?<=\s)=(?=\s|$)|(?<=\s):(?=\s|$)", part):
        if it[0] in "({[":
            depth += 1
        elif it[0] in ")}]":
            depth -= 1
        elif not depth:
            return it.end() if it[0] == "=" else 0
    return 0


def patterns_in(part, is_clause):
    """Returns the spans of a part that are patterns: an equation's left side after its name, and the cases of an elim."""
    spans, after = [], 0 if is_clause else after_of(part)
    if after:
        head = re.match(r"\s*\S+", part)
        spans.append((head.end(), after))
    for it in re.finditer(r"[\[|]([^\[|\]↦]*)↦", part):
        spans.append(it.span(1))
    return spans


def binders_in(part):
    """Returns where the variables stand that ( .. : ), { .. : }, λ, let and ← make."""
    found = set()
    for it in re.finditer(r"[({]((?:[^\s(){}\[\],;:]+ )+):(?= )", part):
        found |= {it.start(1) + word.start() for word in re.finditer(r"\S+", it[1])}
    for it in re.finditer(r"λ ((?:[^\s(){}\[\],;.]+ )*[^\s(){}\[\],;.]+)\.(?=\s)", part):
        found |= {it.start(1) + word.start() for word in re.finditer(r"\S+", it[1])}
    for it in re.finditer(r"\blet ([^\s:=]+) (?=[:=] )|(?<=\s)(\S+) ←", part):
        found.add(it.start(1 if it[1] else 2))
    return found
