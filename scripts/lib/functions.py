"""Where functions stand in the text of a crate, and what a check calls them."""

import collections
import re

LITERALS = re.compile(r"""//[^\n]*|/\*.*?\*/|\bb?r(#*)".*?"\1|b?"(?:\\.|[^"\\])*"|b?'(?:\\(?:x..|u\{[^}]*\}|.)|[^'\\\n])'""", re.S)
CONTRACT = re.compile(r"\b(?:ensures|requires)(?:\s+\w+)?\s*$")

# The lines are those from the head to the end, from 0. The words of the head have the contract too.
Function = collections.namedtuple("Function", "file owner name nth first last head")


def functions_in(file, text):
    """Returns each outermost function with a body: its impl or trait, its name, which of that name it is, its lines, and the words of its head."""
    source, text = text, LITERALS.sub(lambda it: re.sub(r"[^\n]", " ", it[0]), text)
    found, stack, start, depth = [], [], 0, 0
    for it in re.finditer(r"[{}()\[\];]", text):
        mark, at = it[0], it.start()
        is_within = any(kind in ("fn", "contract") for kind, *_ in stack)
        if mark in "([":
            depth += 1
        elif mark in ")]":
            depth -= 1
        elif mark == "{":
            head = text[start:at]
            begin = at - len(head.lstrip())
            item = re.search(r"\bfn\s+(\w+)", head) or re.search(r"\b(?:impl|trait|mod)\b.*", head, re.S)
            if is_within:
                stack.append(("in", depth, "", begin, ()))
            elif CONTRACT.search(head):
                stack.append(("contract", depth, "", begin, ()))
            else:
                kind = "fn" if item and item[0].startswith("fn") else "item"
                name = item[1] if kind == "fn" else item[0] if item else ""
                stack.append((kind, depth, name, begin, source[begin:at].split()))
                start = at + 1
            depth = 0
        elif mark == "}" and stack:
            kind, depth, name, begin, head = stack.pop()
            if kind == "fn":
                owner = " ".join(above for _, _, above, *_ in stack)
                nth = sum(it.owner == owner and it.name == name for it in found)
                found.append(Function(file, owner, name, nth, text.count("\n", 0, begin), text.count("\n", 0, at), head))
            if kind in ("fn", "item"):
                start = at + 1
        elif mark == ";" and not depth and not is_within:
            start = at + 1
    return found


def key(function):
    """Returns what a function has in common with itself in another version of its file."""
    return function[:4]


def owner_of(owner):
    """Returns the words of the trait and those of the type of the innermost impl or trait in these heads, and an empty list for each that isn't there."""
    head = re.search(r"\b(impl|trait)\b(?!.*\b(?:impl|trait)\b)(.*)", re.sub(r"\bwhere\b.*", "", owner, flags=re.S), re.S)
    owner = re.sub(r"\w+::|'\w+|\b(?:mut|dyn)\b|->", "", head[2]) if head else ""
    if owner.startswith("<"):
        depths = [owner[: at + 1].count("<") - owner[: at + 1].count(">") for at in range(len(owner))]
        owner = owner[depths.index(0) + 1 :]
    made, _, of = owner.rpartition(" for ")
    return re.findall(r"\w+", made), re.findall(r"\w+", of)


def path_of(file):
    """Returns the path of a file's module below its crate, empty for the crate's own."""
    path = re.sub(r"^src/|(/mod)?\.rt$", "", file).replace("/", "::")
    return "" if path in ("lib", "main") else path


def end_of(function):
    """Returns the end of the name that a check has for a function. Takes the function's key."""
    file, owner, name, _ = function
    made, of = owner_of(owner)
    place = f"{of[0]}{''.join(made[:2])}" if of else path_of(file)
    return f"{place}::{name}".removeprefix("::")


def names_of(function, crate, known):
    """Returns those of the names that a check knows that are the function's and its closures'. Takes the function's key.

    A method lies in its type's module, which can be another file's."""
    file, owner, name, _ = function
    made, of = owner_of(owner)
    module = f"{crate}::{path_of(file)}".removesuffix("::")
    place = rf"{crate}::(?:\w+::)*{of[0]}" if of else rf"{module}(?:::[a-z]\w*)*?"
    # (From<A> and From<B> of one type are FromA and FromB; a drop has its type alone, and some impl Type<A> is Type+A)
    exact = rf"\w*{''.join(made[:2])}" if made else ""
    wide = rf"\w*{made[0]}\w*" if made else ""
    for owned in (exact, wide, "", r"(?:\+\w+)+"):
        found = [it for it in known if re.fullmatch(rf"{place}{owned}::{name}(?:::.*|\+.*)?", it)]
        here = [it for it in found if it.startswith(module + "::")]
        if found:
            return here or found
    return []
