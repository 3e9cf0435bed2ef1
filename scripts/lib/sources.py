"""Reads the modules of a crate's src/: its items, its functions with their contracts, its impls, and what each module takes by `use`."""

import dataclasses
import os
import re

import functions
import project
from antt import imports_of


@dataclasses.dataclass
class Clause:
    """A clause of a contract. `word` is requires, ensures or ghost, with a star where it has one."""

    word: str
    name: str
    text: str

    def __str__(self):
        return " ".join(it for it in (self.word, self.name, f"{{ {self.text} }}") if it)


def plain(text):
    """Returns the text with each gap as one space."""
    return re.sub(r",(?= [)\]>])", "", " ".join(text.split())).replace("( ", "(").replace(" )", ")")


def blanked(text):
    """Returns Rust's text with comments and literals blank, of the same length."""
    return functions.LITERALS.sub(lambda it: re.sub(r"[^\n]", " ", it[0]), text)


def bare(text):
    """Returns a clause's text without comments, in one line."""
    return plain(re.sub(r"(?m)(^|\s)//[^\n]*", " ", text))


# Modules and their items


@dataclasses.dataclass(eq=False)
class Module:
    """A module of a crate, with what it declares. `ghost` has what the antt names of its file mean."""

    crate: str
    path: tuple
    file: str
    text: str
    blank: str
    above: object = None
    is_public: bool = True
    children: dict = dataclasses.field(default_factory=dict)
    uses: dict = dataclasses.field(default_factory=dict)
    globs: list = dataclasses.field(default_factory=list)
    given_out: list = dataclasses.field(default_factory=list)
    items: dict = dataclasses.field(default_factory=dict)
    blocks: list = dataclasses.field(default_factory=list)
    ghost: dict = dataclasses.field(default_factory=dict)


@dataclasses.dataclass(eq=False)
class Item:
    """A function, type, trait or constant of a module, or a function of an impl or trait."""

    module: Module
    kind: str
    name: str
    is_public: bool
    at: int
    head: int
    end: int
    signature: str = ""
    clauses: list = dataclasses.field(default_factory=list)
    body: tuple = ()
    ghost: dict = dataclasses.field(default_factory=dict)
    owner: object = None

    @property
    def first(self):
        return self.module.text.count("\n", 0, self.at) + 1

    @property
    def last(self):
        return self.module.text.count("\n", 0, self.end) + 1

    @property
    def comment(self):
        """The words of its doc comment."""
        above = self.module.text[: self.at].rstrip().split("\n")
        found = []
        while above and above[-1].strip().startswith(("///", "#[", "//")):
            line = above.pop().strip()
            found += [line[3:].strip()] if line.startswith("///") else []
        return " ".join(it for it in reversed(found) if it).replace("# Errors", "Errors:")


@dataclasses.dataclass(eq=False)
class Block:
    """An impl or a trait: what it is of, its functions, and its ghost members as clauses."""

    module: Module
    head: str
    trait: str
    of: str
    at: int
    end: int
    functions: list
    members: list
    ghost: dict

    @property
    def is_trait(self):
        return bool(re.match(r"(?:pub(?:\s*\([^)]*\))? )?(?:unsafe )?trait\b", self.head))

    @property
    def type_path(self):
        """The path of the type that it is of, without arguments; () where it has none, as a reference to a slice."""
        found = re.match(r"&?(?:'\w+ )?(?:mut )?((?:\w+::)*\w+)", self.of)
        return tuple(found[1].split("::")) if found else ()


ITEM = re.compile(r"(?P<vis>pub(?:\s*\([^)]*\))?\s+)?(?:(?:unsafe|default|async)\s+)*(?:const\s+(?=(?:unsafe\s+)?fn\b))?(?:unsafe\s+)?(?P<kind>fn|struct|enum|union|trait|impl|mod|use|ghost|type|const|static)\b")
CLAUSE = re.compile(r"\b(?P<word>requires|ensures|ghost)(?P<star>\*?)\s*(?P<name>\w+)?\s*:?\s*$")


def closing(blank, at):
    """Returns where the bracket closes that opens at this place."""
    depth = 0
    for it in re.compile(r"[{}]").finditer(blank, at):
        depth += 1 if it[0] == "{" else -1
        if not depth:
            return it.start()
    return len(blank) - 1


def ending(blank, at, marks):
    """Returns the first place of one of these marks outside of all brackets but the < >."""
    depth = 0
    for it in re.compile(r"[(){}\[\];]").finditer(blank, at):
        if not depth and it[0] in marks:
            return it.start()
        depth += it[0] in "({["
        depth -= it[0] in ")}]"
    return len(blank)


class Source:
    """The modules of a crate's src/."""

    def __init__(self, crate):
        self.crate, self.modules = crate, {}
        top = next((it for it in ("lib.rt", "main.rt") if os.path.isfile(f"{crate.folder}/src/{it}")), None)
        self.top = self.read((), f"{crate.folder}/src/{top}", None, True) if top else None

    def read(self, path, file, above, is_public):
        text = project.text_of(file)
        module = Module(self.crate.name, path, os.path.relpath(file, self.crate.root), text, blanked(text), above, is_public)
        self.modules[path] = module
        self.fill(module, 0, len(text))
        return module

    def fill(self, module, at, end):
        """Reads the items of a module, or of the part of its file that is an inline one."""
        for kind, is_public, name, place, head, stop, attributes in self.items(module, at, end):
            text = module.text[head:stop]
            if "cfg(test)" in attributes:
                continue
            if kind == "use":
                self.use(module, bare(text), is_public)
            elif kind == "ghost":
                module.ghost.update(imports_of(bare(text).removeprefix("ghost use ")))
            elif kind == "mod":
                self.child(module, name, is_public, head, stop)
            elif kind in ("impl", "trait"):
                self.block(module, kind, name, is_public, place, head, stop)
            else:
                module.items.setdefault((kind == "fn", name), []).append(self.item(module, kind, name, is_public, place, head, stop))

    def items(self, module, at, end):
        """Yields the items of a part of a file: kind, visibility, name, where it and its words begin, where it ends, its attributes."""
        blank, attributes, place = module.blank, "", None
        while True:
            gap = re.compile(r"\s*").match(blank, at, end)
            at = gap.end()
            if at >= end:
                return
            place = at if place is None else place
            if blank[at] == "#":
                stop = blank.index("[", at)
                depth = 0
                for it in re.compile(r"[\[\]]").finditer(blank, stop):
                    depth += 1 if it[0] == "[" else -1
                    if not depth:
                        break
                attributes += module.text[at : it.end()]
                at = it.end()
                if attributes.startswith("#!"):
                    attributes, place = "", None
                continue
            found = ITEM.match(blank, at, end)
            if not found:
                # (a macro's call, or what this reader doesn't know)
                stop = ending(blank, at, ";{")
                at = (closing(blank, stop) if blank[stop : stop + 1] == "{" else stop) + 1
                attributes, place = "", None
                continue
            kind, is_public = found["kind"], (found["vis"] or "").strip() == "pub"
            name = re.compile(r"\s*(\w+)").match(blank, found.end())
            stop = self.end_of(blank, kind, found.end())
            yield kind, is_public, name[1] if name else "", place, at, stop, attributes
            at, attributes, place = stop, "", None

    def end_of(self, blank, kind, at):
        if kind in ("use", "ghost", "type", "const", "static"):
            return ending(blank, at, ";") + 1
        if kind != "fn":
            stop = ending(blank, at, ";{")
            return (closing(blank, stop) if blank[stop : stop + 1] == "{" else stop) + 1
        for start, stop, clause in self.braces(blank, at):
            if not clause:
                return stop + 1
        return len(blank)

    def braces(self, blank, at):
        """Yields the clauses of a function and at last its body, or the ; in its place: where it begins, where it ends, and the clause's head."""
        begin = at
        while True:
            start = ending(blank, at, ";{")
            if blank[start : start + 1] != "{":
                yield start, start, None
                return
            stop, clause = closing(blank, start), CLAUSE.search(blank, begin, start)
            yield start, stop, clause
            if not clause:
                return
            at = begin = stop + 1

    def child(self, module, name, is_public, head, stop):
        path = (*module.path, name)
        brace = module.blank.find("{", head, stop)
        if brace >= 0:
            found = Module(module.crate, path, module.file, module.text, module.blank, module, is_public, ghost=dict(module.ghost))
            self.modules[path] = found
            self.fill(found, brace + 1, stop - 1)
        else:
            folder = f"{self.crate.folder}/src/{'/'.join(path)}"
            file = next((it for it in (f"{folder}.rt", f"{folder}/mod.rt") if os.path.isfile(it)), None)
            if not file:
                return
            found = self.read(path, file, module, is_public)
        module.children[name] = found

    def use(self, module, text, is_public):
        text = re.sub(r"^(?:pub(?:\s*\([^)]*\))?\s+)?use\s+", "", text).rstrip("; ")
        for path, name in use_paths(text, ()):
            if name == "*":
                module.globs.append((path, is_public))
            else:
                module.uses[name] = path
                if is_public:
                    module.given_out.append(name)

    def item(self, module, kind, name, is_public, place, head, stop, ghost=None):
        found = Item(module, kind, name, is_public, place, head, stop, ghost=ghost if ghost is not None else module.ghost)
        if kind != "fn":
            found.signature = plain(module.text[head:stop])
            return found
        begin = signature = None
        for start, end, clause in self.braces(module.blank, head):
            if clause:
                signature = clause.start() if signature is None else signature
                found.clauses.append(Clause(clause["word"] + clause["star"], clause["name"] or "", bare(module.text[start + 1 : end])))
            else:
                begin, found.body = start, (start, end)
        found.signature = re.sub(r"^pub(?:\([^)]*\))? ", "", bare(module.text[head : begin if signature is None else signature]))
        return found

    def block(self, module, kind, name, is_public, place, head, stop):
        brace = ending(module.blank, head, ";{")
        words = plain(module.blank[head:brace])
        ghost, members, made, listed = {}, [], [], []
        for it in self.items(module, brace + 1, stop - 1):
            if it[0] == "ghost" and re.match(r"(?:pub )?ghost\s+use\b", module.blank[it[4] : it[5]]):
                ghost.update(imports_of(bare(module.text[it[4] : it[5]]).partition("ghost use ")[2]))
            elif it[0] == "ghost":
                found = re.match(r"(?:pub )?ghost (\S+?)\s*[:=]\s*\{(.*)\}(?:\s*by\s*\{.*\})?\s*;?$", bare(module.text[it[4] : it[5]]), re.S)
                members += [Clause("ghost", found[1], found[2].strip())] if found else []
            else:
                listed.append(it)
        scope = {**module.ghost, **ghost}
        trait, of = ("", name) if kind == "trait" else owner_of(words)
        block = Block(module, words, trait, of, place, stop, made, members, scope)
        for it in listed:
            if it[0] == "fn":
                found = self.item(module, "fn", it[2], it[1] or kind == "trait" or bool(trait), it[3], it[4], it[5], scope)
                found.owner = block
                made.append(found)
        module.blocks.append(block)
        if kind == "trait":
            found = Item(module, kind, name, is_public, place, head, stop, words, members, ghost=scope)
            found.owner = block
            module.items.setdefault((False, name), []).append(found)


def owner_of(words):
    """Returns the trait and the type of an impl's head, without its own parameters; the trait is empty where there is none."""
    rest = re.sub(r"\s+where\b.*", "", words.removeprefix("unsafe ").removeprefix("impl").strip())
    if rest.startswith("<"):
        depth = 0
        for k, mark in enumerate(rest):
            depth += (mark == "<") - (mark == ">" and rest[k - 1] != "-")
            if not depth:
                rest = rest[k + 1 :].strip()
                break
    trait, _, of = rest.rpartition(" for ")
    return trait.strip(), of.strip()


def use_paths(text, above):
    """Yields each path that a Rust `use` takes, as a tuple, with its local name."""
    text = text.strip()
    brace = text.find("{")
    if brace < 0:
        path, _, name = text.partition(" as ")
        pieces = tuple(it.strip() for it in path.split("::") if it.strip())
        whole = (*above, *pieces)
        if pieces[-1] == "self":
            whole = whole[:-1]
        yield (whole[:-1], "*") if pieces[-1] == "*" else (whole, name.strip() or whole[-1])
        return
    front = (*above, *(it.strip() for it in text[:brace].split("::") if it.strip()))
    depth, piece = 0, ""
    for mark in text[brace + 1 : text.rindex("}")] + ",":
        depth += (mark == "{") - (mark == "}")
        if mark == "," and not depth:
            if piece.strip():
                yield from use_paths(piece, front)
            piece = ""
        else:
            piece += mark


def shown_of(item):
    """Returns what all can see of a type's fields: all of an enum's or an alias's, and the public ones of a struct."""
    text = item.module.blank[item.head : item.end]
    if item.kind in ("type", "const", "static"):
        return text
    if item.kind == "enum":
        return "\n".join(it[0] for it in re.finditer(r"\([^()]*\)|:[^,{}]*", text.partition("{")[2]))
    return "\n".join(it[0] for it in re.finditer(r"(?m)\bpub\s+(?!ghost\b|struct\b|union\b)[^,\n{]*", text.partition("{")[2] or text.partition("(")[2]))


def ghost_fields(item):
    """Returns the ghost fields of a struct as clauses: what each of its values keeps."""
    text, found = item.module.text, []
    if item.kind not in ("struct", "enum", "union"):
        return found
    for it in re.compile(r"\bghost\s+(\w+)\s*:\s*(?=\{)").finditer(item.module.blank, item.head, item.end):
        found.append(Clause("ghost", it[1], bare(text[it.end() + 1 : closing(item.module.blank, it.end())])))
    return found
