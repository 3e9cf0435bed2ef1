"""What the answer for a wrong body rests on, of its crate.

The prover proves each function against its own contract, and against those alone of what it calls. So whether it refuses an edit of a
function's body is decided by that function, its proofs, and the definitions, lemmas, types and heads of functions (with their contracts) that
these name, and those that they name in turn. The bodies of other functions, and what nobody names, change nothing. This is a reader of
names: of two things of one name it takes both. Comments and white space count for nothing.

An edit outside every function, or of a head, rests on the whole crate."""

import collections
import functools
import hashlib
import os
import re

import project
import sources
from antt import STRINGS, antt_definitions
from functions import LITERALS, functions_in


class Piece:
    """A text, and for each local name of its file what it stands for: the path as it is written, and its last name."""

    def __init__(self, text, names):
        self.text, self.names = text, names

    @functools.cached_property
    def lines(self):
        """The text in one line, and a line for each name of elsewhere that stands in it."""
        return [" ".join(self.text.split()), *(f"{it} = {self.names[it][0]}" for it in self.words if it in self.names)]

    @functools.cached_property
    def words(self):
        """All that may be a name in it, or part of one, and what its file takes whole."""
        globs = {it for it in self.names if it.endswith("::*")}
        return {*re.findall(r"[^\s(){}\[\],;.]+", self.text), *re.findall(r"\w+", self.text)} | globs

    @functools.cached_property
    def named(self):
        """Its words, and what those stand for that are of elsewhere."""
        return self.words | {self.names[it][1] for it in self.words if it in self.names}


def code(text):
    """Returns the text of a file of src/ with its comments blank."""
    return LITERALS.sub(lambda it: re.sub(r"[^\n]", " ", it[0]) if it[0].startswith(("//", "/*")) else it[0], text)


def proof(text):
    """Returns an antt text with its comments blank."""
    return STRINGS.sub(lambda it: "" if it[0].startswith("--") else it[0], text)


class Slices:
    """The pieces of a crate by their names."""

    def __init__(self, crate):
        self.crate, self.pieces, self.folders, self.always = crate, collections.defaultdict(list), collections.defaultdict(list), []
        self.texts = {os.path.relpath(it, crate.folder): project.text_of(it) for it in project.files_of(crate)}
        self.names = collections.defaultdict(dict)
        for it in self.source().modules.values():
            self.names[os.path.relpath(it.file, f"crates/{crate.name}")].update(self.names_in(it))
        for file, text in self.texts.items():
            if file.endswith(".antt"):
                self.add_antt(file, text)

    def source(self):
        found = sources.Source(self.crate)
        for module in found.modules.values():
            names = self.names_in(module)
            for (is_fn, name), items in module.items.items():
                for it in items:
                    self.add(name, module, it.at, it.body[0] if is_fn and it.body else it.end, names)
            for block in module.blocks:
                self.add_block(module, block, names)
            self.always += re.findall(r"#!\[[^\]]*\]", module.blank)
        return found

    def names_in(self, module):
        """Returns what the names mean that a module takes from elsewhere."""
        rust = {name: ("::".join(path), path[-1]) for name, path in module.uses.items()}
        ghost = {name: (f"{it.crate}.{it.module}.{it.item}", it.item or it.module.rpartition(".")[2]) for name, it in module.ghost.items()}
        globs = {f"{'::'.join(path)}::*": ("*", path[-1]) for path, _ in module.globs}
        return {**rust, **ghost, **globs}

    def add(self, name, module, start, end, names):
        self.pieces[name].append(Piece(code(module.text[start:end]), names))

    def add_block(self, module, block, names):
        """Adds the head of an impl or trait with what contracts see of it, and the heads of its functions: those of a trait's are called where only the type stands."""
        owners = {*re.findall(r"\b[A-Z]\w*", block.head)} or {*re.findall(r"\w+", block.head)}
        members = "\n".join(map(str, block.members))
        for owner in owners:
            self.pieces[owner].append(Piece(f"{block.head} {members}", names))
        for it in block.functions:
            for owner in {it.name} | (owners if block.trait or block.is_trait else set()):
                self.add(owner, module, it.at, it.body[0] if it.body else it.end, names)

    def add_antt(self, file, text):
        """Adds the definitions and lemmas of an antt file, and the file as one of those that answer goals of a function, where it lies in a folder of one."""
        found, imports = antt_definitions(self.crate.name, file, text)
        names = {name: (f"{it.crate}.{it.module}.{it.item}", it.item or it.module.rpartition(".")[2]) for name, it in imports.items()}
        for definition, owned in found:
            piece = Piece(proof(definition.text), names)
            for name in {*definition.names, *owned}:
                for part in {name, *name.split("◌")} - {""}:
                    self.pieces[part].append(piece)
        for folder in os.path.dirname(file).split("/")[1:]:
            self.folders["+" if folder.startswith("+") else folder].append(Piece(proof(text), names))

    def of(self, edit):
        """Returns the sum of what an edit's answer rests on."""
        if not edit.is_of_bodies:
            return hashlib.sha256(repr(sorted(self.texts.items())).encode()).hexdigest()
        begin = [Piece(edit.text, {})]
        for file, owner, name, nth in edit.functions:
            at = next(it for it in self.functions(file) if it[:4] == (file, owner, name, nth))
            lines = self.code(file).split("\n")
            begin.append(Piece("\n".join(lines[at.first : at.last + 1]), self.names[file]))
            begin += self.folders[name] + self.folders["+"]
        return self.closed(begin)

    @functools.lru_cache(maxsize=None)
    def functions(self, file):
        return functions_in(file, self.code(file))

    @functools.lru_cache(maxsize=None)
    def code(self, file):
        return code(self.texts[file])

    def closed(self, left):
        """Returns the sum of these pieces, and of all that they name."""
        found, known = {id(it): it for it in left}, set()
        while left:
            for name in left.pop().named - known:
                known.add(name)
                fresh = [it for it in self.pieces.get(name, ()) if id(it) not in found]
                found.update((id(it), it) for it in fresh)
                left += fresh
        lines = {*self.always, *(line for it in found.values() for line in it.lines)}
        return hashlib.sha256("\n".join(sorted(lines)).encode()).hexdigest()
