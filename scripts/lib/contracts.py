"""What the contracts of a repository say: its public functions with their clauses, its definitions, and what rests on what.

    repository = contracts.Repository(project.ROOT)
    repository.promises()               each public function, law, trait and type that has clauses
    repository.reached(names)           the definitions that these names rest on, in reading order

It reads crates.txt, src/*.rt and specs/*.antt of each crate, and nothing is listed by hand. It is a reader of text and no prover: a name
counts as used where it stands in a text and no variable of that text has it. Names of the toolchain's libraries are reported, not followed."""
import collections
import dataclasses
import functools
import os
import re

import project
from antt import CONSTANT, STRINGS, TRAIT, TYPE, VIEW, Definition, Import, antt_definitions, names_used
from sources import Item, Source, ghost_fields, shown_of

# Who names a definition that no public contract does.
PRIVATE, BY = "contracts that aren't public", "the `by` of a type's ghost fields"


@dataclasses.dataclass(eq=False)
class Promise:
    """A public function, or a trait or type that has clauses of its own. `source` is the contract as it stands, `below` what it rests on."""

    crate: str
    path: str
    kind: str
    signature: str
    clauses: list
    file: str
    first: int
    last: int
    comment: str
    source: str
    below: tuple = ()
    given: tuple = ()
    ghost: dict = dataclasses.field(default_factory=dict)
    module: object = None


class Repository:
    """The crates of a repository as their contracts and definitions tell them."""

    def __init__(self, root=project.ROOT):
        self.root = root
        self.crates = list(project.crates(root))
        self.place = {it.name: k for k, it in enumerate(self.crates)}
        self.sources = {it.name: Source(it) for it in self.crates}
        self.specs, self.imports, self.by_name, self.made = {}, {}, {}, set()
        self.of_items, self.views = {}, {}
        # what a text names that this reader finds nowhere, with the file that names it
        self.unknown = set()
        for crate in self.crates:
            self.read_specs(crate)
        for found in [it for them in self.specs.values() for it in them]:
            self.follow(found)

    @property
    def libraries(self):
        """The crates that others may call: no program, and none that has tests and that no crate stands on."""
        used = {name for it in self.crates for name in it.libraries}
        return [it for it in self.crates if not it.is_program and (it.name in used or not it.has_tests)]

    # Definitions of specs/

    def read_specs(self, crate):
        for path in project.files_of(crate, ("specs",)):
            if not path.endswith(".antt"):
                continue
            module = os.path.relpath(path, crate.folder)[: -len(".antt")].replace("/", ".")
            found, imports = antt_definitions(crate.name, os.path.relpath(path, self.root), project.text_of(path))
            self.specs[crate.name, module] = [it for it, _ in found]
            self.imports[crate.name, module] = imports
            for it, owned in found:
                for name in (*it.names, *owned):
                    self.by_name.setdefault((crate.name, module, name), it)
                for name in owned:
                    self.made.add((crate.name, module, name))

    def module_of(self, definition):
        path = definition.file.split("/", 2)[2]
        return path[: -len(".antt")].replace("/", ".")

    def follow(self, definition):
        """Finds what a definition of specs/ rests on."""
        module = self.module_of(definition)
        own = {name: Import(definition.crate, module, name) for crate, at, name in self.by_name if (crate, at) == (definition.crate, module)}
        known = {**self.imports[definition.crate, module], **own}
        definition.uses, definition.given = self.resolved(definition.text, known, definition.file, definition)

    def resolved(self, text, known, file, but=None):
        """Returns what the names of a definition, or where `but` is None of a clause, mean: definitions, and names of other libraries."""
        uses, given = {}, {}
        for name, field in names_used(text, known, lambda it: self.is_made(known[it]), but is None):
            at = known[name]
            if not at.item and not field:
                continue
            at = self.origin(at if at.item else Import(at.crate, at.module, field))
            found = self.meaning(at)
            if found is None and at.crate in self.place and not at.module.startswith("proofs"):
                self.unknown.add((file, f"{at.crate}.{at.module}.{at.item}"))
            elif found is None:
                given[f"{at.crate}.{at.module}", at.item] = True
            elif found is not but:
                uses[found] = True
        return tuple(uses), tuple(given)

    def origin(self, at):
        """Returns where an import's name is made, where its module hands on what it imports itself, or its library a whole module of another."""
        while at.item and (at.crate, at.module, at.item) not in self.by_name:
            root, _, name = at.module.rpartition(".")
            whole = self.imports.get((at.crate, f"{root}.Lib"), {}).get(name)
            if at.item in self.imports.get((at.crate, at.module), {}):
                at = self.imports[at.crate, at.module][at.item]
            elif whole and not whole.item and (whole.crate, whole.module) != (at.crate, at.module):
                at = whole._replace(item=at.item)
            else:
                break
        return at

    def is_made(self, at):
        """Whether an import is a constructor, which a pattern may name."""
        at = self.origin(at)
        if at.crate not in self.place:
            return at.item[:1].isupper() or not at.item.isidentifier() or at.item in ("true", "false", "zero", "suc", "tt", "refl", "inl", "inr")
        return (at.crate, at.module, at.item) in self.made or at.module.startswith("specs.declared.") and not at.module.endswith(".TheConstants")

    def meaning(self, at):
        """Returns the definition that an import names, if this repository has it."""
        if at.crate not in self.place:
            return None
        if not at.module.startswith("specs.declared"):
            return self.by_name.get((at.crate, at.module, at.item))
        path = at.module.split(".")[2:]
        if path and path[-1] == "TheConstants":
            return self.item_at(at.crate, tuple(path[:-1]), at.item)
        if path and path[-1].startswith("The"):
            path = path[:-1]
        if not path:
            return self.item_at(at.crate, (), at.item)
        return self.item_at(at.crate, tuple(path[:-1]), path[-1]) or self.item_at(at.crate, tuple(path), at.item)

    # Types, traits and constants of src/

    def item_at(self, crate, path, name):
        module = self.sources[crate].modules.get(path)
        found = module and next(iter(module.items.get((False, name), ())), None)
        return self.of_item(found) if found else None

    def of_item(self, item):
        """Returns the definition that a type, trait or constant is."""
        if item in self.of_items:
            return self.of_items[item]
        module = item.module
        kind = TRAIT if item.kind == "trait" else CONSTANT if item.kind in ("const", "static") else TYPE
        made = Definition(module.crate, kind, module.file, (item.name,), item.first, item.last, item.comment, module.text[item.at : item.end])
        self.of_items[item] = made
        if kind == TRAIT:
            block = item.owner
            clauses = [it.text for it in block.members] + [it.text for function in block.functions for it in function.clauses]
            own = {it.name for it in block.members}
            made.uses, made.given = self.clauses_mean(clauses, {name: at for name, at in item.ghost.items() if name not in own}, module)
        else:
            made.uses = tuple(self.types_in(shown_of(item), module, item))
            view = self.view_of(item)
            made.uses += (view,) if view else ()
        return made

    def view_of(self, item):
        """Returns what contracts see of a type: the value of its Model. None where they see its fields.

        What each value of a type keeps, its invariant and its ghost fields, is a promise of its own, and nothing that a name means."""
        found = next((it for it in self.blocks_of(item) if it.trait.split("::")[-1] == "Model"), None)
        if not found:
            return None
        clauses = [it for it in found.members if it.name in ("Value", "view")]
        lines = [found.module.text.count("\n", 0, at) + 1 for at in (found.at, found.end)]
        made = Definition(found.module.crate, VIEW, found.module.file, (item.name,), *lines, "", "\n".join(str(it) for it in clauses))
        made.uses, made.given = self.clauses_mean([it.text for it in clauses], found.ghost, found.module)
        return made

    def blocks_of(self, item):
        """Returns the impls of a type, in its module or another of its crate."""
        for module in self.sources[item.module.crate].modules.values():
            for block in module.blocks:
                if not block.is_trait and block.type_path[-1:] == (item.name,) and self.found(module, block.type_path) is item:
                    yield block

    def clauses_mean(self, texts, ghost, module):
        """Returns what the names of clauses mean: definitions, and names of other libraries. A clause needs no import of the types and constants of its module."""
        uses, given = {}, {}
        for text in texts:
            more, other = self.resolved(text, ghost, module.file)
            uses.update(dict.fromkeys(more))
            given.update(dict.fromkeys(other))
            for it in re.finditer(r"(?<![\w.'-])([A-Z]\w*)(?![\w'-])", STRINGS.sub("", text)):
                item = it[1] not in ghost and self.found(module, (it[1],))
                if item and item.kind != "fn":
                    uses[self.of_item(item)] = True
        return tuple(uses), tuple(given)

    def found(self, module, path, seen=()):
        """Returns the item that a Rust path means in a module, if this repository has it."""
        if (module, tuple(path)) in seen or not path:
            return None
        seen = (*seen, (module, tuple(path)))
        first, rest = path[0], path[1:]
        if first == "crate":
            return self.within(self.sources[module.crate].top, rest, seen)
        if first == "self":
            return self.within(module, rest, seen)
        if first == "super":
            return self.within(module.above, rest, seen)
        if first in self.place and first not in module.uses and not module.children.get(first):
            return self.within(self.sources[first].top, rest, seen)
        return self.within(module, path, seen)

    def within(self, module, path, seen):
        """Returns the item at a path from a module on: its own, a child's, or one that it takes by `use`."""
        if not module or not path:
            return None
        first, rest = path[0], path[1:]
        for is_function in (False, True):
            if not rest and (is_function, first) in module.items:
                return module.items[is_function, first][0]
        if first in module.children and rest:
            return self.within(module.children[first], rest, seen)
        if first in module.uses:
            to = module.uses[first]
            return self.found(module, (*to, *rest), seen) if to != tuple(path) or to[0] in self.place else None
        for to, _ in module.globs:
            # (what the toolchain's crates have isn't looked for)
            is_here = to[0] in self.place or to[0] in ("crate", "self", "super") or to[0] in module.children
            found = self.found(module, (*to, *path), seen) if is_here else None
            if found:
                return found
        return None

    def types_in(self, text, module, but=None):
        """Returns the types and traits of this repository that a Rust text names, in order."""
        found = {}
        for it in re.finditer(r"\b(?:\w+::)*[A-Z]\w*", text):
            item = self.found(module, tuple(it[0].split("::")))
            if item and item is not but and item.kind != "fn":
                found[self.of_item(item)] = True
        return found

    # Promises

    def public_of(self, crate):
        """Returns the public items of a crate with the shortest path that leads to each."""
        found, left, seen = {}, collections.deque([(self.sources[crate.name].top, (crate.name,))]), set()
        while left:
            module, path = left.popleft()
            if module is None or (module, path) in seen or len(path) > 12:
                continue
            seen.add((module, path))
            for items in module.items.values():
                for it in items:
                    if it.is_public:
                        found.setdefault(it, []).append("::".join((*path, it.name)))
            left += [(it, (*path, name)) for name, it in module.children.items() if it.is_public]
            for name in module.given_out:
                self.give_out(module, module.uses[name], (*path, name), found, left)
            for to, is_public in module.globs:
                if is_public:
                    left.append((self.module_at(module, to), path))
        return {it: min(paths, key=lambda path: (path.count("::"), path)) for it, paths in found.items() if it.module.crate == crate.name}

    def give_out(self, module, to, path, found, left):
        item = self.found(module, to)
        if item:
            found.setdefault(item, []).append("::".join(path))
        else:
            left.append((self.module_at(module, to), path))

    def module_at(self, module, path):
        at = self.sources[module.crate].top if path[:1] == ("crate",) else module
        for name in path[1:] if path[:1] in (("crate",), ("self",)) else path:
            at = at.children.get(name) if at else None
        return at

    @functools.lru_cache(maxsize=None)
    def promises(self):
        """Returns each promise of the libraries: by crate, lowest first, and by path."""
        found = []
        for crate in self.libraries:
            public = self.public_of(crate)
            own = []
            for item, path in public.items():
                if item.kind == "fn":
                    own.append(self.promise(crate, path, item, "law" if self.is_law(item) else "function"))
                elif item.kind == "trait":
                    own.append(self.promise(crate, path, item, "trait"))
                    own += [self.promise(crate, f"{path}::{it.name}", it, "function") for it in item.owner.functions]
                elif item.kind in ("struct", "enum", "union"):
                    kept = ghost_fields(item)
                    if kept:
                        own.append(self.promise(crate, path, dataclasses.replace(item, clauses=kept), "type"))
            for module in self.sources[crate.name].modules.values():
                for block in module.blocks:
                    own += self.of_block(crate, public, module, block)
            found += sorted(own, key=lambda it: (it.path, it.first))
        return found

    def of_block(self, crate, public, module, block):
        """Returns the promises of an impl."""
        if block.is_trait:
            return []
        path = public.get(self.found(module, block.type_path))
        if not block.trait:
            return [self.promise(crate, f"{path}::{it.name}", it, "law" if self.is_law(it) else "function") for it in block.functions if it.is_public] if path else []
        trait = re.match(r"(?:\w+::)*\w+", block.trait)
        made = self.found(module, tuple(trait[0].split("::")))
        if not path and made not in public:
            return []
        head = f"<{path or block.of} as {re.sub(r'(?:[a-z_]+::)+', '', block.trait)}>"
        own = [self.promise(crate, f"{head}::{it.name}", it, "function") for it in block.functions if it.clauses]
        if block.members:
            kept = Item(module, "impl", "", True, block.at, block.at, block.end, block.head, block.members, ghost=block.ghost, owner=block)
            own.append(self.promise(crate, head, kept, "members"))
        return own

    def is_law(self, item):
        """Whether a function has no code: its contract is a law."""
        return bool(item.body) and item.body[1] > item.body[0] and not item.module.blank[item.body[0] + 1 : item.body[1]].strip()

    def promise(self, crate, path, item, kind):
        module, owner = item.module, item.owner
        own = {it.name for it in owner.members} if owner and owner.is_trait else ()
        ghost = {name: at for name, at in item.ghost.items() if name not in own}
        uses, given = self.clauses_mean([it.text for it in item.clauses], ghost, module)
        below = dict.fromkeys(uses)
        if kind in ("type", "trait"):
            below[self.of_item(module.items[False, item.name][0])] = True
        else:
            below.update(self.types_in(f"{item.signature} {owner.head if owner else ''}", module))
        signature = item.signature if item.kind == "fn" else item.signature.partition("{")[0].strip()
        source = module.text[item.head : item.body[0] if item.body else item.end].rstrip()
        last = module.text.count("\n", 0, item.head + len(source)) + 1
        return Promise(crate.name, path, kind, signature, item.clauses, module.file, item.first, last, item.comment, source, tuple(below), given, ghost, module)

    def meant(self, clause, promise):
        """Returns the definitions that a clause of a promise names."""
        return self.clauses_mean([clause.text], promise.ghost, promise.module)[0]

    # What rests on what

    def reached(self, starts):
        """Returns all that these definitions rest on, themselves too, in reading order: what one uses stands before it, lowest crate first."""
        found, left = {}, list(starts)
        while left:
            it = left.pop()
            if it not in found:
                found[it] = True
                left += it.uses
        return self.in_order(found)

    def in_order(self, found):
        """Returns definitions in reading order. Those of one file stand together where they can."""
        groups = collections.defaultdict(list)
        for it in found:
            groups[self.group_of(it)].append(it)
        # (a type stands before all definitions of its crate, so what contracts see of it stands after it)
        before = {group: {self.group_of(used) for it in them for used in it.uses if used in found and (used.kind != VIEW or group[1])} - {group} for group, them in groups.items()}
        ordered, seen = [], set()

        def take(group):
            if group not in seen:
                seen.add(group)
                for other in sorted(before[group]):
                    if other[0] == group[0]:
                        take(other)
                ordered.append(group)

        for group in sorted(groups):
            take(group)
        return [it for group in ordered for it in self.by_use(groups[group])]

    def by_use(self, group):
        """Returns the definitions of a group by line, but each after those of the group that it uses."""
        ordered, left = {}, {it: True for it in group}

        def take(it):
            if left.pop(it, None):
                for used in it.uses:
                    take(used)
                ordered[it] = True

        for it in sorted(group, key=lambda it: it.first):
            take(it)
        return list(ordered)

    def group_of(self, it):
        """Returns what stands together: the crate's place, then code before definitions, then the file. What contracts see of a type stands for itself."""
        crate = self.place[it.crate]
        return (crate, 0, it.file, "") if it.kind in (TYPE, CONSTANT) else (crate, 1, it.file, it.names[0] if it.kind in (VIEW, TRAIT) else "")

    def named_by(self, definitions):
        """Returns of these definitions those that contracts of functions that aren't public rest on, or a proof that a ghost field gives by `by`, each with which of the two."""
        found, wanted = {}, set(definitions)
        for source in self.sources.values():
            for module in source.modules.values():
                scopes = [(module.ghost, PRIVATE, [clause.text for items in module.items.values() for it in items for clause in it.clauses])]
                for block in module.blocks:
                    scopes.append((block.ghost, PRIVATE, [it.text for it in block.members] + [clause.text for it in block.functions for clause in it.clauses]))
                scopes.append((module.ghost, BY, re.findall(r"\}\s*by\s*\{([^}]*)\}", module.text)))
                for ghost, why, texts in scopes:
                    for it in self.reached(self.clauses_mean(texts, ghost, module)[0]):
                        if it in wanted:
                            found.setdefault(it, why)
        return found

    def definitions(self):
        """Returns all definitions of specs/, by crate in the order of crates.txt, by file, by line."""
        at = {key: k for k, key in enumerate(self.specs)}
        return [it for key in sorted(self.specs, key=lambda key: (self.place[key[0]], at[key])) for it in self.specs[key]]


# What the pages share

# From docs/generated, where they are, to the root of the repository.
TO_ROOT = "../../"


def link(definition, text, to_root=TO_ROOT):
    """Returns a link of a page of docs/generated to a definition's lines."""
    lines = f"#L{definition.first}" + (f"-L{definition.last}" if definition.last > definition.first else "")
    return f"[{text}]({to_root}{definition.file}{lines})"


def settle(path, text, is_check, name):
    """Writes a page, or with is_check says whether it is what would be written. Returns the status."""
    if not is_check:
        with open(path, "w", encoding="utf-8") as it:
            it.write(text)
        return 0
    same = os.path.isfile(path) and project.text_of(path) == text
    print(f"{os.path.relpath(path, project.ROOT)} {'is' if same else 'is not'} what {name} writes")
    return 0 if same else 1
