"""Libraries of which the statements alone are taken: a copy of each whose functions have bodies that are never reached, and proofs that are holes.

What a check over them says of a crate's own functions is what a check over proved libraries says, and it says nothing of the libraries."""

import glob
import os
import re
import shutil

import functions
import project

HOLE = "use Rattle.{crate}.proofs.{path}.Statement.{{statement}}\n\npub {name}_spec : {{M : Type 1}} → statement M\n{name}_spec = ?\n"
# An attribute of a recursion before a function, which has none any more.
CYCLE = re.compile(r"[ \t]*#\[cycle[^\n]*\]\n(?=(?:\s*(?:#\[|///)[^\n]*\n)*\s*(?:pub(?:\([a-z]+\))? )?(?:unsafe )?fn )")
UNFIT = re.compile(r"delete the folder `([^`]+)`")


def bodies(text):
    """Returns the owner, the name, the head and the two braces of each outermost function with a body."""
    plain = functions.LITERALS.sub(lambda it: re.sub(r"[^\n]", " ", it[0]), text)
    found, stack, start, depth = [], [], 0, 0
    for it in re.finditer(r"[{}()\[\];]", plain):
        mark, at = it[0], it.start()
        is_within = any(kind in ("fn", "contract") for kind, *_ in stack)
        if mark in "([":
            depth += 1
        elif mark in ")]":
            depth -= 1
        elif mark == "{":
            head = plain[start:at]
            item = re.search(r"\bfn\s+(\w+)", head) or re.search(r"\b(?:impl|trait|mod)\b.*", head, re.S)
            if is_within:
                stack.append(("in", "", "", at))
            elif functions.CONTRACT.search(head):
                stack.append(("contract", "", "", at))
            else:
                is_function = bool(item) and item[0].startswith("fn")
                stack.append(("fn" if is_function else "item", item[1] if is_function else item[0] if item else "", head, at))
                start = at + 1
            depth = 0
        elif mark == "}" and stack:
            kind, name, head, opened = stack.pop()
            if kind == "fn":
                found.append((" ".join(it[1] for it in stack), name, head, opened, at))
            if kind in ("fn", "item"):
                start = at + 1
        elif mark == ";" and not depth and not is_within:
            start = at + 1
    return found


def folder_of(file, owner, name, homes):
    """Returns the folder of a function's proof below proofs/; none of a method with a body in its trait. `homes` has the file of each type."""
    own = re.fullmatch(r"\s*impl\b(?:<[^>]*>)?\s*(\w+)\b.*", re.sub(r"\bwhere\b.*", "", owner, flags=re.S), re.S)
    if own and " for " not in owner:
        file = homes.get(own[1], file)
    path = re.sub(r"^src/|(/mod)?\.rt$", "", file)
    parts = [] if path in ("lib", "main") else [path]
    head = re.search(r"\b(impl|trait)\b(?!.*\b(?:impl|trait)\b)(.*)", re.sub(r"\bwhere\b.*", "", owner, flags=re.S), re.S)
    if head:
        if head[1] == "trait":
            return None
        of = re.sub(r"'\w+\s*,?", "", head[2])
        if of.lstrip().startswith("<"):
            depths = [of[: at + 1].count("<") - of[: at + 1].count(">") for at in range(len(of))]
            of = of[depths.index(0, of.index("<")) + 1 :]
        made, _, of = re.sub(r"\w+::|&|\bmut\b", "", of).rpartition(" for ")
        if not re.findall(r"\w+", of):
            return None
        # (a drop stands in its type's folder)
        parts.append(re.findall(r"\w+", of)[0] + "".join(it for it in re.findall(r"\w+", made) if it != "Drop"))
    return "/".join([*parts, name])


def stub(crate):
    """Leaves of a crate of the copy its statements alone."""
    for path in glob.glob(f"{crate.folder}/proofs/**/", recursive=True):
        if os.path.basename(path.rstrip("/")).startswith("+") or path.rstrip("/").endswith("/fn"):
            shutil.rmtree(path, ignore_errors=True)
    for path in glob.glob(f"{crate.folder}/proofs/**/*.antt", recursive=True):
        if os.path.basename(path) in ("Invariants.antt", "Answers.antt", "Proof.antt"):
            os.remove(path)
    paths = glob.glob(f"{crate.folder}/src/**/*.rt", recursive=True)
    homes = {name: os.path.relpath(it, crate.folder) for it in paths for name in re.findall(r"\b(?:struct|enum) (\w+)", project.text_of(it))}
    for path in paths:
        text = project.text_of(path)
        found = [it for it in bodies(text) if not re.search(r"\bconst\s+fn\b", it[2])]
        for owner, name, _, opened, closed in sorted(found, key=lambda it: -it[3]):
            text = f"{text[: opened + 1]} unreachable!() {text[closed:]}"
            folder = folder_of(os.path.relpath(path, crate.folder), owner, name, homes)
            if folder:
                os.makedirs(f"{crate.folder}/proofs/{folder}", exist_ok=True)
                with open(f"{crate.folder}/proofs/{folder}/Proof.antt", "w", encoding="utf-8") as it:
                    it.write(HOLE.format(crate=crate.name, path=folder.replace("/", "."), name=name))
        with open(path, "w", encoding="utf-8") as it:
            it.write(CYCLE.sub("", text))


def words(crate, below, built):
    """Returns what the prover is called with for a crate over the libraries of a copy, lowest first, of which it takes the built ones as they are, by their names."""
    kit = project.toolchain().rtlib.KIT
    of_kit = {it for one in [crate, *below] for it in one.of_toolchain} | {"core", "std"}
    found = ["--crate-name", crate.name, "src/main.rt" if crate.is_program else "src/lib.rt"]
    for name in sorted(of_kit):
        found += ["--extern", f"{name}={kit}/rlibs/{name}.rlib"]
    found += ["-L", f"dependency={kit}/rlibs"]
    for it in below:
        if it.name in built:
            folder = f"{it.folder}/out/rlib"
            found += ["--extern", f"{it.name}={folder}/{it.name}.rlib", "-L", f"dependency={folder}"]
        else:
            uses = dict.fromkeys(["core", "std", *it.of_toolchain, *it.libraries])
            found += ["--lib", f"{it.name}:{','.join(uses)}={it.folder}/src/lib.rt"]
    return [*found, "--antt-project", f"{kit}/rattle/logic/antt-project.json", "--logic-built", f"{kit}/logic_built"]


def drop_unfit(check):
    """Takes away the holes that are of no function, as of one whose path is another. `check` returns what the prover says with these flags."""
    for _ in range(4):
        said = check(["--only", ""])
        reserved = [os.path.dirname(it) for it in re.findall(r"^(/\S+/Proof\.antt): error\[reserved-name\]", said, re.M)]
        unfit = {*UNFIT.findall(said), *reserved}
        if not unfit:
            return
        for it in unfit:
            shutil.rmtree(it, ignore_errors=True)
