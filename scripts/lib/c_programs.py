"""The programs that scripts/c_agrees tries, and all that it knows of one: the listing, the header, the starts.

    for source in c_programs.sources(300):
        for case in c_programs.cases(source, program, room):"""
import dataclasses
import json
import os
import random
import re
import subprocess
from pathlib import Path

import headers
import listing
import random_programs

TOP = Path(__file__).resolve().parent.parent.parent
# The prefix of what the headers declare, and that of a second header beside the first one.
NAME, SECOND = "rg", "Rg"
FILES = ("text", "derivation", "proofs")
LIMIT = 1200


@dataclasses.dataclass(frozen=True)
class Source:
    """Where a program comes from: a folder of examples/ (`text`), an outline (`outline`), or a seed (`seed`)."""

    name: str
    kind: str
    of: str


def sources(seeds):
    """The programs of examples/, of examples/outlines and of scripts/c_agrees.d, and those of the seeds below a number."""
    folders = sorted(it.parent for it in (TOP / "examples").glob("*/derivation.rgd"))
    found = [Source(f"text {it.name}", "text", str(it)) for it in folders]
    outlines = [(it.parent.name, it) for it in sorted((TOP / "examples").glob("*/outline.rgo"))]
    outlines += [(f"lock {it}", TOP / "examples/outlines/lock" / f"{it}.rgo") for it in ("counter", "pair")]
    outlines += [(it.stem, it) for folder in ("examples/outlines", "scripts/c_agrees.d") for it in sorted((TOP / folder).glob("*.rgo"))]
    found += [Source(f"outline {name}", "outline", str(path)) for name, path in outlines]
    return found + [Source(f"seed {it}", "seed", str(it)) for it in range(seeds)]


class Case:
    """A program that is tried. Words are numbered as in the listing; those of `erased` have no member in the header, and are 0 in each state."""

    def __init__(self, name, room, header, code, seed):
        self.name, self.room, self.header, self.seed = name, room, header, seed
        self.kept = sorted(header.members)
        self.erased = {*range(len(code["words"]))} - {*self.kept}
        self.code = listing.without(code, self.erased)
        blocks = [it["blocks"] for it in self.code["parts"]]
        self.parts = [[listing.quick(block) for block in it] for it in blocks]
        self.ends = [len(it) - 1 for it in blocks]
        self.count = sum(self.ends)
        self.numbers = sorted({0, 1, *map(int, re.findall(r'"num (\d+)"', json.dumps(self.code)))})
        self.over = " ".join("-1" for _ in blocks) + " "
        self.starts, self.formulas, self.known, self.words = [], (None, None), {}, []

    def spelled(self, state):
        """The values of the words that the header has."""
        return " ".join(str(int(state[it])) for it in self.kept)

    def kept_names(self):
        return [self.code["words"][it][0] for it in self.kept]

    def named(self, state):
        return " ".join(f"{self.code['words'][it][0]}={int(state[it])}" for it in self.kept)

    def reachable(self, start, most):
        """The states that can be reached from the start, as lines: the places, -1 for the end, and the words. With them None, or, where there are more
        than `most`, in how many steps."""
        if start not in self.known:
            found, steps = listing.reachable(self.parts, start, most)
            place = lambda places: " ".join(str(-1 if it == end else it) for it, end in zip(places, self.ends))
            self.known[start] = {f"{place(places)} {self.spelled(state)}" for places, state in found}, steps
        return self.known[start]


def run(program, *words):
    done = subprocess.run([program, *words], capture_output=True, text=True, check=False, timeout=LIMIT)
    headers.demand(done.returncode == 0, f"{words[0]} answers {done.returncode}: {(done.stderr or done.stdout).strip()[-400:]}")
    return done.stdout


def write(path, text):
    os.makedirs(os.path.dirname(path), exist_ok=True)
    Path(path).write_text(text, encoding="ascii")
    return path


def prove(program, room, text, derivation, proofs=None):
    """Writes a text and a derivation with their proofs, which are looked for where they aren't given, and returns the paths of all three."""
    paths = [write(f"{room}/{name}", it) for name, it in zip(FILES, (text, derivation))]
    return [*paths, write(f"{room}/{FILES[2]}", proofs or run(program, "prove", *paths))]


def files_of(source, program, room):
    """The paths of a program's text, derivation and proofs."""
    if source.kind == "seed":
        made = random_programs.AllOperators(random.Random(int(source.of)))
        return prove(program, room, made.text, made.derivation)
    if source.kind == "text":
        paths = [Path(source.of, it) for it in ("text.rg", "derivation.rgd", "proofs.lrat")]
        return prove(program, room, *(it.read_text(encoding="ascii") for it in paths if it.is_file()))
    files = [f"{room}/{it}" for it in FILES]
    run(program, "outline", source.of, *(it for name, file in zip(FILES, files) for it in (f"--{name}", file)))
    return files


def auxiliary(outline, code):
    """The words of a text that its outline marks as auxiliary; those of a family have numbers after its name."""
    text = Path(outline).read_text(encoding="ascii")
    used = [Path(outline).with_name(it).read_text(encoding="ascii") for it in re.findall(r'^use "(.*)"', text, re.M)]
    bare = re.sub(r"#[^\n]*", "", "".join([*used, text]))
    marked = re.findall(r"\baux\s+(\w+)\s*([:\[])", bare)
    forms = [re.escape(name) + (r"(_\d+)+" if sign == "[" else "") for name, sign in marked]
    return [word[0] for word in code["words"] if any(re.fullmatch(it, word[0]) for it in forms)]


def may_erase(code, rng):
    """The names of some words that nothing but themselves depends on, and not of all."""
    blocks = [it for part in code["parts"] for it in part["blocks"]]
    words = lambda operations: {int(it.split()[1]) for it in operations if it.startswith("word ")}
    needed = {rng.randrange(len(code["words"]))}
    for it in blocks:
        needed |= words(it[3] if it[0] == "await" else it[4] if it[0] == "test" else [])
    stores = [store for it in blocks if it[0] in ("do", "await") for store in it[-1]]
    for _ in code["words"]:
        needed |= {it for word, operations in stores if word in needed for it in words(operations)}
    return [word[0] for number, word in enumerate(code["words"]) if number not in needed]


def asked(test, erased):
    """A function that says whether the test of a block holds of a state, or None where it speaks of a word that is left out."""
    step = listing.quick(test)
    return None if {f"word {it}" for it in erased} & {*test[4]} else lambda state: step(state)[0] == test[2]


def formulas(program, room, text, erased):
    """Functions that say whether pre and post hold of a state; None for one that speaks of a word that is left out."""
    bare = re.sub(r"#[^\n]*", "", text)
    found = re.match(r"\s*words\b(.*?)\bpre\b(.*?)\brely\b.*?\bpost\b(.*?)\bpart\b", bare, re.S)
    files = prove(program, f"{room}/formulas", *random_programs.asking(found[1], found.groups()[1:]))
    blocks = json.loads(run(program, "emit", *files))["parts"][0]["blocks"]
    return tuple(asked(it, erased) for it in blocks if it[0] == "test")


def starts_of(case, source, rng):
    """The starts of a program's runs: the one that its header gives, that of its folder, or, of a generated one, some at random."""
    words = case.code["words"]
    found = [tuple(case.header.start.get(it, 0) for it in range(len(words)))] if case.header.start else []
    file = Path(source.of, "start.rgs") if source.kind == "text" else Path(source.of).with_name("start.rgs")
    if source.kind != "seed" and file.is_file():
        given = dict(re.findall(r"(\w+)\s*=\s*(\d+)", re.sub(r"#[^\n]*", "", file.read_text(encoding="ascii"))))
        found.append(tuple(0 if number in case.erased else int(given.get(it[0], 0)) for number, it in enumerate(words)))
    if source.kind == "seed":
        found.append(tuple(0 if number in case.erased else rng.choice([0, 1, (1 << it[1]) - 1]) for number, it in enumerate(words)))
    return [*dict.fromkeys(found)]


def published(case):
    """The words that one part alone writes, and the outside world doesn't: the part's number, and the member."""
    writers = {}
    for number, part in enumerate(case.code["parts"]):
        for block in part["blocks"]:
            for word, operations in block[-1] if block[0] in ("do", "await") else []:
                if operations != [f"word {word}"]:
                    writers.setdefault(word, set()).add(number)
    alone = {word: min(it) for word, it in writers.items() if len(it) == 1}
    return [(part, case.header.members[word]) for word, part in alone.items() if case.header.members.get(word, "") not in {"", *case.header.moved}]


def write_program(case):
    """Writes the file that names the words and parts for C."""
    parts = [it["name"] for it in case.code["parts"]]
    each = lambda what, names: f"#define EACH_{what}({what}) " + " ".join(f"{what}({number}, {name})" for number, name in enumerate(names))
    rows = [f"#define PARTS {len(parts)}", f"#define WORDS {len(case.kept)}", each("PART", parts)]
    rows += [each("WORD", (case.header.members[it] for it in case.kept)), each("ROUND", case.header.rounds), each("SECOND", parts)]
    rows.append("#define EACH_PUBLISHED(PUBLISHED) " + " ".join(f"PUBLISHED({part}, {member})" for part, member in published(case)))
    write(f"{case.room}/program.h", "\n".join(rows) + "\n")


def case_of(name, room, program, words, code, rng):
    """A program with its headers, which stand in the room. The words ask for them."""
    plain, traced = run(program, *words, "--name", NAME), run(program, *words, "--name", NAME, "--trace")
    headers.demand(headers.without_trace(traced) == plain, "with --trace another text is printed")
    write(f"{room}/plain/{NAME}.h", plain)
    write(f"{room}/plain/{SECOND}.h", run(program, *words, "--name", SECOND))
    write(f"{room}/traced/{NAME}.h", traced)
    case = Case(name, room, headers.read(plain, NAME, code), code, rng.randrange(1 << 30))
    case.words = [program, *words]
    return case


def ways(source, code, rng):
    """What is left out of the C, and what it is called: of an outline its auxiliary words, and then none; of a generated program some."""
    aux = auxiliary(source.of, code) if source.kind == "outline" else may_erase(code, rng) if source.kind == "seed" and rng.random() < 0.5 else []
    erased = [(source.name, ["--erase", ",".join(aux)])] if aux else []
    return erased + ([] if aux and source.kind == "seed" else [(f"{source.name}, all words" if aux else source.name, [])])


def check_outline(case, program, words):
    """Sees that the C of an outline is that of the files that stand for it, besides the comments, what stands for a `skip`, and the functions for uses of named
    statements, unless its assertions keep parts apart at a word."""
    bare = lambda text: [it for it in re.sub(r"/\*.*?\*/|\bRGC_SKIP\(\d+\);", "", text, flags=re.S).split("\n") if it.strip()]
    is_same = bare(run(program, *words, "--name", NAME)) == bare(headers.without_operations(case.header.text, NAME))
    headers.demand(is_same or "apart" in case.header.kinds.values(), "emit --outline prints other C than emit of its text")


def cases(source, program, room):
    """A program in each way in which its C is asked for. Of a generated one there is none where no C does its steps."""
    files, rng = files_of(source, program, room), random.Random(source.of)
    code, c = json.loads(run(program, "emit", *files)), ["--format", "c"]
    for number, (name, erase) in enumerate(ways(source, code, rng)):
        of_files = ["emit", *files, *erase, *c]
        words = ["emit", "--outline", source.of, *([] if erase else ["--keep-aux"]), *c] if source.kind == "outline" else of_files
        if source.kind == "seed" and subprocess.run([program, *words], capture_output=True, check=False, timeout=LIMIT).returncode == 1:
            return
        case = case_of(name, f"{room}/{number}", program, words, code, rng)
        if source.kind == "outline":
            check_outline(case, program, of_files)
        case.starts = starts_of(case, source, rng)
        case.formulas = formulas(program, case.room, Path(files[0]).read_text(encoding="ascii"), case.erased)
        write_program(case)
        yield case
