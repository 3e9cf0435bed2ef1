"""The documents of the repository: whether each link leads somewhere, whether what they name is there, whether each refusal is met,
whether the promised wrong bodies are those that the gate tries, whether the table of crates says what each crate says of itself, and whether
the programs are as many as the pages say.

    faults = documents.faults()

Code blocks are left out. A name in backquotes that is written as one of the sources is (`rules_are_sound`, `StatementSatisfies`,
`rg_words::RefusalNumber`) has to stand in a source of the crates or the scripts, to be a crate, or to stand in an example; a name of one plain
word could be anything and isn't asked. A path in backquotes that begins at a folder of the repository has to be one."""
import glob
import functools
import json
import os
import re

import edits
import project

# The page with the wrong bodies that the gate tries, in a row for each crate, and the heading above them.
PROMISED, PROMISES = "docs/CONTRIBUTING.md", "\n## The promised wrong bodies\n"
# The page with the table of crates.
CRATES = "docs/ARCHITECTURE.md"
# Refusals that no row meets, and why.
NOT_BY_ROWS = {
    63: "a row's output can always be written",
    64: "only a fault of the threads would lead to it",
    65: "only a fault of the threads would lead to it",
    66: "only a caller of the library can ask for it",
    99: "scripts/refuse_memory refuses each call for memory",
}
# The page whose names are those of C functions of the toolchain: its links are looked at, its names aren't.
OF_THE_TOOLCHAIN = "docs/generated/TRUSTED.md"
# Where pages say how many programs there are: a page, the words around the number, and what is counted; what the second of two has is left out.
COUNTS = (
    ("README.md", r"GALLERY\.md\): ([\w-]+) programs", "examples/outlines/*.rgo", None),
    ("README.md", r"examples/README\.md\): ([\w-]+) with", "examples/*/outline.rgo", None),
    ("docs/TUTORIAL.md", r"GALLERY\.md\) has ([\w-]+) programs", "examples/outlines/*.rgo", None),
    ("docs/GALLERY.md", r"\n([\w-]+) programs that `rgc verify` proves", "examples/outlines/*.rgo", None),
    ("docs/GALLERY.md", r"All but ([\w-]+) of them have a twin", "examples/outlines/*.rgo", "examples/outlines/broken/*.rgo"),
    ("docs/GALLERY.md", r"([\w-]+) more programs", "examples/*/outline.rgo", None),
    ("examples/README.md", r"The ([\w-]+) folders of the table", "examples/*/outline.rgo", None),
)
ONES = "no one two three four five six seven eight nine ten eleven twelve thirteen fourteen fifteen sixteen seventeen eighteen nineteen".split()
TENS = "twenty thirty forty fifty sixty seventy eighty ninety".split()
# Names of other languages that stand on the pages.
ELSEWHERE = {"fetch_add", "memory_order_seq_cst"}
LINK = re.compile(r"\[[^\]\[]*\]\(([^()\s]+)\)")
SPAN = re.compile(r"`([^`\n]+)`")
NAME = re.compile(r"[a-z][a-z0-9]*(_[a-z][a-z0-9]*)+|([A-Z][a-z0-9]+){2,}|\w+(::\w+)+")
PATH = re.compile(r"(crates|docs|examples|scripts|share)/[\w./-]*\w")


def pages():
    """The paths of all documents, from the root of the repository."""
    where = ("*.md", "docs/*.md", "docs/generated/*.md", "examples/**/*.md")
    return sorted(it for at in where for it in glob.glob(at, root_dir=project.ROOT, recursive=True))


@functools.lru_cache(maxsize=None)
def plain(page):
    """The lines of a page, with those of its code blocks empty."""
    lines, inside = [], False
    for line in project.text_of(f"{project.ROOT}/{page}").split("\n"):
        fence = line.startswith("```")
        lines.append("" if fence or inside else line)
        inside ^= fence
    return lines


@functools.lru_cache(maxsize=None)
def anchors(page):
    """The anchors of a page's headings, as a browser of repositories makes them."""
    found = {}
    for line in plain(page):
        head = re.match(r"#+ +(.*)", line)
        if head:
            text = re.sub(r"\[([^\]]*)\]\([^)]*\)", r"\1", head[1]).strip().lower()
            name = re.sub(r"[^\w\- ]", "", text).replace(" ", "-")
            found[name] = found.get(name, -1) + 1
    return {name if k == 0 else f"{name}-{k}" for name, count in found.items() for k in range(count + 1)}


def fault_of_link(page, target):
    """Why a link of a page leads nowhere, or None."""
    if re.match(r"https?:|mailto:", target):
        return None
    path, _, anchor = target.partition("#")
    to = os.path.normpath(os.path.join(os.path.dirname(page), path)) if path else page
    if to.startswith("..") or not os.path.exists(f"{project.ROOT}/{to}"):
        return f"the link {target} leads nowhere"
    lines = re.fullmatch(r"L(\d+)(?:-L(\d+))?", anchor)
    if lines and int(lines[2] or lines[1]) > len(project.text_of(f"{project.ROOT}/{to}").splitlines()):
        return f"the link {target} leads past the file's end"
    if anchor and not lines and (not to.endswith(".md") or anchor not in anchors(to)):
        return f"the link {target} leads to no heading"
    return None


@functools.lru_cache(maxsize=None)
def identifiers():
    """All names that stand in sources of the crates and the scripts, and in the examples, and those of these files."""
    found = {it.name for it in project.crates()} | {*os.listdir(f"{project.ROOT}/examples")} | ELSEWHERE
    found |= {os.path.basename(file).removesuffix(".edit") for it in project.crates() for file in edits.files_of(it)}
    files = [path for it in project.crates() for path in project.files_of(it)]
    for folder in ("scripts", "examples"):
        files += [f"{at}/{name}" for at, _, names in os.walk(f"{project.ROOT}/{folder}") for name in names if not name.endswith((".md", ".svg", ".lrat"))]
    for path in files:
        found |= {os.path.basename(path).split(".")[0], *re.findall(r"\w+", project.text_of(path))}
    return found


@functools.lru_cache(maxsize=None)
def items(crate):
    """The names of what the sources of a crate declare or hand on."""
    text = "\n".join(project.text_of(it) for it in project.files_of(project.named([crate])[0], ("src",)))
    handed_on = re.findall(r"\bpub use ([^;]+);", text)
    return {*re.findall(r"\b(?:fn|mod|const|static|trait|struct|enum|type)\s+(\w+)", text), *re.findall(r"\w+", " ".join(handed_on))}


def fault_of_name(page, name):
    """Why a name in backquotes is none, or None."""
    if PATH.fullmatch(name):
        return None if os.path.exists(f"{project.ROOT}/{name}") or "NAME" in name else f"there is no {name}"
    if not NAME.fullmatch(name):
        return None
    crate, _, rest = name.partition("::")
    if rest and crate in {it.name for it in project.crates()} and rest.split("::")[0] not in items(crate):
        return f"{crate} declares no {rest}"
    own = project.text_of(f"{project.ROOT}/{page}")
    blocks = "\n".join(own.split("```")[1::2])
    missing = [it for it in name.split("::") if it not in identifiers() and not re.search(rf"\b{it}\b", blocks)]
    return f"{name}: no source has {missing[0]}" if missing else None


def faults_of(page):
    """What is wrong with the links and names of a page, each with its line."""
    for number, line in enumerate(plain(page), 1):
        bare = SPAN.sub("", line)
        for fault in (fault_of_link(page, it) for it in LINK.findall(bare)):
            if fault:
                yield f"{page} line {number}: {fault}"
        for fault in (fault_of_name(page, it) for it in SPAN.findall(line) if page != OF_THE_TOOLCHAIN):
            if fault:
                yield f"{page} line {number}: {fault}"


def faults_of_refusals():
    """The refusals that no row meets, or that rows meet though they can't, and those that the page of refusals hasn't."""
    page = {int(it) for it in re.findall(r"^\| (\d+) \|", project.text_of(f"{project.ROOT}/docs/REFUSALS.md"), re.M)}
    met = set()
    for path in glob.glob(f"{project.ROOT}/rows/*.json"):
        met |= {int(it) for it in re.findall(r"\brefused (\d+)\b", json.dumps(json.loads(project.text_of(path))))}
    for number in sorted(page | met):
        if number not in page:
            yield f"docs/REFUSALS.md: rows meet {number}, which has no entry"
        elif number not in met and number not in NOT_BY_ROWS:
            yield f"docs/REFUSALS.md: no row meets {number}"


def faults_of_promises():
    """The wrong bodies that the gate tries and that the page hasn't in the row of their crate, and those that it has and the gate doesn't try."""
    rows = re.findall(r"^\| `(\w+)` \| (.*) \|$", project.text_of(f"{project.ROOT}/{PROMISED}").partition(PROMISES)[2], re.M)
    named = {(crate, it) for crate, row in rows for it in SPAN.findall(row)}
    tried = {(it.name, os.path.basename(file).removesuffix(".edit")) for it in project.crates() for file in edits.files_of(it, ("must-fail",))}
    for crate, name in sorted(named ^ tried):
        yield f"{PROMISED}: {crate}/{name} {'is not named' if (crate, name) in tried else 'is not tried by the gate'}"


def description(crate):
    """What a crate says of itself: the first paragraph of its root's comment."""
    roots = [it for it in project.files_of(crate, ("src",)) if it.endswith(("/src/lib.rt", "/src/main.rt"))]
    found = re.match(r"(//! .+\n)+", project.text_of(roots[0]))
    return " ".join(it.removeprefix("//! ") for it in found[0].splitlines()) if found else ""


def faults_of_crates():
    """The crates whose row in the table isn't what they say of themselves, and rows out of the order of crates.txt."""
    rows = dict(re.findall(r"^\| `(rgc?(?:_\w+)?)` \| (.*) \|$", project.text_of(f"{project.ROOT}/{CRATES}"), re.M))
    known = [it.name for it in project.crates()]
    for crate in project.crates():
        if rows.get(crate.name) != description(crate):
            yield f"{CRATES}: the row of {crate.name} is not: {description(crate)}"
    if [*rows] != known and {*rows} == {*known}:
        yield f"{CRATES}: the rows don't stand in the order of crates.txt"


def in_words(number):
    """A number below 100 in words."""
    ten, one = divmod(number, 10)
    return ONES[number] if number < len(ONES) else TENS[ten - 2] + (f"-{ONES[one]}" if one else "")


def faults_of_counts():
    """The pages that don't say how many programs there are, or say another number."""
    names = lambda them: {os.path.relpath(it, them.partition("*")[0]) for it in glob.glob(them, root_dir=project.ROOT)} if them else set()
    for page, around, counted, without in COUNTS:
        found = re.search(around, project.text_of(f"{project.ROOT}/{page}"))
        number = in_words(len(names(counted) - names(without)))
        if not found or found[1].lower() != number:
            yield f"{page}: {number} is the count of {counted}{f' without a twin in {without}' if without else ''}, and not {found and found[1]}"


def faults():
    """What is wrong with all documents."""
    return [it for page in pages() for it in faults_of(page)] + [*faults_of_refusals(), *faults_of_promises(), *faults_of_crates(), *faults_of_counts()]
