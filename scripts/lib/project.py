"""What the scripts of this folder share: the crates of the repository, copies of them, and the toolchain.

A script begins with

    sys.dont_write_bytecode = True
    sys.path.insert(0, os.path.join(os.path.dirname(os.path.realpath(__file__)), "lib"))
    import project

The repository is only read here, but for tables of measures. Whatever is proved or changed is proved or changed in a copy, in a temporary folder that
goes when the script ends, also where it is killed or fails."""

import contextlib
import dataclasses
import functools
import hashlib
import importlib.machinery
import importlib.util
import io
import os
import re
import shutil
import signal
import subprocess
import sys
import tarfile
import tempfile
import threading

ROOT = os.path.dirname(os.path.dirname(os.path.dirname(os.path.realpath(__file__))))
# The folders of a crate that a proof reads.
PARTS = ("src", "specs", "proofs")
# The crate of the program, and the folder of what is built of it.
PROGRAM = "rgc_main"
OUT = f"{ROOT}/crates/{PROGRAM}/out"


def stop(why):
    """Ends the script with status 2, which says that it judged nothing."""
    print(f"{os.path.basename(sys.argv[0])}: {why}", file=sys.stderr)
    sys.exit(2)


# The crates


@dataclasses.dataclass(frozen=True)
class Crate:
    """A crate as crates.txt lists it: its libraries that this repository holds, and those of the toolchain."""

    name: str
    libraries: tuple
    of_toolchain: tuple
    root: str = ROOT

    @property
    def folder(self):
        return f"{self.root}/crates/{self.name}"

    @property
    def is_program(self):
        return os.path.isfile(f"{self.folder}/src/main.rt")

    @property
    def has_tests(self):
        return any(re.search(r"#\s*\[[^]]*\btest\b", text_of(it)) for it in files_of(self, ("src",)) if it.endswith(".rt"))


def text_of(path):
    """Returns the text of a file, where bytes that are no text are replaced."""
    with open(path, encoding="utf-8", errors="replace") as it:
        return it.read()


@functools.lru_cache(maxsize=None)
def crates(root=ROOT):
    """Returns the crates of crates.txt in its order, which is lowest first."""
    rows = [it.partition("#")[0].strip() for it in text_of(f"{root}/crates.txt").split("\n")]
    heads = [(it.partition(":")[0].split()[0], it.partition(":")[2].split()) for it in rows if it]
    names = {name for name, _ in heads}
    found = []
    for name, used in heads:
        own = tuple(it for it in used if it in names)
        found.append(Crate(name, own, tuple(it for it in used if it not in names), root))
    return tuple(found)


def named(names, root=ROOT):
    """Returns the crates of these names in the order of crates.txt, all crates where there is no name. An unknown name stops the script."""
    known = crates(root)
    unknown = sorted({*names} - {it.name for it in known})
    if unknown:
        stop(f"crates.txt names no crate {unknown[0]}: it names {', '.join(it.name for it in known)}")
    return [it for it in known if not names or it.name in names]


def below(of, root=ROOT):
    """Returns the libraries of this repository that the crates stand on, lowest first, without the crates themselves unless one stands on another."""
    by_name = {it.name: it for it in crates(root)}
    found, left = set(), [name for it in of for name in it.libraries]
    while left:
        name = left.pop()
        if name not in found:
            found.add(name)
            left += by_name[name].libraries
    return [it for it in crates(root) if it.name in found]


def above(of, root=ROOT):
    """Returns the crates that stand on any of these, directly or not, lowest first."""
    names = {it.name for it in of}
    return [it for it in crates(root) if names & {lower.name for lower in below([it], root)}]


def files_of(crate, parts=PARTS):
    """Returns the paths of the files in these folders of a crate, sorted."""
    found = []
    for part in parts:
        for at, _, names in os.walk(f"{crate.folder}/{part}"):
            found += [f"{at}/{name}" for name in names]
    return sorted(found)


def tree_of(commit, folder, parts=PARTS):
    """Writes to a folder crates.txt and the sources of a commit in these folders of its crates. An unknown commit stops the script."""
    words = ["git", "--no-optional-locks", "archive", "--format=tar", commit, "--", "crates.txt", "crates"]
    ran = subprocess.run(words, cwd=ROOT, stdout=subprocess.PIPE, stderr=subprocess.DEVNULL)
    if ran.returncode:
        stop(f"there is no commit {commit}")
    with tarfile.open(fileobj=io.BytesIO(ran.stdout)) as it:
        pattern = re.compile(rf"crates\.txt|crates/\w+/(?:{'|'.join(parts)})/.*\.(?:rt|antt)")
        it.extractall(folder, members=[one for one in it.getmembers() if pattern.fullmatch(one.name) and one.isfile()])


def sum_of(parts, more=()):
    """Returns a checksum of all that the program is made from: the toolchain, the crates with what each stands on, the files in these
    folders of each, and these further files."""
    found = hashlib.sha256()
    for path in (f"{toolchain().rtlib.KIT}/KIT-ID", f"{toolchain().rtlib.KIT}/WHAT", *more):
        with open(path, "rb") as it:
            found.update(it.read())
    for crate in [*below(named([PROGRAM])), *named([PROGRAM])]:
        found.update(repr((crate.name, crate.libraries, crate.of_toolchain)).encode())
        for path in files_of(crate, parts):
            with open(path, "rb") as it:
                found.update(repr((os.path.relpath(path, ROOT), it.read())).encode())
    return found.hexdigest()


@functools.lru_cache(maxsize=None)
def program():
    """Returns the path of the program that ./rgc runs, which it makes first where none is up to date. A line on
    standard error reports where it is unproved."""
    ran = subprocess.run([f"{ROOT}/rgc", "--version"], stdin=subprocess.DEVNULL, stdout=subprocess.PIPE, text=True)
    if ran.returncode:
        stop("there is no program")
    return f"{OUT}/unproved/rgc" if "unproved" in ran.stdout else f"{OUT}/{PROGRAM}"


# Copies


@contextlib.contextmanager
def temporary(prefix="project-"):
    """Gives a temporary folder that goes at the end. A signal that ends the script ends it as an error does, so that the folder goes then too."""
    for it in (signal.SIGTERM, signal.SIGHUP):
        signal.signal(it, lambda number, _: sys.exit(128 + number))
    folder = tempfile.mkdtemp(prefix=prefix)
    try:
        yield folder
    finally:
        shutil.rmtree(folder, ignore_errors=True)


def copy(of, to, kept=(), whole=False):
    """Makes at `to` a small repository of these crates and of all that they stand on: their folders, their rows of crates.txt, and HANDLES.

    `kept` names what of each crate's out/ is copied too: "incremental", the checked modules that the next check takes up, and
    "rlib", the built library that is used where it is up to date. The copy's libraries are up to date where the repository's are.
    With `whole`, all files of a crate's folder but out/ are copied (its data, its edits), else those alone that a proof reads.
    Returns the crates of the copy, lowest first."""
    root = of[0].root
    names = {it.name for it in [*of, *below(of, root)]}
    taken = [it for it in crates(root) if it.name in names]
    os.makedirs(f"{to}/crates")
    with open(f"{to}/crates.txt", "w", encoding="utf-8") as it:
        # (as they stand, since what `rt ci` keeps of a crate rests on the order of its row too)
        rows = [row for row in text_of(f"{root}/crates.txt").split("\n") if row.partition(":")[0] in names]
        it.write("".join(f"{row}\n" for row in rows))
    if os.path.isfile(f"{root}/HANDLES"):
        shutil.copyfile(f"{root}/HANDLES", f"{to}/HANDLES")
    for crate in taken:
        for part in PARTS if not whole else [it for it in os.listdir(crate.folder) if it != "out"]:
            path, copied = f"{crate.folder}/{part}", f"{to}/crates/{crate.name}/{part}"
            if os.path.isdir(path):
                shutil.copytree(path, copied, symlinks=True)
            elif os.path.isfile(path):
                os.makedirs(os.path.dirname(copied), exist_ok=True)
                shutil.copy2(path, copied)
        for part in kept:
            copy_kept(crate, to, part)
    return list(crates(to))


def copy_kept(crate, to, part):
    """Copies what the crate keeps in out/, "incremental" or "rlib", to its folder of the copy at `to`. Returns whether there is a copy.

    It does not wait for an rt that works there. Checked modules that go meanwhile are left out. A library that goes is not copied."""
    path, copied = f"{crate.folder}/out/{part}", f"{to}/crates/{crate.name}/out/{part}"
    names = listing(path)
    # (no one writes into a built library: another takes its place. So it is not copied byte for byte)
    take = linked if part == "rlib" else shutil.copy2
    for name in names:
        os.makedirs(os.path.dirname(f"{copied}/{name}"), exist_ok=True)
        with contextlib.suppress(FileNotFoundError):
            take(f"{path}/{name}", f"{copied}/{name}")
    if part == "rlib" and not names == listing(copied) == listing(path):
        shutil.rmtree(copied, ignore_errors=True)
    return os.path.isdir(copied)


class GateStore:
    """The libraries that `rt ci` keeps on this machine, by all that each was proved from: for the copy of a repository in a folder. Where
    it keeps none, as in some toolchains, those that are built in this repository and up to date.

    It calls what `rt ci` itself calls, so another toolchain can need a change here."""

    def __init__(self, folder):
        rt = toolchain()
        plain, rt.Crate.cuts_libraries, rt.Crate.allowed = rt.rtlib.Crate, True, rt.handles_of(folder)
        rt.rtlib.Crate = rt.Crate
        try:
            self.of = {it.name: it for it in rt.rtlib.crates_below(folder)}
        finally:
            rt.rtlib.Crate = plain
        self.folder, self.taken = folder, set()
        self.store = rt.Kept([*self.of.values()]) if hasattr(rt, "Kept") else None

    def take(self, name):
        """Puts the library of this name into its crate's out/, where it is kept and each library below was taken before. Returns whether it did."""
        crate = self.of[name]
        # (a library that stands there already would be taken for a damaged one, and what is kept of it be removed)
        shutil.rmtree(f"{crate.folder}/out/rlib", ignore_errors=True)
        if not {it.name for it in crate.below()} <= self.taken or not self.give(crate):
            return False
        self.taken.add(name)
        return True

    def give(self, crate):
        """Puts a library into its crate's out/, with the stamp by which other commands take it. Returns whether it was there."""
        if not self.store:
            return copy_kept(named([crate.name])[0], self.folder, "rlib") and crate.is_built()
        if not self.store.give(crate, False, self.store.key(crate)):
            return False
        self.store.is_built(crate)
        with open(f"{crate.folder}/out/rlib/stamp", "w", encoding="utf-8") as it:
            it.write(crate.stamp())
        return True


def put_measures(page, script, lines):
    """Puts these lines between the marks of what a script measures, on a page of docs/."""
    path, begin = f"{ROOT}/docs/{page}", f"<!-- measured by {script} -->"
    rows = text_of(path).split("\n")
    start = rows.index(begin) + 1
    rows[start : rows.index("<!-- end of the measures -->", start)] = lines
    with open(path, "w", encoding="utf-8") as it:
        it.write("\n".join(rows))


def is_unproved(program):
    """Whether a program was compiled without its proof, and has run-time checks."""
    return "unproved" in subprocess.run([program, "--version"], capture_output=True, text=True, check=True).stdout


def listing(folder):
    """Returns the paths of all files below a folder, sorted."""
    return sorted(os.path.relpath(f"{at}/{name}", folder) for at, _, names in os.walk(folder) for name in names)


def add_crate(name, libraries, sources, to):
    """Adds to the copy at `to` a crate over these libraries, with the files of a folder that end in .txt, each without that ending.
    (They have it since the gate takes each .rt and .antt file for a crate's.) Returns the crate's folder."""
    with open(f"{to}/crates.txt", "a", encoding="utf-8") as it:
        it.write(f"{name}: {libraries}\n")
    for at, _, files in os.walk(sources):
        for file in files:
            path = os.path.join(f"{to}/crates/{name}", os.path.relpath(at, sources), file)
            if file.endswith(".txt"):
                os.makedirs(os.path.dirname(path), exist_ok=True)
                shutil.copyfile(f"{at}/{file}", path[: -len(".txt")])
    return f"{to}/crates/{name}"


def linked(path, to):
    """Gives a file a second name, or copies it where that can't be."""
    try:
        os.link(path, to)
    except OSError:
        shutil.copy2(path, to)
    return to


# The toolchain and the machine


@functools.lru_cache(maxsize=None)
def toolchain():
    """Returns the Python module of the command rt on the PATH. Its `rtlib` says how the prover is called; another toolchain can need a change where this is used."""
    found = shutil.which("rt") or stop("there is no rt on the PATH")
    loader = importlib.machinery.SourceFileLoader("rt", os.path.realpath(found))
    made = importlib.util.module_from_spec(importlib.util.spec_from_loader("rt", loader))
    loader.exec_module(made)
    each_library_once(made.rtlib.Crate)
    return made


# What the stamp that a thread asks for has found so far, by library.
stamping = threading.local()


def each_library_once(of):
    """Has a crate's stamp, the sum of all that it is made from, ask each library below it once. The toolchain's own asks a library once for each
    way down to it, of which there are tens of thousands below `rgc_commands`. A stamp that is asked for reads all files anew, as before."""
    plain = of.stamp

    def stamp(crate):
        known = getattr(stamping, "known", None)
        if known is None:
            stamping.known = {}
            try:
                return plain(crate)
            finally:
                stamping.known = None
        if crate.name not in known:
            known[crate.name] = plain(crate)
        return known[crate.name]

    of.stamp = stamp


started, starting = set(), threading.Lock()


def run(words, folder):
    """Runs a command, which ends where this script ends, however that is. Returns its status, and what it wrote to both of its outputs.
    Threads may call this side by side once the main thread has called toolchain().rtlib.guarded()."""
    how = {"stdin": subprocess.DEVNULL, "stdout": subprocess.PIPE, "stderr": subprocess.STDOUT, "errors": "replace"}
    with starting:
        ran = subprocess.Popen([*toolchain().rtlib.guarded(), *words], cwd=folder, **how)
        started.add(ran)
    with ran:
        said = ran.communicate()[0]
    started.discard(ran)
    return ran.returncode, said


def end_all():
    """Kills all commands that run() has started and that still run, with all that they started. No further one can start."""
    starting.acquire()
    for ran in [*started]:
        with contextlib.suppress(ProcessLookupError):
            # (the toolchain gives its commands one group of their own, in their first moments)
            group = os.getpgid(ran.pid)
            if group != os.getpgrp():
                os.killpg(group, signal.SIGKILL)
            ran.kill()


def processors():
    """Returns how many processors there are to use."""
    return toolchain().processors()


def free_memory():
    """Returns the free memory in bytes."""
    return toolchain().free()


def commit(of, root=ROOT):
    """Returns the short name of the commit that the repository stands at, with + after it where a file of these crates, or of what they stand on, differs from it. Returns - where there is none."""
    if not shutil.which("git"):
        return "-"
    git = ["git", "--no-optional-locks"]
    at = subprocess.run([*git, "rev-parse", "--short=9", "HEAD"], cwd=root, capture_output=True, text=True)
    if at.returncode:
        return "-"
    paths = [f"crates/{it.name}" for it in [*of, *below(of, root)]]
    changed = subprocess.run([*git, "status", "--porcelain", "--", *paths], cwd=root, capture_output=True, text=True)
    return at.stdout.strip() + "+" * bool(changed.stdout.strip())
