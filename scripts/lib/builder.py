"""Proves and builds libraries of this repository side by side, into the out/ folders in which the toolchain's commands look.

A library is built as `rt ci` builds it, with what crates above can cite and without its checked modules, and marked as `rt lib` marks
one, so that `rt` takes what is built here without proving it again. With `keeps` it is built by the call that `rt lib` makes, which
keeps the checked modules: that takes longer, the higher a crate the more, and a later build checks only what an edit changed. `rt lib`
alone would not do: it locks the libraries below too, so that two crates over one library wait for each other. Here one lock covers all.

The crate with the longest chain of others above it comes first, with as many jobs as there are processors; the next one gets fewer,
and the others, which fill what is idle, fewer still and much patience. Only as many crates run as memory holds."""

import collections
import concurrent.futures
import contextlib
import fcntl
import functools
import math
import os
import re
import shutil
import signal
import sys
import time
import traceback

import project

# The page that has the seconds of each crate at one job, as a table whose rows begin "| `NAME` | SECONDS |".
SECONDS = f"{project.ROOT}/docs/CONTRIBUTING.md"
# How long a build of everything takes on four processors, in minutes.
MINUTES = 60
# More jobs of one crate bring little.
MOST_JOBS = 8
# After so many seconds without news a line says which crates are worked on.
SILENCE = 60
# For the crate with the longest chain, the next one and all others: the part of the processors that it gets jobs for, and how far it
# gives way to those before it. A crate's jobs are often idle, so they may be more than the processors.
SHARES, NICE = (1, 1, 0.5), (0, 3, 8)
# The memory that one job of a crate takes, in parts of the toolchain's own measure, where checked modules aren't kept and where they
# are; and what each further job takes, in bytes.
ONE_JOB, ONE_KEEPING_JOB, FURTHER_JOB = 1, 0.5, 800_000_000
# The part of the free memory that may be planned with.
PLANNED = 0.9


class Failed(Exception):
    """A crate that wasn't built, and the file that has what was said of it."""

    def __init__(self, name, log, seconds):
        super().__init__(f"{name} is not proved, after {clock(seconds)}; all that was said stands in {shown(log)}")
        self.log = log


Library = collections.namedtuple("Library", "crate name below seconds memory")
Run = collections.namedtuple("Run", "library jobs nice keeps began log")


@contextlib.contextmanager
def locked(path, waiting, tell):
    """Keeps others out that would hold this lock, in a folder that is made where it isn't there; where one holds it, that is reported, and waited for. Where
    the folder can't be written, that is reported, and the script ends."""
    try:
        os.makedirs(os.path.dirname(path), exist_ok=True)
        lock = open(path, "w")
    except OSError as why:
        tell(f"the program is made in {os.path.dirname(path)}, which can't be written: {why.strerror}")
        sys.exit(3)
    with lock as held:
        try:
            fcntl.flock(held, fcntl.LOCK_EX | fcntl.LOCK_NB)
        except BlockingIOError:
            tell(waiting)
            fcntl.flock(held, fcntl.LOCK_EX)
        except OSError:
            # (some file systems have no locks)
            pass
        yield


def write_commit(commit):
    """Writes beside the program at which commit it was proved: `rgc --version` prints it. Where the repository has no commit there is no such file."""
    path = f"{project.OUT}/proved_at"
    if commit == "-":
        if os.path.exists(path):
            os.remove(path)
        return
    said = f"proved from files that differ from commit {commit[:-1]}" if commit.endswith("+") else f"proved at commit {commit}"
    with open(path, "w") as it:
        it.write(f"{said}\n")


def shown(path):
    """Returns a path as a reader in this folder would write it."""
    short = os.path.relpath(path)
    return path if short.startswith("..") else short


def clock(seconds):
    """Returns a time in words, as 6 min 10 s."""
    minutes, rest = divmod(int(seconds + 0.5), 60)
    return f"{minutes} min {rest} s" if minutes else f"{rest} s"


def known_seconds():
    """Returns the seconds of each crate at one job, by docs/CONTRIBUTING.md."""
    rows = project.text_of(SECONDS).split("\n") if os.path.isfile(SECONDS) else []
    found = [re.match(r"\| `(\w+)` \| ≈?(\d+) \|", it) for it in rows]
    return {it[1]: int(it[2]) for it in found if it}


def guessed_seconds(crate):
    """Returns about how long a crate takes that the page doesn't have: mostly a fifth of a second for each line of its code."""
    return 10 + sum(project.text_of(it).count("\n") for it in project.files_of(crate, ("src",))) // 5


def seconds_of(crate):
    """Returns how long a crate of crates.txt takes to be proved at one job, in seconds."""
    return known_seconds().get(crate.name) or guessed_seconds(crate)


def log_of(name):
    """Returns the file that keeps what was said of a crate's last build."""
    return f"{project.ROOT}/crates/{name}/out/build.log"


def wanted(names):
    """Returns the libraries of these names and below them, lowest first, as the toolchain's module knows them."""
    rt = project.toolchain()
    crates = {it.name: it for it in rt.rtlib.crates_below(project.ROOT)}
    of = project.named(names)
    taken = {it.name for it in [*project.below(of), *of] if not it.is_program}
    return [crates[it.name] for it in project.crates() if it.name in taken]


def stale(names):
    """Returns the names of the libraries of these names and below them that aren't built or are not up to date, lowest first."""
    return [it.name for it in wanted(names) if not it.is_built()]


def memory_of_runs():
    """Returns how many bytes each crate that this process has proved takes now, with all copies of its prover."""
    above, names = {}, {}
    for pid in filter(str.isdigit, os.listdir("/proc")):
        try:
            with open(f"/proc/{pid}/stat") as it:
                above[int(pid)] = int(it.read().rpartition(")")[2].split()[1])
            with open(f"/proc/{pid}/cmdline") as it:
                words = it.read().split("\0")
        except OSError:
            continue
        if "--crate-name" in words:
            names[int(pid)] = words[words.index("--crate-name") + 1]
    used = collections.Counter()
    for pid, name in names.items():
        at = pid
        while at in above and at != os.getpid():
            at = above[at]
        if at == os.getpid():
            used[name] += proportion(pid)
    return used


def proportion(pid):
    """Returns the memory of a process in bytes, where what several processes share counts for each in part."""
    try:
        with open(f"/proc/{pid}/smaps_rollup") as it:
            return 1024 * int(re.search(r"^Pss:\s+(\d+)", it.read(), re.M)[1])
    except (OSError, TypeError):
        return 0


def prove(run):
    """Proves and builds a library, and returns the status."""
    crate = run.library.crate
    with open(run.log, "w", encoding="utf-8") as crate.out:
        if run.nice:
            crate.call = functools.partial(type(crate).call, crate, "nice", "-n", str(run.nice))
        try:
            flags = ["--jobs", str(run.jobs)]
            return crate.build_rlib(flags, anew=False) if run.keeps else build_statements(crate, flags)
        except (Exception, SystemExit):
            traceback.print_exc(file=crate.out)
            return 1


def build_statements(crate, flags):
    """Proves a library from nothing, and builds it without its checked modules. Returns the status."""
    stamp, folder = crate.stamp(), os.path.dirname(crate.rlib)
    shutil.rmtree(folder, ignore_errors=True)
    os.makedirs(folder)
    words = [*crate.words(flags, keeps=False), "--statements", "-o", crate.rlib]
    status = crate.call(project.toolchain().rtlib.RATTLE, "build", *words)
    if status == 0 and stamp == crate.stamp():
        with open(f"{folder}/stamp", "w", encoding="utf-8") as it:
            it.write(stamp)
    return status


class Build:
    """One build of libraries, of which each crate is tried at most twice: the second time, after a kill, alone at one job."""

    def __init__(self, crates, tell, of, began, keeps):
        rt = project.toolchain()
        seconds = known_seconds()
        by_name = {it.name: it for it in project.crates()}
        self.processors, self.tell, self.of, self.began, self.keeps = project.processors(), tell, of, began, keeps
        names = {it.name for it in crates}
        self.left = collections.OrderedDict()
        for it in crates:
            below = {lower.name for lower in it.below()} & names
            takes = seconds.get(it.name) or guessed_seconds(by_name[it.name])
            self.left[it.name] = Library(it, it.name, below, takes, (ONE_KEEPING_JOB if keeps else ONE_JOB) * rt.need(it))
        self.after = self.chains()
        self.running, self.alone, self.most = {}, set(), collections.Counter()
        self.reported = time.time()

    def chains(self):
        """Returns for each library the seconds of the longest chain that begins with it."""
        after = {}
        for it in reversed(self.left.values()):
            others = [after[name] for name, other in self.left.items() if it.name in other.below]
            after[it.name] = it.seconds + max(others, default=0)
        return after

    def say(self, text):
        self.reported = time.time()
        self.tell(text)

    def remaining(self, run):
        """Returns about how many seconds of the longest chain that begins with a running library are left."""
        return self.after[run.library.name] - min(time.time() - run.began, run.library.seconds)

    def ready(self):
        """Returns the libraries whose libraries are built, the one with the longest chain first."""
        waited_for = {*self.left, *(it.library.name for it in self.running.values())}
        found = [it for it in self.left.values() if not it.below & waited_for]
        return sorted(found, key=lambda it: -self.after[it.name])

    def has_room(self, library, jobs):
        """Returns whether memory holds one more library, beside what those that run may still ask for."""
        if not self.running:
            return jobs == 1 or needed(library, jobs) <= PLANNED * project.free_memory()
        now = memory_of_runs()
        promised = sum(max(0, needed(it.library, it.jobs) - now[it.library.name]) for it in self.running.values())
        return needed(library, jobs) + promised <= PLANNED * project.free_memory()

    def start(self, pool):
        """Starts what can run beside the others."""
        for library in self.ready():
            if len(self.running) >= self.processors:
                return
            if self.alone and (self.running or library.name not in self.alone):
                continue
            before = sum(self.remaining(it) > self.after[library.name] for it in self.running.values())
            place = min(before, len(NICE) - 1)
            most = 1 if library.name in self.alone else min(math.ceil(SHARES[place] * self.processors), MOST_JOBS)
            jobs = next((it for it in range(most, 0, -1) if self.has_room(library, it)), 0)
            if jobs:
                self.begin(pool, library, jobs, NICE[place])

    def begin(self, pool, library, jobs, nice):
        del self.left[library.name]
        log = log_of(library.name)
        os.makedirs(os.path.dirname(log), exist_ok=True)
        run = Run(library, jobs, nice, self.keeps, time.time(), log)
        self.running[pool.submit(prove, run)] = run
        self.say(f"{library.name} begins, with {jobs} job{'s' * (jobs > 1)}")

    def end(self, done, ended):
        """Takes note of a run that ended, and returns whether the library is built."""
        run, status = self.running.pop(done), done.result()
        name, took = run.library.name, time.time() - run.began
        with open(run.log, "a", encoding="utf-8") as log:
            print(f"{took:.0f} seconds at {run.jobs} jobs, at most {self.most[name] / 1e9:.1f} GB, status {status}", file=log)
        if status == -signal.SIGKILL and name not in self.alone:
            self.say(f"{name} was killed, most likely for want of memory: it is tried again, alone")
            self.alone.add(name)
            self.left[name] = run.library
            return False
        self.alone.discard(name)
        if status:
            raise Failed(name, run.log, took)
        self.say(f"[{ended + 1}/{self.of}] {name} proved in {clock(took)}, {clock(time.time() - self.began)} in all")
        return True

    def watch(self):
        """Notes how much memory each run takes, and after a silence tells that work goes on."""
        for name, used in memory_of_runs().items():
            self.most[name] = max(self.most[name], used)
        if time.time() - self.reported > SILENCE:
            names = ", ".join(progress(it) for it in self.running.values())
            self.say(f"still at {names}; {clock(time.time() - self.began)} in all")

    def whole(self):
        """Builds all of them."""
        ended = 0
        with concurrent.futures.ThreadPoolExecutor(self.processors) as pool:
            try:
                while self.left or self.running:
                    self.start(pool)
                    done = concurrent.futures.wait(self.running, 5, concurrent.futures.FIRST_COMPLETED).done
                    for it in done:
                        ended += self.end(it, ended)
                    self.watch()
            except Failed as failed:
                leave(failed, self.tell)


def progress(run):
    """Returns the name of a library that is being proved, with how far it is where its prover reported."""
    reported = re.findall(r"^so far: (\d+ of \d+ functions)", project.text_of(run.log), re.M)
    return run.library.name + (f" ({reported[-1]})" if reported else "")


def needed(library, jobs):
    """Returns the memory to plan for a library at so many jobs, in bytes."""
    return library.memory + FURTHER_JOB * (jobs - 1)


def leave(failed, tell):
    """Ends the script at once, and with it all provers that still run. The libraries that are built stay so."""
    tell(str(failed))
    last = [it for it in project.text_of(failed.log).split("\n") if it.strip()]
    errors = [it for it in last if re.search(r"\berror\b|not proved|no proof", it)]
    print("\n".join(f"    {it[:200]}" for it in (errors or last)[-12:]), file=sys.stderr, flush=True)
    os._exit(3)


def end_by_signal(tell):
    """Has Ctrl-C and a kill end the script at once, with its provers, and say that their work is kept. Returns what they did before."""

    def stop(number, _):
        tell("stopped; what is proved so far is kept, and the next build goes on from there")
        signal.signal(number, signal.SIG_DFL)
        os.kill(os.getpid(), number)

    return {it: signal.signal(it, stop) for it in (signal.SIGINT, signal.SIGTERM, signal.SIGHUP)}


def build(names, tell, more=0, began=None, keeps=False):
    """Proves and builds the libraries of these names and all below them, where they aren't up to date, and returns how many it built.
    `tell` gets a line of news; `more` is how many crates the caller builds after them; with `keeps` checked modules are kept. Where a crate
    fails, the script ends with status 3."""
    rtlib = project.toolchain().rtlib
    # (the guard, which ends the provers with this process, has to start before any thread)
    rtlib.guarded()
    before = end_by_signal(tell)
    crates = wanted(names) if names else []
    held = rtlib.lock(crates)
    try:
        left = [it for it in crates if not it.is_built()]
        Build(left, tell, len(left) + more, began or time.time(), keeps).whole()
        return len(left)
    finally:
        for it in held:
            os.close(it)
        for it, handler in before.items():
            signal.signal(it, handler)
