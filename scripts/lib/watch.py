"""Adds up what a run of the gate takes, crate by crate.

    watch.py FOLDER FILE

Until it gets SIGTERM it reads the processor time of each prover that works in FOLDER, twice a second, from /proc, so that the run
itself isn't slowed. Then it writes a table to FILE. A prover's last half second can be missed."""
import os
import signal
import sys
import threading

sys.dont_write_bytecode = True
import project

KINDS = ("proof", "tests", "edits")
TICKS = os.sysconf("SC_CLK_TCK")


def prover(pid, folder):
    """Returns the crate that a running prover of the gate proves and the kind of its work, or None for every other process."""
    try:
        with open(f"/proc/{pid}/cmdline", "rb") as it:
            words = it.read().decode(errors="replace").split("\0")
        if len(words) < 2 or not words[0].endswith("/rattle") or words[1] not in ("check", "build") or "--crate-name" not in words:
            return None
        at = os.readlink(f"/proc/{pid}/cwd")
    except OSError:
        return None
    if not f"{at}/".startswith(f"{folder}/") and "/rt-edit" not in at:
        return None
    kind = "edits" if "/rt-edit" in at else "tests" if "--test" in words else "proof"
    return words[words.index("--crate-name") + 1], kind


def seconds_of(pid):
    """Returns the processor seconds that a process has used, 0 where it is gone."""
    try:
        with open(f"/proc/{pid}/stat") as it:
            fields = it.read().rpartition(")")[2].split()
        return (int(fields[11]) + int(fields[12])) / TICKS
    except (OSError, IndexError):
        return 0.0


def look(folder, used):
    """Notes the seconds of each prover that runs now."""
    for pid in filter(str.isdigit, os.listdir("/proc")):
        what = prover(pid, folder)
        if what:
            used[pid, what] = max(used.get((pid, what), 0.0), seconds_of(pid))


def sums_of(used):
    """Returns the seconds of each crate and kind."""
    found = {}
    for (_, what), seconds in used.items():
        found[what] = found.get(what, 0.0) + seconds
    return found


def longest_chain(sums):
    """Returns the seconds of the longest chain of crates that wait for each other, and the crates. The tests and the edits of its last one count."""
    ends = {}
    for crate in project.crates():
        before = max((ends[it] for it in crate.libraries), default=(0.0, []))
        ends[crate.name] = (before[0] + sums.get((crate.name, "proof"), 0.0), [*before[1], crate.name])
    return max((seconds + sum(sums.get((chain[-1], it), 0.0) for it in KINDS[1:]), chain) for seconds, chain in ends.values())


def table(sums):
    """Returns the table, dearest crate first, in lines."""
    names = [it.name for it in project.crates()]
    cell = lambda name, kind: f"{sums[name, kind]:.0f}" if sums.get((name, kind), 0.0) >= 0.5 else "–"
    names.sort(key=lambda name: -sum(sums.get((name, kind), 0.0) for kind in KINDS))
    of_kinds = [f"{sum(sums.get((name, kind), 0.0) for name in names):.0f}" for kind in KINDS]
    seconds, chain = longest_chain(sums)
    return [
        "| crate | proof | tests | edits |",
        "|---|---:|---:|---:|",
        *(f"| `{name}` | {' | '.join(cell(name, kind) for kind in KINDS)} |" for name in names),
        f"| sum | {' | '.join(of_kinds)} |",
        "",
        f"The longest chain of crates that wait for each other takes {seconds / 60:.0f} minutes of a processor: {', '.join(f'`{it}`' for it in chain)}.",
    ]


def main(folder, file):
    over, used = threading.Event(), {}
    signal.signal(signal.SIGTERM, lambda *_: over.set())
    while not over.wait(0.5):
        look(os.path.realpath(folder), used)
    with open(file, "w", encoding="utf-8") as it:
        it.write("\n".join(table(sums_of(used))) + "\n")


if __name__ == "__main__":
    main(*sys.argv[1:])
