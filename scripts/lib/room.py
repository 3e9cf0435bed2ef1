"""A folder of a user's own, in which a program is run, and what is asked of its answers and of the files that it leaves."""
import os
import re
import resource
import shutil
import signal
import subprocess
import tempfile
from pathlib import Path

TOP, IS_ROOT = Path(__file__).resolve().parent.parent.parent, os.getuid() == 0
# A file that a call leaves which is killed while it writes.
LEFT = re.compile(r"\.rgc\.[0-9a-f]{16}")
# The words that make what an option writes.
ASKED = {"text": ["outline", "c.rgo"], "map": ["outline", "c.rgo"], "output": ["prove", "text", "derivation"], "draw": ["run", "--outline", "one.rgo"]}
# A part that makes one step: each of its runs prints the same.
ONE = "words x:8\npre x = 0\nrely unchanged x\npost x = 1\npart p\n  owns x\nbegin\n  { x = 0 }\n  x := 1\n  { x = 1 }\nend\n"
COUNTS = {"right": 0, "wrong": 0}
# Users whom no file belongs to.
USER, STRANGER = 61_235, 61_236


def wide(count, first):
    """Returns a formula with many clauses."""
    rows = [f"((w{it % 60} + w{(it * 7 + first) % 60}) = (w{(it * 3 + 2) % 60} - w{(it * 5 + 3) % 60}))" for it in range(count)]
    while len(rows) > 1:
        rows = [f"({' and '.join(rows[it:it + 2])})" if it + 1 < len(rows) else rows[it] for it in range(0, len(rows), 2)]
    return f"words {' '.join(f'w{it}:64' for it in range(60))}\nshow {rows[0]}\n"


class Room:
    """A folder of a user's own, with an outline and the files that it stands for."""

    def __init__(self, case, program, user, folder):
        self.case, self.program, self.user, self.folder = case, program, user, folder
        self.write("c.rgo", (TOP / "examples/outlines/counter.rgo").read_text(encoding="utf-8"))
        self.write("one.rgo", ONE)
        self.run("outline", "c.rgo", *(it for name in ("text", "map", "derivation", "proofs") for it in (f"--{name}", name)))
        self.printed = {"draw": self.run("run", "--outline", "one.rgo", "--draw", "picture")[1]}
        self.made = {"text": self.text("text"), "map": self.text("map"), "output": self.text("proofs"), "draw": self.text("picture")}

    def start(self, *words, limit=None, **how):
        def prepare():
            resource.setrlimit(resource.RLIMIT_STACK, (1 << 26, resource.getrlimit(resource.RLIMIT_STACK)[1]))
            os.umask(0o027)
            if limit is not None:
                signal.signal(signal.SIGXFSZ, signal.SIG_IGN)
                resource.setrlimit(resource.RLIMIT_FSIZE, (limit, limit))

        whose = {"user": self.user, "group": self.user, "extra_groups": []} if IS_ROOT else {}
        pipes = {"stdin": subprocess.DEVNULL, "stdout": subprocess.PIPE, "stderr": subprocess.PIPE, "restore_signals": limit is None}
        return subprocess.Popen([self.program, *words], cwd=self.folder, preexec_fn=prepare, **{**pipes, **whose, **how})

    def run(self, *words, **how):
        """Returns the status, the output and the faults of a call."""
        with self.start(*words, **how) as ran:
            printed, faults = ran.communicate(timeout=120)
        return ran.returncode, (printed or b"").decode(), faults.decode()

    def write(self, name, text="old\n", mode=0o644, user=None):
        path = self.folder / name
        path.parent.mkdir(exist_ok=True)
        path.write_text(text, encoding="utf-8")
        path.chmod(mode)
        for it in (path.parent, path) if IS_ROOT else ():
            os.chown(it, *[user if it == path and user is not None else self.user] * 2)
        return path

    def text(self, name):
        path = self.folder / name
        return path.read_text(encoding="utf-8", errors="replace") if path.is_file() else None

    def stat(self, name):
        return (self.folder / name).lstat()

    def asks(self, what, got, wanted=True):
        """Counts an answer."""
        COUNTS["right" if got == wanted else "wrong"] += 1
        if got != wanted:
            print(f"WRONG, user {self.user}, {self.case}: {what}: {str(got)[:150]!r} in place of {str(wanted)[:150]!r}", flush=True)

    def refused(self, *words, status=3, faults="device text\n", **how):
        """Asks that a call is refused, and that each file is as it was, and no other there."""
        before = {it: (os.readlink(it) if it.is_symlink() else self.text(it)) for it in self.folder.rglob("*")}
        self.asks(f"answer of {' '.join(words)}", self.run(*words, **how)[0::2], (status, faults))
        now = {it: (os.readlink(it) if it.is_symlink() else self.text(it)) for it in self.folder.rglob("*")}
        self.asks(f"files after {' '.join(words)}", [str(it) for it in {**before, **now} if before.get(it, 0) != now.get(it, 0)], [])

    def written(self, option, name):
        """Asks that what this option writes goes to the file of this name, and that no other is left."""
        self.asks(f"answer of --{option} {name}", self.run(*ASKED[option], f"--{option}", name), (0, self.printed.get(option, ""), ""))
        self.asks(f"content of --{option} {name}", self.text(name), self.made[option])
        self.asks(f"files after --{option} {name}", [str(it) for it in self.folder.rglob("*") if LEFT.fullmatch(it.name)], [])


def try_each(program, cases):
    """Tries cases over a program, each in a room of its own: where root asks, of root and of another user. Returns the status."""
    with tempfile.TemporaryDirectory() as top:
        os.chmod(top, 0o755)
        program = shutil.copy(program, f"{top}/rgc")
        for user in [0, USER] if IS_ROOT else [os.getuid()]:
            for case in cases:
                folder = Path(top) / f"{case.__name__}_{user}"
                folder.mkdir()
                if IS_ROOT:
                    os.chown(folder, user, user)
                try:
                    case(Room(case.__name__, program, user, folder))
                except (OSError, subprocess.SubprocessError) as error:
                    COUNTS["wrong"] += 1
                    print(f"WRONG, user {user}, {case.__name__}: {error!r}", flush=True)
    print(f"{COUNTS['right']} right, {COUNTS['wrong']} wrong")
    return 1 if COUNTS["wrong"] else 0
