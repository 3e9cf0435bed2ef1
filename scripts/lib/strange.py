"""Files that are no files, have no end, change while they are read, or have exactly as many bytes as they may: each as each file that a command reads."""
import os
import subprocess
import tempfile
import threading
import time
from pathlib import Path

NOTHING = "pre true rely true guar true post true"
MOST_TEXT, MOST_PROOFS = 1_048_576, 16_777_216
OUTLINE = "words x:8\npre x = 0\nrely unchanged x\npost x = 1\npart p\n  owns x\nbegin\n  { x = 0 }\n  x := 1\n  { x = 1 }\nend\n"
FILES = {
    "text": f"words x:2 turn:1 fixed n:2 {NOTHING} part p {NOTHING} begin await (turn = 1) do x := 2; turn := 0 end end\n",
    "derivation": f"line 1 atomic 1 {NOTHING}\n",
    "proofs": "",
    "start": "x = 1 n = 3\n",
    "moves": "at 0 turn = 1\nat 2 x = 0 turn = 1\nat 2 n = 3\n",
    "show": "words x:1 y:1 show (((x = 1) and (y = 1)) implies (x = 1))\n",
    "hints": "8 0 7 5 1 4 0\n",
    "outline": OUTLINE,
    "outline_start": "x = 0\n",
    "outline_moves": "at 0 x = 5\n",
    "empty": "",
}
# What is read: the kind of the file as a refusal names it, and the words of a call, in which @ stands before the name of this file.
READ = """text: number @text
text: check @text derivation proofs
text: conditions @text derivation
text: prove @text derivation
text: emit @text derivation proofs
text: accesses @text derivation proofs
text: run @text derivation proofs --moves moves
text: valid @show hints
text: clauses @show
text: clauses @text --derivation derivation --condition 1
text: find @show
derivation: check text @derivation proofs
derivation: conditions text @derivation
derivation: prove text @derivation
derivation: check text derivation proofs --derivation @empty
derivation: find text --derivation @derivation --condition 1
proofs: check text derivation @proofs
proofs: check text derivation proofs @empty
proofs: emit text derivation @proofs
proofs: run text derivation @proofs --moves moves
proofs: valid show @hints
start: run text derivation proofs --moves moves --start @start
start: run --outline outline --start @outline_start
moves: run text derivation proofs --moves @moves
moves: run --outline outline --moves @outline_moves
outline: verify @outline
outline: outline @outline
outline: complete @outline
outline: challenge @outline
outline: emit --outline @outline
outline: accesses --outline @outline
outline: run --outline @outline"""
ODD = (b"\n", b"\xef\xbb\xbf", b"#", b"\x00" * 1000, b"\xff" * 1000, b"\x1b[2J\n" * 10)


class Calls:
    """The calls of READ over a folder, in which another file takes the place of one that they read."""

    def __init__(self, judge, folder):
        self.judge, self.folder = judge, folder
        for name, content in FILES.items():
            (folder / name).write_text(content, encoding="utf-8")
        self.rows = []
        for row in READ.split("\n"):
            kind, words = row.split(": ")
            name = next(it for it in words.split() if it.startswith("@"))[1:]
            self.rows.append((kind, words.split(), name, self.run(words.split(), name)))

    def run(self, words, name, **how):
        """The answer of a call that reads the file of this name."""
        return self.judge.run(self.folder, *(name if it.startswith("@") else it for it in words), **how)

    def asks(self, what, words, answer, holds=True):
        self.judge.ends(f"{what} as {' '.join(words)}", answer)
        self.judge.asks(f"{what} as {' '.join(words)}, the answer", holds, answer)


def is_unread(answer, kind):
    """Whether an answer says of a file of this kind that it can't be read."""
    return answer[0] == 3 and not answer[1] and answer[2].endswith(f"device {kind}\n".encode())


def is_too_large(answer, kind):
    """Whether an answer says of a file of this kind that it has too many bytes."""
    told = f"refused 11 {kind} line 1\n".encode(), b" bytes at most\n"
    return answer[0] == 1 and not answer[1] and any(it in answer[2] for it in told)


def no_files(calls):
    """Folders, links that go round, names of nothing; devices without an end; standard input that is one."""
    (calls.folder / "folder").mkdir()
    os.symlink("round", calls.folder / "round")
    for kind, words, _, _ in calls.rows:
        for name in "folder", "round", "none", "", "text/below":
            answer = calls.run(words, name)
            calls.asks(f"{name!r}", words, answer, is_unread(answer, kind))
        answer = calls.run(words, "/dev/zero")
        calls.asks("a device without an end", words, answer, is_too_large(answer, kind))
        with open("/dev/zero", "rb") as it:
            answer = calls.run(words, "-", stdin=it)
        calls.asks("standard input without an end", words, answer, is_too_large(answer, kind))
        answer = calls.run(words, "-", stdin=subprocess.DEVNULL)
        calls.asks("empty standard input", words, answer, plain(answer, "-") == plain(calls.run(words, "empty"), "empty"))


def odd_files(calls):
    """Empty files, and such with a few odd bytes."""
    for kind, words, _, _ in calls.rows:
        for content in ODD:
            (calls.folder / "odd").write_bytes(content)
            answer = calls.run(words, "odd")
            is_refused = answer[0] == 1 and not answer[1]
            is_blank = not content.strip() and kind in ("derivation", "proofs", "start", "moves") or content == b"#" and kind != "proofs"
            # (what goes with an outline may begin with a byte order mark)
            is_blank = is_blank or content == ODD[1] and "--outline" in words
            calls.asks(f"a file of {content[:10]!r}", words, answer, is_refused or is_blank)


def fed(path, content, is_endless=False):
    """Writes to a fifo as soon as somebody reads it, once or without an end."""

    def feed():
        try:
            with open(path, "wb", buffering=0) as it:
                it.write(content)
                while is_endless:
                    it.write(content)
        except OSError:
            pass

    threading.Thread(target=feed, daemon=True).start()


def fifos(calls):
    """Fifos that have the content of the file, nothing, and more and more of it."""
    for number, (kind, words, name, ample) in enumerate(calls.rows):
        for what, content in ("whole", FILES[name].encode()), ("empty", b""), ("endless", b"# line\n" * 1000):
            fifo = calls.folder / f"{what}_{number}"
            os.mkfifo(fifo)
            fed(fifo, content, what == "endless")
            answer = calls.run(words, fifo.name)
            wanted = ample if what == "whole" else calls.run(words, "empty")
            holds = is_too_large(answer, kind) if what == "endless" else plain(answer, fifo.name) == plain(wanted, name, "empty")
            calls.asks(f"a fifo that is {what}", words, answer, holds)


def plain(answer, *names):
    """An answer without the names of files."""
    status, out, faults = answer
    for name in names:
        out, faults = (it.replace(name.encode() + b":", b"FILE:").replace(f'"{name}"'.encode(), b'"FILE"') for it in (out, faults))
    return status, out, faults


def changing(path, contents, way, is_over):
    """Changes a file again and again until it is over."""
    place = 0
    while not is_over.is_set():
        place += 1
        if way == "grows":
            with open(path, "ab", buffering=0) as it:
                it.write(b"\n" * 4096)
                if it.tell() > 20 * MOST_TEXT:
                    it.truncate(0)
        elif way == "is replaced":
            Path(f"{path}.new").write_bytes(contents[place % 2])
            os.replace(f"{path}.new", path)
        else:
            Path(path).write_bytes(contents[place % 2])
        time.sleep(0.0005)


def changing_files(calls):
    """Files that grow, are written anew, or replaced by others, while they are read."""
    for way in "grows", "is written anew", "is replaced":
        for kind, words, name, ample in calls.rows:
            contents = FILES[name].encode(), b"# other\n" * 500
            path, is_over = calls.folder / "changing", threading.Event()
            path.write_bytes(contents[1])
            other = calls.run(words, path.name)
            path.write_bytes(contents[0])
            thread = threading.Thread(target=changing, args=(path, contents, way, is_over))
            thread.start()
            answers = [calls.run(words, path.name) for _ in range(3)]
            is_over.set()
            thread.join()
            allowed = [plain(ample, name), plain(other, path.name)]
            for answer in answers:
                calls.asks(f"a file that {way}", words, answer, plain(answer, path.name) in allowed or way != "is replaced")


def sizes(calls):
    """Files of exactly the most bytes, and of one more."""
    for kind, words, name, ample in calls.rows:
        most, filler = (MOST_PROOFS, b"\n") if kind == "proofs" else (MOST_TEXT, b"#")
        content = FILES[name].encode()
        for more in 0, 1:
            (calls.folder / "large").write_bytes(content + filler * (most + more - len(content)))
            answer = calls.run(words, "large")
            # (`complete` prints what it was given)
            wanted, got = ((it[0], "complete" in words or it) for it in (plain(ample, name), plain(answer, "large")))
            holds = is_too_large(answer, kind) if more else got == wanted
            calls.asks(f"a file of {most + more} bytes", words, answer, holds)


CASES = (no_files, odd_files, fifos, changing_files, sizes)


def try_case(judge, case):
    with tempfile.TemporaryDirectory() as folder:
        case(Calls(judge, Path(folder)))
