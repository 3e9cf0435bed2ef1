"""Names, words and files that hold escapes, line ends, quotes and other control characters: what of them comes out on a terminal."""
import contextlib
import os
import pty
import re
import select
import subprocess
import time
import tty

# What a name, a word or a line of a file holds: escapes, one that is a colour, the same as one character of eight bits, others that move the cursor.
EVIL = ("\x1b[2J", "\x1b[38;5;99m", "\x1b]0;x\x07", "\u009b2J", "\u009b38;5;99m", "\x7f\x08", "a\rb", "a\nb", "\x01\x1f", "'", '"', "$(x) %s%n *")
COLOUR, CONTROL = re.compile(rb"\x1b\[[0-9;]*m"), re.compile(rb"[\x00-\x09\x0b-\x1f\x7f]|\xc2[\x80-\x9f]")
# The most seconds that a call may take.
PATIENCE = 180
TEXT = "words x:8 pre true rely true guar true post true part p pre true rely true guar true post true begin skip end\n"
OUTLINE = "words x:8 aux a:8\nrely unchanged x a\npart p\n  owns x a\nbegin\n  x := 1\nend\n"
# Words of calls: @ is the name or the word, and FILE, FOLDER and NONE are a file, a folder and nothing of this name.
CALLS = """@
--@
-@
help @
explain @
number @
number FILE
number text @
check FILE NONE NONE
check text text FILE
conditions text NONE
prove text FOLDER
valid NONE FILE
valid show NONE
clauses FILE
clauses show --output FOLDER
clauses show --condition @
clauses show --format @
find show --output FOLDER
find show --steps @
find show --seconds @
prove text text --output FILE --output FILE
prove text text --conditions @
verify FILE
verify NONE
verify FOLDER
verify FILE --format json
verify outline --steps @
verify outline --threads @
verify outline --warnings @
verify outline --text FOLDER
verify outline --@
verify outline --@=1
verify outline FILE
outline FILE
outline outline --text FILE --map FILE
outline outline --text FOLDER
outline outline --map FOLDER
outline outline --derivation FOLDER --proofs FOLDER
complete FILE
complete FILE --in-place
challenge FILE
emit --outline FILE
emit --outline outline --erase @
emit --outline outline --erase x,@
emit --outline outline --format c --name @
emit --outline outline --output FOLDER
accesses --outline FILE
accesses --outline outline --erase @
run --outline FILE
run --outline outline --start FILE
run --outline outline --moves FILE
run --outline outline --start NONE
run --outline outline --draw FOLDER
run --outline outline --draw FILE --start FILE
run --outline outline --limit @
run --outline outline --seed @"""


def screen(program, words, folder, **environment):
    """Runs a call with a terminal as its standard output and standard error: its status, none where it doesn't end, and what came out."""
    ours, theirs = pty.openpty()
    tty.setraw(theirs)  # (so that line ends come out as they are)
    how = {"cwd": folder, "stdin": subprocess.DEVNULL, "stdout": theirs, "stderr": theirs}
    without = {name: value for name, value in os.environ.items() if name != "NO_COLOR"}
    with subprocess.Popen([program, *words], env={**without, "TERM": "xterm", **environment}, **how) as ran:
        os.close(theirs)
        got, end = b"", time.monotonic() + PATIENCE
        with contextlib.suppress(OSError):  # (the last end of a terminal closes with an error)
            while time.monotonic() < end and select.select([ours], [], [], max(0, end - time.monotonic()))[0]:
                part = os.read(ours, 65536)
                if not part:
                    break
                got += part
        os.close(ours)
        if time.monotonic() >= end:
            ran.kill()
            return None, got
        return ran.wait(), got


def is_clean(got, is_coloured):
    """Whether nothing came out but text and, where there may be any, colours of the program's own."""
    left = COLOUR.sub(b"", got) if is_coloured else got
    return CONTROL.search(left) is None and b"38;5;99m" not in b"".join(COLOUR.findall(got))


def files_for(folder):
    for name, content in ("text", TEXT), ("outline", OUTLINE), ("show", "words x:1 show true\n"):
        (folder / name).write_text(content, encoding="utf-8")


def words_of(call, evil):
    """The words of a call for this name."""
    names = {"@": evil, "FILE": f"{evil}file", "FOLDER": f"{evil}folder", "NONE": f"{evil}none"}
    return [re.sub("FILE|FOLDER|NONE|@", lambda it: names[it[0]], word) for word in call.split()]


def asks(judge, folder, words, what):
    """Asks that a call ends, and that what came out is clean, with colours and without."""
    for environment in {}, {"NO_COLOR": ""}, {"NO_COLOR": "1"}:
        status, got = screen(judge.program, words, folder, **environment)
        judge.asks(f"{words}, {what}, {environment}: its end", status in (0, 1, 2, 3), (status, got))
        judge.asks(f"{words}, {what}, {environment}: what came out", is_clean(got, environment != {"NO_COLOR": "1"}), (status, got))


def try_names(judge, folder, evil):
    """Tries a name, or a word, at each place of each call; the file of this name holds it too, where a report shows it."""
    files_for(folder)
    lines = f"words x:8\npart p\nbegin\n  y := 1 # {evil}\nend\n", f"words x:8 {evil}\n", OUTLINE
    (folder / f"{evil}folder").mkdir()
    for number, content in enumerate(lines):
        (folder / f"{evil}file").write_text(content, encoding="utf-8")
        for call in CALLS.split("\n"):
            if number == 0 or "FILE" in call:
                asks(judge, folder, words_of(call, evil), f"file {number}")
