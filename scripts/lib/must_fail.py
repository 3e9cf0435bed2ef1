"""Compares the must-fail edits of the crates with what a run of `rt ci` said of them: it passes over one that can't be applied or read.

    must_fail.py FILE [ROOT]

FILE holds what `rt ci` printed, and ROOT is the repository, this one where none is given. For each edit of a crate that it proved, also one kept
from an earlier run, `rt ci` prints a line:

    rt: must-fail CRATE/NAME.edit: refused, as it must be: ..
    rt: must-fail CRATE/NAME.edit: BAD EDIT: ..
    rt: must-fail CRATE/NAME.edit: NOT REFUSED: ..
    rt: must-fail CRATE/NAME.edit: NOT TRIED: ..

It counts the first as passed, and the last two as failed. Every file in a must-fail/ folder but notes (*.md) has to be reported refused. The
script prints a line for each that isn't, and then `N must-fail edits refused, M not, K of them counted by rt ci`. The status is 1 where M isn't 0."""
import os
import re
import sys

sys.dont_write_bytecode = True
import project

REPORT = re.compile(r"rt: must-fail (\S+?/[^:\s]+): (refused, as it must be|BAD EDIT|NOT REFUSED|NOT TRIED)(.*)")
REFUSED, COUNTED = "refused, as it must be", ("NOT REFUSED", "NOT TRIED")


def edits_of(root):
    """Returns the files of all must-fail/ folders but the notes, as CRATE/NAME.edit, sorted."""
    found = []
    for crate in os.listdir(f"{root}/crates"):
        folder = f"{root}/crates/{crate}/must-fail"
        found += [f"{crate}/{os.path.relpath(f'{at}/{name}', folder)}" for at, _, names in os.walk(folder) for name in names if not name.endswith(".md")]
    return sorted(found)


def reports_in(said):
    """Returns what was reported of each edit: the first words, and the line."""
    return {found[1]: (found[2], found[0]) for found in map(REPORT.match, said.split("\n")) if found}


def main(file, root=project.ROOT):
    edits, reports = edits_of(root), reports_in(project.text_of(file))
    wrong = [it for it in edits if reports.get(it, ("",))[0] != REFUSED]
    for it in wrong:
        print(f"must-fail {it}: not refused by this run: {reports[it][1][:200] if it in reports else 'rt ci reports nothing of it'}")
    counted = sum(reports.get(it, ("",))[0] in COUNTED for it in wrong)
    print(f"{len(edits) - len(wrong)} must-fail edits refused, {len(wrong)} not, {counted} of them counted by rt ci")
    return 1 if wrong else 0


if __name__ == "__main__":
    sys.exit(main(*sys.argv[1:]))
