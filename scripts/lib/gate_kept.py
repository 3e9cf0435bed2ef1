"""Marks what a gate has proved and built here as up to date, as scripts/build marks it: then ./rgc is the program that the gate proved, and
other scripts take its libraries.

    gate_kept.py begin FILE     before `rt ci`: writes a sum of all sources to FILE
    gate_kept.py end FILE       after it has passed: marks what it left, where the sources have that sum

`rt ci` itself takes nothing from earlier runs, and so marks nothing. Where it doesn't leave all of it in the crates' folders, nothing is marked."""
import os
import sys

sys.dont_write_bytecode = True
import builder
import project


def mark(begun):
    """Writes the stamps of all libraries, which are to be younger than this time, and of the program. Returns whether all of them are there."""
    rt = project.toolchain()
    of = {it.name: it for it in rt.rtlib.crates_below(project.ROOT)}
    program, made = of[project.PROGRAM], f"{project.OUT}/{project.PROGRAM}"
    # (what other commands had built before, `rt ci` puts back, and that can be of older sources)
    if not all(os.path.exists(it) and os.path.getmtime(it) >= begun for it in [made, *(it.rlib for it in program.below())]):
        return False
    for it in program.below():
        write(f"{os.path.dirname(it.rlib)}/stamp", it.stamp())
    write(f"{made}.stamp", program.stamp() + rt.rtlib.sum_of(made))
    write(f"{project.OUT}/built", project.sum_of(project.PARTS))
    builder.write_commit(project.commit(project.named([project.PROGRAM])))
    return True


def write(path, text):
    with open(path, "w", encoding="utf-8") as it:
        it.write(text)


def main(word, file):
    if word == "begin":
        write(file, project.sum_of(project.PARTS))
    elif project.text_of(file) != project.sum_of(project.PARTS) or not mark(os.path.getmtime(file)):
        print("What the gate has built isn't marked as up to date: ./rgc --prove would prove it once more.")


if __name__ == "__main__":
    main(*sys.argv[1:])
