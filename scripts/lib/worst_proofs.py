"""The proofs files that cost `valid` and `check` most. The lines below stand after a proof, so that the file is accepted but in one case.

  one line      a line of n literals, and a line with 3n hints that name it
  in turn       r lines of r literals that share all but two, and a line that names each r times, in turn
  one literal   a line that holds one literal n times, and n lines that name it
  ten literals  a line that holds ten literals n times, and n lines of ten that name it
  short lines   a line of n literals, and n lines of few that name it: the first of them is refused
  far apart     n lines whose ids and variables are far apart, up to the largest
  each other    r lines of r literals, and r lines of r that name each of them. Here n to the 1.5 is allowed: whether each of these lines has
                all literals of each line that it names is as hard to say as whether a graph of so many edges has a triangle"""
import subprocess
from pathlib import Path

import project
import worst_inputs

OF_POWER = 45
# A formula to show with few clauses.
FORMULA = "words x:1 y:1 show (((x = 1) and (y = 1)) implies (x = 1))\n"
# Variables from here on stand in no clause.
FIRST = 5_000_000


def span(first, count):
    return " ".join(map(str, range(first, first + count)))


# Each makes lines with ids from `id_` on over clauses the last of which is the literal `unit` alone and has the number `last`: lines that hold
# that literal follow by it.


def one_line(n, id_, unit, last):
    rest = f"{unit} {span(FIRST, n)}"
    return f"{id_} 9999999 {rest} 0 {last} 0\n{id_ + 1} {rest} 0 {f'{id_} ' * (3 * n)}{last} 0\n"


def in_turn(n, id_, unit, last):
    r = int(n**0.5)
    shared, own = span(FIRST, r), span(FIRST + r, r)
    lines = "".join(f"{id_ + at} {unit} 9999999 {shared} {FIRST + r + at} 0 {last} 0\n" for at in range(r))
    return f"{lines}{id_ + r} {unit} {shared} {own} 0 {f'{span(id_, r)} ' * r}{last} 0\n"


def one_literal(n, id_, unit, last):
    return f"{id_} {f'{unit} ' * n}0 {last} 0\n" + "".join(f"{it} {unit} 0 {id_} 0\n" for it in range(id_ + 1, id_ + n))


def ten_literals(n, id_, unit, last):
    ten = f"{unit} {span(FIRST, 9)}"
    return f"{id_} {f'{ten} ' * n}0 {last} 0\n" + "".join(f"{it} {ten} 0 {id_} 0\n" for it in range(id_ + 1, id_ + n))


def short_lines(n, id_, unit, last):
    return f"{id_} {unit} {span(FIRST, n)} 0 {last} 0\n" + "".join(f"{it} {unit} 0 {id_} {last} 0\n" for it in range(id_ + 1, id_ + n))


def each_other(n, id_, unit, last):
    r = int(n**0.5)
    shared, own = span(FIRST, r), span(FIRST + r, r)
    lines = "".join(f"{id_ + at} {unit} 9999999 {shared} {FIRST + r + at} 0 {last} 0\n" for at in range(r))
    return lines + "".join(f"{id_ + r + at} {unit} {shared} {own} 0 {span(id_, r)} {last} 0\n" for at in range(r))


def far_apart(n, id_, unit, last):
    wide = 2_147_000_000 // n
    return "".join(f"{id_ + it * wide} {unit} {10_000 + it * wide} -{10_001 + it * wide} 0 {last} 0\n" for it in range(n))


# The name of a case, its lines, the least n, its status and what is said (else that the proof is accepted), and how its time may grow.
LINES = (
    ("one line", one_line, 20_000, 0, "", 16),
    ("in turn", in_turn, 90_000, 0, "", 16),
    ("one literal", one_literal, 20_000, 0, "", 16),
    ("ten literals", ten_literals, 5_000, 0, "", 16),
    ("short lines", short_lines, 20_000, 1, "refused 45 proofs line ", 16),
    ("far apart", far_apart, 10_000, 0, "", 16),
    ("each other", each_other, 20_000, 0, "", OF_POWER),
)


def printed(words, room):
    return subprocess.run(words, cwd=room, capture_output=True, text=True, check=True).stdout


def over(command, words, files, clauses, says):
    """The cases over a proof that is accepted, of whose clauses the last is a literal alone."""
    last, unit = len(clauses), clauses[-1].split()[0]
    # (the last section is that of the condition whose clauses these are)
    id_ = 1 + max(int(it.split()[0]) for it in files["proofs"].splitlines() if it[:1].isdigit())
    for name, lines, least, status, said, most in LINES:
        def made(n, lines=lines):
            return {**files, "proofs": files["proofs"] + lines(n, id_, unit, last)}

        yield worst_inputs.Case(f"{command}, {name}", [command, *words, "proofs", "--threads", "1"], made, least, status, said or says, most)


def cases(program):
    """The cases of `valid` over a small formula, and of `check` over an example."""
    with project.temporary("worst-") as room:
        Path(room, "text").write_text(FORMULA, encoding="ascii")
        files = {"text": FORMULA, "proofs": printed([program, "find", "text"], room)}
        yield from over("valid", ["text"], files, printed([program, "clauses", "text"], room).splitlines()[1:], "holds\n")
    example = Path(project.ROOT, "examples", "two_parts")
    names = {"text": "text.rg", "derivation": "derivation.rgd", "proofs": "proofs.lrat"}
    files = {name: (example / it).read_text(encoding="ascii") for name, it in names.items()}
    condition = files["proofs"].rpartition("section ")[2].split()[0]
    clauses = printed([program, "clauses", "text.rg", "--derivation", "derivation.rgd", "--condition", condition], example)
    yield from over("check", ["text", "derivation"], files, clauses.splitlines()[1:], "accepted\n")
