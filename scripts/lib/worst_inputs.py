"""The inputs within the limits that cost most, of each command of which a size tells what it costs."""
import collections
import random

# A case: its command and its name; its words, with the size for `{}`; what makes its files for a size; the least size; the status, and what stands in
# what is printed or reported; how the time may grow from one size to one eight times as large: n log n is 9 or 10; the largest size within the
# limits, where it is more than eight times the least; and why it grows faster than it should, where that is known.
Case = collections.namedtuple("Case", "name words files least status says most largest known", defaults=(0, "", 16, 0, ""))
# A square, where docs/DECISIONS.md says why.
OF_SQUARE = 90
SPEC = "pre true rely true guar true post true"


def joined(word, rows, most=60):
    """Formulas as a tree with as many operands at each place."""
    while len(rows) > 1:
        rows = [f"({f' {word} '.join(rows[at:at + most])})" if len(rows[at : at + most]) > 1 else rows[at] for at in range(0, len(rows), most)]
    return rows[0]


def program(body, words="x:8", spec=SPEC):
    return f"words {words}\n{spec}\npart p {SPEC} begin\n{body}\nend\n"


def derivation(rows):
    return "".join(f"line {at} {row}\n" for at, row in enumerate(rows, 1))


def of_pre(formula):
    return {"text": program("skip", spec=f"pre {formula} rely true guar true post true")}


# Texts


def deep_values(n):
    one = f"(x = {'(' * 190}x{' + 1)' * 190})"
    return of_pre(joined("and", [one] * (n // len(one))))


def deep_formulas(n):
    one = "not " * 190 + "true"
    return of_pre(joined("and", [one] * (n // len(one))))


def many_lines(n):
    return {"text": program((";" + "\n" * 250).join(["x:=1"] * (n // 262)))}


def long_names(n):
    # (64 words that differ at their ends)
    long = "a" * (n // 200 - 3)
    words = " ".join(f"{long}{it}:8" for it in range(10, 74))
    return {"text": program(f"{long}73 := {long}73", words, f"pre {joined('and', [f'({long}73 = {long}73)'] * 60)} rely true guar true post true")}


def deep_statements(n):
    return {"text": program(";\n".join(["if true then " * 190 + "skip" + " else skip end" * 190] * n))}


# Derivations


def many_premises(n):
    k = n // 128
    rows = [f"basic {it + 2} {SPEC}" for it in range(k)]
    one = f"seq 1 from {' '.join(map(str, range(1, k + 1)))} {SPEC}"
    return {"text": program(";".join(["skip"] * k)), "derivation": derivation(rows + [one] * (n // len(one)))}


def short_lines(n):
    return {"text": program("skip"), "derivation": derivation([f"basic 1 {SPEC}"] * n)}


def large_premises(n):
    """Lines that name, each, two lines whose formulas have half of the bytes."""
    large = joined("and", ["(x=1)"] * (n // 24))
    rows = [f"basic 2 pre true rely true guar true post {large}", f"basic 3 pre {large} rely true guar true post true"]
    return {"text": program("skip;skip"), "derivation": derivation(rows + [f"seq 1 from 1 2 {SPEC}"] * (n // 124))}


def lines_of_one(n):
    """Lines of one large statement. Their conditions need no hint lines."""
    value = joined("+", ["x"] * (n // 9), 2)
    return {"text": program(f"x:={value}"), "derivation": derivation([f"basic 1 {SPEC}"] * (n // 57)), "proofs": ""}


def failing(n):
    words = " ".join(f"w{it}:64" for it in range(64))
    rows = [f"basic 1 pre true rely true guar true post (w0 = {it})" for it in range(n)]
    return {"text": program("w0 := (w0 + 1)", words), "derivation": derivation([*rows, f"basic 1 {SPEC}"])}


# Formulas to show


def sums(n):
    """A sum at 64 bits of 64 words, in an order that shares nothing."""
    words = [f"w{it}" for it in random.Random(n).choices(range(64), k=n)]
    return {"text": f"words {' '.join(f'w{it}:64' for it in range(64))}\nshow ({joined('+', words, 2)} = 1)\n"}


def sum_in_two_orders(n):
    words = [f"w{it}" for it in range(n)]
    other = [words[it * 7 % n] for it in range(n)]
    return {"text": f"words {' '.join(f'{it}:64' for it in words)}\nshow ({joined('+', words, 2)} = {joined('+', other, 2)})\n"}


def product(_):
    def of(one, other):
        return joined("+", [f"(if (({other} band {1 << it}) = {1 << it}) then ({one} shl {it}) else 0)" for it in range(10)], 2)

    return {"text": f"words x:10 y:10\nshow ({of('x', 'y')} = {of('y', 'x')})\n"}


# Programs that are accepted without a hint line


def accepted(text, count):
    rows = [f"basic {it + 2} {SPEC}" for it in range(count)]
    return {"text": text, "derivation": derivation(rows + [f"seq 1 from {' '.join(map(str, range(1, count + 1)))} {SPEC}"]), "proofs": ""}


def large_values(n):
    words = " ".join(f"w{it}:64" for it in range(8))
    rows = [f"w{it % 8} := {joined('+', [f'w{(it + at) % 8}' for at in range(100)], 2)}" for it in range(n)]
    kept = " and ".join(f"(w{it}' = w{it})" for it in range(8))
    return accepted(program(";\n".join(rows), words, f"pre true rely ({kept}) guar true post true"), n)


def of_16_words(_):
    """A loop whose step changes sixteen words of 64 bits."""
    step = "; ".join(f"w{it} := inv w{it}" for it in range(16))
    body = f"while true do await true do {step} end end"
    rows = [f"atomic 2 pre (true and true) rely true guar true post true", f"loop 1 from 1 {SPEC}"]
    return {"text": program(body, " ".join(f"w{it}:64" for it in range(64))), "derivation": derivation(rows), "proofs": ""}


def moves_of_64_words(n):
    """Moves that change 64 words each, of a program that waits for ever."""
    text = program("await (w0 = 9) do w0 := 0 end", " ".join(f"w{it}:64" for it in range(64)))
    moves = "".join(f"at 0 {' '.join(f'w{it}={at % 2 + 1}' for it in range(64))}\n" for at in range(n))
    return {"text": text, "derivation": derivation([f"atomic 1 {SPEC}"]), "proofs": "", "moves": moves}


# Outlines


def outline(*rows, words="words x:16"):
    return {"outline": "\n".join([words, *rows]) + "\n"}


SKIP = "part p begin skip end"


def quantifiers(n):
    return outline(f"pre all i in 1..{n}: some j in 1..50: (sum k in 1..20: i + j + k) > 0", SKIP)


def left_out(n):
    return outline(f"pre all i in 1..10: all j in 1..100 but {', '.join(['1'] * n)}: i + j > 0", SKIP)


def chain_of_lets(n):
    return outline("let n0 = x", *(f"let n{it + 1} = n{it}" for it in range(n)), f"pre n{n} = 1", SKIP)


def flat_lets(n):
    return outline(*(f"let n{it} = x + {it}" for it in range(n)), f"pre n{n - 1} = 1", SKIP)


def lets_used(n):
    """Names, and as many uses of the first of them."""
    return outline(*(f"let n{it} = x + {it}" for it in range(n)), f"pre all i in 1..{n // 50}: all j in 1..50: n0 = 1", SKIP)


def doubling_lets(n):
    return outline("let n0 = x + 1", *(f"let n{it + 1} = n{it} band n{it}" for it in range(n)), f"pre n{n} = 1", SKIP)


def invariants(n):
    return outline(*(f"invariant x != {it}" for it in range(n)), SKIP)


def large_text(n):
    """Sixteen parts, each of which repeats the invariant."""
    return outline("invariant " + " and ".join(f"x != {it}" for it in range(n)), "part p[i in 1..16] begin skip end")


def assertions(n):
    return outline("part p begin", *(f"{{ x != {it} }}" for it in range(n)), "skip end")


def members(n):
    step = "g[i mod 2][i mod 4][i mod 7] := g[(i + 1) mod 2][i mod 4][0]"
    return outline(f"part p begin for h in 1..{n // 50} do for i in 1..50 do {step} end end end", words="words g[0..1][0..3][0..6]:8")


def loops_over_nothing(n):
    return outline(f"part p begin skip; for i in 1..{n} do for j in 1..1000 do for k in 1..0 do skip end end end end")


def broken(n):
    """Each statement breaks its assertion."""
    return outline("part p owns x begin", "\n".join(f"x := {it}; {{ x = {it + 1} }}" for it in range(n)), "skip end")


def shared(n):
    """Each statement is one that is warned of."""
    body = ";\n".join(["x := x + y; y := y + x"] * n)
    return outline(*(f"part {it} begin {body} end" for it in "pq"), words="words x:16 y:16")


def counting(_):
    return outline("rely unchanged all", *(f"part {p} begin while true do x := x + {k} end end" for p, k in (("p", 1), ("q", 3), ("r", 7))), words="words x:32")


def stepping(n):
    """A part that counts its steps."""
    return outline("pre x = 0", f"post x = {n}", "part p owns x begin { x = 0 }", "\n".join(f"x := x + 1; {{ x = {it + 1} }}" for it in range(n)), "skip end")


def without(n):
    return outline("pre x = 0", f"post x = {n}", "part p owns x begin", ";\n".join("x := x + 1" for _ in range(n)), "end")


THREE = ["text", "derivation", "proofs"]
CHECK, EMIT, RUN = (["check", *THREE, "--threads", "1"], ["emit", *THREE, "--threads", "1"], ["run", *THREE, "--limit", "{}"])
CONDITIONS, OUTLINE = ["conditions", "text", "derivation"], ["outline", "outline"]
VERIFY = ["verify", "outline", "--threads", "1"]
CASES = (
    Case("number, deep values", ["number", "text"], deep_values, 128_000, says="1 p 4 skip\n"),
    Case("number, deep formulas", ["number", "text"], deep_formulas, 128_000, says="1 p 4 skip\n"),
    Case("number, many lines", ["number", "text"], many_lines, 128_000, says=" assign\n"),
    Case("number, long names", ["number", "text"], long_names, 128_000, says="1 p 4 assign\n"),
    Case("number, deep statements", ["number", "text"], deep_statements, 1, says="381 p "),
    Case("conditions, many premises", CONDITIONS, many_premises, 60_000, says=" all post\n"),
    Case("conditions, short lines", CONDITIONS, short_lines, 2_200, says=" all post\n"),
    Case("conditions, large premises", CONDITIONS, large_premises, 32_000, says=" all post\n", known="each line compares its premises' formulas anew"),
    Case("conditions, formulas of one", [*CONDITIONS, "--formulas"], lines_of_one, 4_000, says="true implies true)\n\n", most=OF_SQUARE, largest=1_000_000, known="all formulas are in memory before the first is printed"),
    Case("check, lines of one statement", CHECK, lines_of_one, 4_000, says="accepted\n", most=OF_SQUARE, largest=1_000_000, known="all conditions are in memory before the first is checked"),
    Case("check, many lines", CHECK, lambda n: {**short_lines(n), "proofs": ""}, 2_200, says="accepted\n"),
    Case("clauses, sums", ["clauses", "text"], sums, 1_500, says="p cnf ", largest=55_000),
    Case("clauses, sums in SMT-LIB", ["clauses", "text", "--format", "smt2"], sums, 10_000, says="(check-sat)\n"),
    Case("find, a sum in two orders", ["find", "text", "--steps", "100"], sum_in_two_orders, 8, 1, "gave up\n"),
    Case("find, steps", ["find", "text", "--steps", "{}"], product, 500, 1, "gave up\n"),
    Case("prove, conditions that fail", ["prove", "text", "derivation", "--threads", "1"], failing, 10, 1, " fails\n"),
    Case("emit, large values", EMIT, large_values, 20, says='"words":[["w0",64]'),
    Case("emit, large values as C", [*EMIT, "--format", "c"], large_values, 20, says="#endif"),
    Case("accesses, large values", ["accesses", *THREE, "--threads", "1"], large_values, 20, says="w0: 64 bits"),
    Case("run, sixteen words a step", RUN, of_16_words, 12_500, says="limit\n", largest=1_000_000),
    Case("run, sixteen words a step, as JSON", [*RUN, "--format", "json"], of_16_words, 4_000, says='"why":"limit"}\n', largest=1_000_000),
    Case("run, moves of 64 words", ["run", *THREE, "--moves", "moves"], moves_of_64_words, 250, says="stuck\n", largest=3_000),
    Case("outline, quantifiers in each other", OUTLINE, quantifiers, 20, says="end\n"),
    Case("outline, numbers left out", OUTLINE, left_out, 8_000, says="end\n"),
    Case("outline, a chain of let", OUTLINE, chain_of_lets, 100, says="end\n", known="a name's formula is worked out at each use"),
    Case("outline, many let", OUTLINE, flat_lets, 1_500, says="end\n", known="a name is looked up among all"),
    Case("outline, let used often", OUTLINE, lets_used, 1_500, says="end\n", known="a name is looked up among all"),
    Case("outline, let that doubles", OUTLINE, doubling_lets, 20, 1, "is too large"),
    Case("outline, invariants", OUTLINE, invariants, 800, says="end\n"),
    Case("outline, a large text", OUTLINE, large_text, 100, says="end\n"),
    Case("outline, assertions", OUTLINE, assertions, 400, says="end\n"),
    Case("outline, members of three indices", OUTLINE, members, 450, says="end\n"),
    Case("outline, for over nothing", OUTLINE, loops_over_nothing, 50, says="end\n"),
    Case("verify, reports", [*VERIFY, "--steps", "1000"], broken, 100, 1, "not verified: "),
    Case("verify, warnings", [*VERIFY, "--steps", "1000"], shared, 60, 0, "verified: "),
    Case("verify, steps of runs", [*VERIFY, "--runs-only", "--steps", "{}"], counting, 200_000, says="the steps are used up"),
    Case("verify, a long part", VERIFY, stepping, 25, says="verified: "),
    Case("complete, a long part", ["complete", "outline", "--threads", "1"], without, 8, 1, "tried: "),
    Case("challenge, a long part", ["challenge", "outline", "--threads", "1"], stepping, 8, says="verified: ", most=OF_SQUARE),
)
