"""A C header that `rgc emit --format c` prints, as far as scripts need it: its words, what its comment counts, and its functions.

    header = headers.read(printed, "rg", code)

The code is the listing of the same program, as `rgc emit` prints it."""
import dataclasses
import re

# What the comment at the head counts, with the words around the number.
COUNTS = {
    "steps": r"Steps: (\d+)",
    "alone": r"(\d+) meets? no other part",
    "loads": r"(\d+) (?:is |are )?one load",
    "stores": r"(\d+) (?:is |are )?one store",
    "exchanges": r"(\d+) (?:is |are )?one compare-and-exchange",
    "selects": r"(\d+) access(?:es)? one of several words",
    "sections": r"(\d+) (?:is |are )?a critical section",
}
TRACE = re.compile(r"\n *RGC_AT\(\d+, \d+\);")


class Fault(Exception):
    """What is wrong with a header."""


def demand(holds, what):
    if not holds:
        raise Fault(what)


@dataclasses.dataclass(frozen=True)
class Header:
    """A header. `members` are those of its struct, by the words' numbers in the listing; a word without one is left out. `kinds` are those of `declared`.
    `moved` are the members that the outside world writes."""

    text: str
    members: dict
    kinds: dict
    counts: dict
    rounds: tuple
    start: dict
    moved: set


def without_trace(text):
    """The text of a header without its marks."""
    return TRACE.sub("", text)


def functions_of(text, name):
    """The functions of parts in their order: what the name has after the title, and the lines of the body without their indentation, blocks without lines left out."""
    for found in re.finditer(rf"^static inline void {name}_(\w+)\(struct {name} \*w\)\n\{{\n    \(void\)w;\n(.*?)^\}}", text, re.M | re.S):
        yield found[1], [it.strip() for it in found[2].splitlines()]


def without_operations(text, name):
    """The text of a header without the functions that stand for uses of named statements."""
    return re.sub(rf"(?:\n/\*[^*]*\*/|\n)\nstatic inline void {name}_perform_\w+\(.*?^\}}\n", "", text, flags=re.M | re.S)


def check_operations(text, name):
    """Sees that each function that stands for a use of named statements has lines that stand together in the function of its part; their number."""
    last, count = [], 0
    for role, lines in functions_of(text, name):
        kind, _, part = role.partition("_")
        if kind != "perform":
            # (the function that calls a round follows it)
            last = lines if kind == "round" or f"{name}_round_{part}(w);" not in lines else last
            continue
        stands = any(last[at : at + len(lines)] == lines for at in range(len(last)))
        demand(lines and stands, f"{name}_{role} isn't what its part does")
        count += 1
    demand(count == text.count(f"\nstatic inline void {name}_perform_"), "a function that stands for a use isn't read")
    return count


def check_loops(text):
    """Sees that each loop tests nothing: a compiler may not take for granted that such a loop ends."""
    bare = re.sub(r"/\*.*?\*/", "", text, flags=re.S)
    found = {it.strip() for it in re.findall(r"^.*\b(?:for|while|do|goto)\b.*$", bare, re.M)} - {"for (;;) {"}
    demand(not found, f"a loop is printed otherwise: {sorted(found)[:1]}")


def declared(text, name):
    """The members of the struct in order, each item of an array by itself: the name, as `head` or `slot[0]`, a kind, and the comment. The kind is `const`, `atomic`
    or `plain`, `apart` for a plain one at which assertions keep the parts apart, or `world` for an atomic one that others than parts write."""
    found = re.search(rf"^struct {name} \{{\n(.*?)^\}};", text, re.M | re.S)
    demand(found, f"there is no struct {name}")
    others = dict(re.findall(r"^ +/\* (\w+\[\d+\]): (.*?) \*/$", found[1], re.M))
    members = []
    for it, array, count, comment in re.findall(r"^ +([^/*\s][^;\n]*?)\b(\w+)(?:\[(\d+)\])?;(?: */\*(.*?)\*/)?", found[1], re.M | re.S):
        for member in [f"{array}[{item}]" for item in range(int(count))] if count else [array]:
            note = others.pop(member, comment)
            kind = "const" if it.startswith("const ") else "apart" if "RGC_APART(" in it else "plain" if "RGC_ATOMIC(" not in it else "world" if "outside" in note else "atomic"
            members.append((member, kind, note))
    demand(not others, f"{[*others][:1]} is no item of an array")
    return members


def numbered(members, words):
    """The members by the numbers of their words, which stand in the order of the words; each is called as its word, or has `w_` before it, and an item as
    `slot[0]` is the word `slot_0`."""
    found, number = {}, 0
    for member, kind, _ in members:
        called = re.sub(r"\[(\d+)\]$", r"_\1", member)
        while number < len(words) and called not in (words[number][0], f"w_{words[number][0]}"):
            number += 1
        demand(number < len(words), f"{member} isn't the name of a word, or stands before another one")
        found[number] = (member, kind)
        number += 1
    return found


def counts_of(text):
    """What the comment at the head counts."""
    comment = re.sub(r"\s+", " ", re.sub(r"^ \*", "", text.partition("*/")[0], flags=re.M))
    found = {name: re.search(form, comment) for name, form in COUNTS.items()}
    demand(all(found.values()), f"its comment doesn't count {', '.join(name for name, it in found.items() if not it)}")
    counts = {name: int(it[1]) for name, it in found.items()}
    demand(counts["steps"] == sum(counts.values()) - counts["steps"], "what its comment counts doesn't add up")
    entered = len(re.findall(r"^ +RGC_ENTER\(w\);$", text, re.M))
    demand(counts["sections"] == entered, f"its comment counts {counts['sections']} sections, and {entered} are entered")
    return counts


def start_of(text, name, members):
    """The values that RGC_START_NAME gives, 0 for the others, by the words' numbers; or None where there is no such macro."""
    found = re.search(rf"^#define RGC_START_{name} \{{ (.*) \}}$", text, re.M)
    if not found:
        return None
    values = {member: int(value) for member, value in re.findall(r"\.(\w+(?:\[\d+\])?) = (?:UINT64_C\()?(\d+)", found[1])}
    return {number: values.get(member, 0) for number, (member, _) in members.items()}


def accessed(line, members):
    """The accesses of a line, in order: the members, of which one is accessed, and where the access ends."""
    found = []
    for it in re.finditer(r"w->(\w+)", line):
        end, depth = it.end(), 0
        if line.startswith("[", end):
            for end in range(end, len(line)):
                depth += {"[": 1, "]": -1}.get(line[end], 0)
                if not depth:
                    break
            end += 1
        member = line[it.start(1) : end]
        found.append(([member] if member in members else [other for other in members if other.startswith(f"{it[1]}[")], end))
    return found


def accesses_of(text, name, members):
    """The accesses that stand in the functions of the parts, in order: the part, the member, whether it is assigned, and whether that is in a section."""
    found, part, inside = [], None, False
    for line in without_operations(re.sub(r"/\*.*?\*/", "", text, flags=re.S), name).split("\n"):
        head = re.match(rf"static inline \w+ {name}_(?:(?:run|round)_)?(\w+)\(", line)
        part = head[1] if head and " void " in line else None if head else part
        inside = (inside or "RGC_ENTER(w)" in line) and "RGC_LEAVE(w)" not in line
        if part:
            is_store = re.match(r" *RGC_STORE\(&w->| *w->", line)
            for at, (several, end) in enumerate(accessed(line, members)):
                is_assigned = bool(is_store) and at == 0 and line.startswith((" = ", ","), end)
                found += [(part, member, is_assigned, inside) for member in several]
    return found


def check_accesses(header, name):
    """Sees that of the members that two parts access and one assigns a plain one is accessed in sections alone."""
    parts, assigned, places = {}, set(), {}
    for part, member, is_assigned, inside in accesses_of(header.text, name, header.kinds):
        parts.setdefault(member, set()).add(part)
        places.setdefault(member, set()).add(inside)
        assigned |= {member} if is_assigned else set()
    for member in sorted(it for it in assigned if len(parts[it]) > 1 and header.kinds[it] == "plain"):
        demand(places[member] == {True}, f"{member} is plain, and not accessed in sections alone")


def read(text, name, code):
    """The header, of which a name is the prefix."""
    check_loops(text)
    check_operations(text, name)
    fields = declared(text, name)
    members = numbered(fields, code["words"])
    names = {number: member for number, (member, _) in members.items()}
    rounds = tuple(re.findall(rf"^static inline void {name}_round_(\w+)\(", text, re.M))
    moved = {member for member, _, note in fields if re.search(r"; written by .*\boutside\b", note)}
    return Header(text, names, dict(members.values()), counts_of(without_operations(text, name)), rounds, start_of(text, name, members), moved)
