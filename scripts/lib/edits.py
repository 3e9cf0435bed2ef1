"""Wrong bodies: what an edit changes, which edits one check can try together, and what the check says of each.

An edit belongs to the functions around the lines that it changes. One check can try edits of many functions at once, one for
each, since each function is proved against its own contract, and against those alone of what it calls. An edit is

  refused   where a goal of the edited function itself isn't proved: by a note at a line of the function, an error in its
            proof files, or a goal that search left
  survives  where the edited function is proved
  bad       where it can't be applied, its text isn't read, or no goal of the function is at fault

An edit outside every function (of a constant, a definition, a proof), or of a function's head with its contract, is tried
alone: there a goal of any function refuses it, as it does for the gate."""

import collections
import difflib
import os
import re

import project
from functions import functions_in, key, names_of

HOMES = ("must-fail", "more-must-fail")
# What the prover says of a proof file where the edit took away a name that it uses.
NAMES = re.compile(r"has no field|is not in scope|has no `|was not admitted")

# The text is that of the edit's file. The changes are, for each file of the crate, the lines that are replaced (from, up to) and by what.
Edit = collections.namedtuple("Edit", "name text changes functions is_of_bodies why_bad", defaults=(None, (), False, None))


def files_of(crate, homes=HOMES):
    """Returns the paths of a crate's edits, as in more-must-fail/bytes_lost.edit, sorted."""
    folders = [it for it in homes if os.path.isdir(f"{crate.folder}/{it}")]
    return sorted(f"{it}/{file}" for it in folders for file in os.listdir(f"{crate.folder}/{it}") if file.endswith(".edit"))


def texts_of(crate):
    """Returns the texts that a proof of the crate reads, by their paths."""
    return {os.path.relpath(it, crate.folder): project.text_of(it) for it in project.files_of(crate)}


def read(name, crate, copy, texts):
    """Returns the edit in this file of the crate, which is to be applied to its copy with these texts."""
    path = f"{crate.folder}/{name}"
    text = project.text_of(path)
    edited, why = project.toolchain().read_edit(path, copy.folder)
    if why:
        return Edit(name, text, why_bad=why)
    changes, found, is_of_bodies = {}, set(), True
    for file, changed in edited.items():
        old, new = texts[file].split("\n"), changed.split("\n")
        parts = [it[1:] for it in difflib.SequenceMatcher(None, old, new, autojunk=False).get_opcodes() if it[0] != "equal"]
        changes[file] = [(i, k, new[j:m]) for i, k, j, m in parts]
        before, after = ({key(it): it for it in functions_in(file, text)} for text in (texts[file], changed))
        lines = [(before, line) for i, k, _, _ in parts for line in range(i, k) if old[line].strip()]
        lines += [(after, line) for _, _, j, m in parts for line in range(j, m) if new[line].strip()]
        for known, line in lines:
            at = next((it for it in known if known[it].first <= line <= known[it].last and file.startswith("src/")), None)
            found.add(at)
            # (a head, with its contract, is in the goals of those that call the function)
            is_of_bodies &= at in before and at in after and before[at].head == after[at].head
    if not any(changes.values()):
        return Edit(name, text, why_bad="it changes nothing")
    return Edit(name, text, changes, () if None in found else tuple(sorted(found)), is_of_bodies and bool(found))


def only(edits, crate, known):
    """Returns the words that have a check look at the functions of these edits alone, and at what they call. Takes the names of functions that the crate's own check knows.
    Returns none where it knows no such function."""
    words = []
    for function in sorted({function for it in edits for function in it.functions}):
        names = names_of(function, crate, known)
        # (a function's closures come with it, and an edit can take them away)
        names = [it for it in names if "::fn::" not in it and not any(it.startswith((f"{other}::", f"{other}+")) for other in names)]
        if not names:
            return []
        words += [word for it in names for word in ("--only", it)]
    return words


def applied(edits, texts):
    """Returns the texts of the files that these edits change together, or None where two change the same lines."""
    changed = {}
    for file in {file for it in edits for file in it.changes}:
        lines = texts[file].split("\n")
        changes = sorted((i, k, new) for it in edits for i, k, new in it.changes.get(file, ()))
        if any(after[0] <= before[1] for before, after in zip(changes, changes[1:])):
            return None
        for i, k, new in reversed(changes):
            lines[i:k] = new
        changed[file] = "\n".join(lines)
    return changed


def rounds(edits, texts):
    """Deals the edits into rounds, at most one for each function in each."""
    left, dealt = [*edits], []
    while left:
        taken, used = [], set()
        for it in left:
            if not used & {*it.functions} and applied([*taken, it], texts) is not None:
                taken.append(it)
                used |= {*it.functions}
        dealt.append(taken)
        left = [it for it in left if it not in taken]
    return dealt


class Heard:
    """What one check of a crate, with these changed texts in place of some of its own, said of each function."""

    def __init__(self, status, said, crate, changed, texts):
        self.crate, self.lines, self.is_proved = crate, said.rstrip("\n").split("\n"), status == 0
        self.of = dict(re.findall(r"(?m)^fn (\S+?): (.*)", said))
        sources = {file: text for file, text in {**texts, **changed}.items() if file.startswith("src/")}
        self.spans = {key(it): it for file, text in sources.items() for it in functions_in(file, text)}
        # the lines that say that the text was not read, so that the check says nothing of any function
        self.unread = [it for it in self.lines if project.toolchain().unread(it, changed)]
        if not self.unread and not (status in (0, 1, 3) and self.lines[-1].startswith(("logic=", "only="))):
            self.unread = [it for it in self.lines if re.match(r"error|\S+:\d+:\d+: error", it)] or self.lines

    def within(self, function, lines):
        """Returns those of the lines that name a place in the function."""
        span, found = self.spans.get(function), []
        for it in lines:
            at = re.match(r"(?:note: )?(?:\./)?(src/\S+?):(\d+):\d+", it)
            if at and span and at[1] == span.file and span.first < int(at[2]) <= span.last + 1:
                found.append(it)
        return found

    def of_function(self, function):
        """Returns refused, survives, or called where only what it calls is at fault, and the line that says so."""
        names = names_of(function, self.crate, self.of)
        folders = tuple(f"./proofs/{it.partition('::')[2].replace('::', '/')}/" for it in names)
        errors = [it for it in self.lines if folders and it.startswith(folders) and ": error: " in it]
        goals = [it for it in self.lines if any(it.startswith(f"fn {name}: ") for name in names) and "did not prove" in it]
        notes = self.within(function, [it for it in self.lines if "it is not proved" in it])
        if goals or notes or errors:
            # (which says little of the contract)
            by_name = errors and not goals and all(NAMES.search(it) for it in errors)
            return "refused", "only as a proof file names what it took away: " * bool(by_name) + (notes or errors or goals)[0]
        if names and all(self.of[it].startswith("proved") for it in names):
            return "survives", ""
        return "called", next((f"{it}: {self.of[it]}" for it in names if not self.of[it].startswith("proved")), "the check names no such function")

    def together(self, edit):
        """Returns the answer for an edit of bodies that others were tried with, and the line that says so. The answer is None where what the function calls is at fault."""
        reported = [self.of_function(it) for it in edit.functions]
        refused = [why for answer, why in reported if answer == "refused"]
        if refused:
            return "refused", refused[0]
        return ("survives", "") if all(answer == "survives" for answer, _ in reported) else (None, "")

    def in_cycles(self, edit):
        """Returns the errors in the proofs of functions that call each other, which lie in one folder for all of them, beside an edited function."""
        names = [name for it in edit.functions for name in names_of(it, self.crate, self.of)]
        modules = {it.partition("::")[2].rpartition("::")[0].replace("::", "/") for it in names}
        folders = tuple(f"./proofs/{it}/+" for it in modules)
        return [it for it in self.lines if folders and it.startswith(folders) and ": error: " in it]

    def alone(self, edit):
        """Returns the answer for an edit that was tried alone, and the line that says so."""
        if self.unread:
            return "bad", f"it is not read: {self.unread[0]}"
        if not edit.is_of_bodies and not self.is_proved:
            goals = [it for it in self.lines if "it is not proved" in it or re.match(r"fn \S+: .*did not prove", it) or ": error: " in it]
            return "refused", (goals or self.lines)[0]
        answer, why = self.together(edit) if edit.is_of_bodies else (None, "")
        if answer:
            return answer, why
        if self.is_proved:
            return "survives", ""
        errors = self.in_cycles(edit)
        if errors:
            return "refused", "only as a proof file names what it took away: " * all(NAMES.search(it) for it in errors) + errors[0]
        faults = [why for _, why in map(self.of_function, edit.functions) if why]
        return "bad", f"no goal of the edited function is at fault: {(faults or self.lines[-1:])[0]}"
