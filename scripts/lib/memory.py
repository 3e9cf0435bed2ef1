"""Where the sources say that memory was refused, and why there.

A refusal for memory is made of an `AllocError` or of its like, which any source may write. So each place that writes one, or notes that memory was refused,
stands in a list, by its function. A place that isn't listed, or is gone, is reported."""

import collections
import glob
import os
import re

import functions
import project

# What is written as a type, and what is written as a value that says that memory was refused, or as a note of it.
TYPES = re.compile(r"(?:<|, |: )AllocError(?=>| *\)| *[{])|From<AllocError>")
SAYS = re.compile(r"\bAllocError\b|\b\w+::Memory\b|\bFault::memory\(\)|\b(?:lacks_memory|is_short) = true|\bout_of_memory = (?!false)|\bis_refused = (?!false)")
# What stands before and after a value that something is compared with, or a pattern.
COMPARED = re.compile(r"(?:==|!=|\blet|\||matches!\([^()]*,)$")
PATTERN = re.compile(r"\s*\)*\s*(?:=>|\||if\b|=(?!=))")

# Each place, by its crate, its file and its function; a function stands here once for each of its places.
LISTED = {
    "a call that needs an allocation answered an error, which is nothing else": """
        rg_parse/parse_programs.rt:refuse rg_hints/marks.rt:insert rg_hints/memo.rt:take_unit rg_hints/memo.rt:copy rg_monitor/gather.rt:take
        rg_runner/table.rt:send_record rg_solver/reduction.rt:drop_weak rg_solver/table.rt:add rg_solver/table.rt:extend
        rg_outline_syntax/parser.rt:want_stored rg_outline_terms/scope.rt:want_stored rg_outline_reports/faults.rt:refused
        rg_outline_reports/faults.rt:refused_expansion rg_outline_reports/files.rt:copied rg_outline_reports/input_faults.rt:refused_input
        rg_outline_reports/outlined.rt:map rgc_answers/judged.rt:found_text
        rgc_system/memory.rt:put rgc_program/names.rt:files_at rgc_commands/meaning.rt:unmeant
    """,
    "an error of the allocator is turned into one that says the same": """
        rg_words/refusal.rt:from rg_words/refusal.rt:from rg_shape/shape.rt:from rg_shape/shape.rt:from rg_gates/lib.rt:from rg_gates/lib.rt:from
        rg_outline_syntax/fault.rt:memory rg_outline_syntax/fault.rt:from rg_outline_syntax/fault.rt:from rg_outline_reports/files.rt:from
        rg_outline_reports/input_faults.rt:from rg_outline_reports/input_faults.rt:from rg_outline_meaning/meaning.rt:
        rg_outline_meaning/meaning.rt:from rg_outline_meaning/meaning.rt:from rg_outline_meaning/meaning.rt:from
        rg_outline_meaning/parts.rt:stands_for
    """,
    "what was called said so, or it was noted": """
        rg_parse/parse.rt:refusal rg_parse/parse_programs.rt:refuse rg_clauses/condition.rt:refusal_of rg_pool/pieces.rt:joined
        rg_pool/proving.rt:prove_each_all rg_runner/log.rt:take rg_runner/table.rt:move_once rg_runner/threads.rt:join_workers
        rg_runner/threads.rt:join_all rg_search/answer.rt:solve rg_find/answer.rt:confirmed rg_apart/search.rt:is_found rgc/proofs_found.rt:are_proved
        rg_outline_reports/faults.rt:fits rg_outline_reports/faults.rt:refused rg_outline_reports/files.rt:copied
        rg_outline_reports/input_faults.rt:of_tokens rg_outline_reports/input_faults.rt:push_sentence_of rg_outline_reports/json.rt:value
        rg_outline_reports/slots.rt:leading_assertions rgc_outlines/asked.rt:has_proofs rgc_outlines/candidates.rt:unless_refused
        rgc_outlines/claims.rt:is_so rgc_outlines/unproved.rt:lines_if_so rgc_outlines/walk.rt:push_stuck_warning rgc_outlines/warnings.rt:push_found
        rgc_inductive/asked.rt:unknown rgc_inductive/conditions.rt:unless_refused rgc_inductive/elaborated.rt:formula_of
        rgc_commands/outlines.rt:outlined_in rgc_commands/meaning.rt:unmeant rgc_program/completed.rt:print_verdict rgc_program/completed.rt:refused rgc_program/contents.rt:bytes_of
        rgc_program/call.rt:whole rgc_program/call.rt:condition_names rgc_program/outline.rt:unless_refused rgc_program/outline.rt:run_over rgc_program/outline.rt:run_from
        rgc_program/words.rt:work rgc_system/place.rt:identity_of
        rgc_system/replace.rt:write_outputs rgc_system/used.rt:follow
    """,
    "a thread can't be had, or has too small a stack, which is refused as memory is": """
        rg_pool/pieces.rt:begin rg_runner/threads.rt:start_workers rg_runner/threads.rt:start_all rgc_program/lib.rt:work_with_room
    """,
}


def places(crate):
    """Returns the file and the function of each place of a crate that says that memory was refused, with its line."""
    found = []
    for path in sorted(glob.glob(f"{crate.folder}/src/**/*.rt", recursive=True)):
        source = project.text_of(path)
        plain = functions.LITERALS.sub(lambda it: re.sub(r"[^\n]", " ", it[0]), source)
        plain = re.sub(r"^\s*(?:pub )?use [^;]*;", lambda it: re.sub(r"[^\n]", " ", it[0]), plain, flags=re.M)
        file, known = os.path.relpath(path, f"{crate.folder}/src"), functions.functions_in(path, source)
        for it in SAYS.finditer(TYPES.sub(lambda it: " " * len(it[0]), plain)):
            line = plain.count("\n", 0, it.start())
            if COMPARED.search(plain[: it.start()].rstrip()) or PATTERN.match(plain[it.end() :]):
                continue
            of = next((each.name for each in known if each.first <= line <= each.last), "")
            found.append((f"{crate.name}/{file}:{of}", source.split("\n")[line].strip()))
    return found


def complaints():
    """Returns a line for each place that isn't listed, and for each that is and is gone."""
    found = [it for crate in project.crates() if not crate.has_tests for it in places(crate)]
    listed, there = collections.Counter(" ".join(LISTED.values()).split()), collections.Counter(name for name, _ in found)
    new = [f"{name}: says that memory was refused, and isn't listed: {line}" for name, line in found if there[name] > listed[name]]
    return new + [f"{name}: is listed, and doesn't say so" for name in listed if listed[name] > there[name]]
