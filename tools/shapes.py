"""Judges from what the prover says why a change was refused: because a fact fails, or only because a text no longer fits. For tools/refused and tools/mutants.

An error stands on a line `FILE:LINE:COLUMN: error: ..` and in the indented lines after it. It is one of
  - a consequence: a declaration that it depends on was not admitted. It says nothing by itself,
  - unfit: a file cannot be read, or an invariant or a measure is not of its loop's variables. Nothing that follows is known then,
  - gone: an answer or a lemma names a goal, a step, a field or another name that is not there, whether or not the facts hold,
  - a fact: all else, such as a failed `omega` with its values, or two sides that differ.
A goal that no file answers, and that Rattle itself does not prove, has no error: a line `note: FILE:LINE:COLUMN: it is not proved that ..` says so.

Each goal is proved by itself, so an error that is a fact does not follow from a name that is gone elsewhere. But a goal that no file answers may be open only because
its answer stands under a name that is gone: such a note is a fact where nothing is gone, or where it says that the goal can be false.

A definition with a changed type is taken for a fact: a log does not distinguish it from a false claim.
"""
import re

CONSEQUENCE = re.compile(r" which was (?:not admitted|rejected), w(?:as|ere) not checked")
UNFIT = [
    (re.compile(r": error: (?!`)"), "a file cannot be read, or it uses a file that is not there"),
    (re.compile(r"Invariants\.antt:\d+:\d+: error: "), "an invariant or a measure does not fit its loop's variables"),
]
GONE = [
    (re.compile(r" that can be named from here"), "a goal or another name is gone"),
    (re.compile(r" is not in scope"), "a name is gone"),
    (re.compile(r" has no field `| is not a field of record "), "a step on the way through the function, or a field, is gone"),
]
OPEN = re.compile(r"(?m)^note: \S+:\d+:\d+: it is not proved that (.*)")
CAN_BE_FALSE = "; the facts known there allow values"


def errors(log):
    """each error of the log with the lines that belong to it, as one line"""
    found = []
    for line in log.splitlines():
        if ": error" in line and not line.startswith((" ", "note: ", "help: ")):
            found.append(line)
        elif line.startswith(" ") and found and found[-1]:
            found[-1] += " " + line.strip()
        else:
            found.append("")
    return [error for error in found if error]


def shape(log):
    """why the change shows nothing where only a text no longer fits, or None"""
    own = [error for error in errors(log) if not CONSEQUENCE.search(error)]
    unfit = [why for error in own for words, why in UNFIT if words.search(error)]
    gone = [[why for words, why in GONE if words.search(error)] for error in own]
    if unfit or not gone or not all(gone) or any(CAN_BE_FALSE in said for said in OPEN.findall(log)):
        return unfit[0] if unfit else None
    return gone[0][0]


def fact(log):
    """whether something is said not to hold: to be asked where there is no shape"""
    return bool(OPEN.search(log)) or any(not CONSEQUENCE.search(error) for error in errors(log))


def is_open_only(log):
    """whether all that it says is that a goal is not proved, without values: whether that is a fact turns on the rest of the prover's output"""
    return bool(OPEN.search(log)) and not errors(log) and CAN_BE_FALSE not in log
