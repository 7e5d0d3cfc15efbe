"""What is known of a unit and told at places of its file, as plain data that goes from one process to another."""
from typing import NamedTuple, Optional, Tuple

from ..helping import Help
from ..shown_run import ShownRun


class Finding(NamedTuple):
    """What is told of a place: `severity` is error, warning or note; `code` is the kind of it; `notes` have a line, a column and words;
    `label` is the number of the run that shows it, or None. Where a part of a contract or a body fails that is checked by itself, `part`
    is its place, and `home` the name of the unit that has it, where that is another unit."""
    line: int
    column: int
    severity: str
    code: str
    message: str
    notes: Tuple[Tuple[int, int, str], ...] = ()
    helps: Tuple[Help, ...] = ()
    label: Optional[int] = None
    part: Optional[Tuple[int, int]] = None
    home: str = ""


class Verdict(NamedTuple):
    """What is known of a unit. `is_proved` tells whether that it is verified is a proved program's word, and `is_whole` that nothing more
    will come."""
    unit: str
    verdict: str
    why: str
    findings: Tuple[Finding, ...]
    runs: Tuple[ShownRun, ...]
    is_proved: bool
    is_whole: bool


def moved(verdict, place, gap):
    """A verdict with its places in another version of the file. `place` gives for the place of a token the new one, or None, and `gap`
    for a place between two tokens."""
    findings = [moved_finding(it, place, gap) for it in verdict.findings]
    runs = [it._replace(**at(it, place), steps=[step._replace(**at(step, place)) for step in it.steps]) for it in verdict.runs]
    return verdict._replace(findings=tuple([it for it in findings if it is not None]), runs=tuple(runs))


def at(it, place):
    line, column = place(it.line, it.column) or (0, 0)
    return {"line": line, "column": column}


def moved_finding(finding, place, gap):
    """A finding at its new place, or None where its old one is no more. Its ways to mend it stand where both of their ends do."""
    found = place(finding.line, finding.column)
    if found is None:
        return None
    notes = [(*there, words) for there, words in [(place(line, column), words) for line, column, words in finding.notes] if there]
    return finding._replace(line=found[0], column=found[1], notes=tuple(notes), part=place(*finding.part) if finding.part else None,
                            helps=tuple([it for it in [moved_help(it, lambda *at: place(*at) or gap(*at)) for it in finding.helps] if it is not None]))


def moved_help(help_, place):
    edits = []
    for it in help_.edits:
        begin = place(it.line, it.column)
        if begin is None:
            return None
        shift = it.end_line - it.line, it.end_column - it.column * (it.line == it.end_line)
        end = (begin[0] + shift[0], begin[1] + shift[1] if shift[0] == 0 else it.end_column)
        edits.append(it._replace(line=begin[0], column=begin[1], end_line=end[0], end_column=end[1]))
    return help_._replace(edits=tuple(edits))
