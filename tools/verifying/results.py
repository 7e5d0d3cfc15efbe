"""What is told of a unit, as plain data that goes from one process to another: lines for people, and values for `--json`."""
import re
from typing import List, NamedTuple, Optional, Sequence, Tuple

from . import failures, following, identifiers, naming, telling
from .deciding import Mistake
from .failures import Told
from .helping import Help, help_of
from .retelling import Retold
from .run_files import scalar, spelled
from .spans import span
from .units import FAILS, UNDECIDED, VERIFIED, Failure

PROVE, VALUES, Z3, RUN, REPLAY = "prove", "values", "z3", "run", "replay"


class Label(NamedTuple):
    """What is told of a label that can fail. `of` is the label that it follows from, or nothing; `identifier` is Viper's; `end_column`
    is behind the last byte that is marked; `run` and `boogie_run` are the run files, `state` tells where they fail, `needs` what was
    needed there, and `trace` has the steps of the run."""
    label: str
    confirmed: bool
    why: str
    of: str
    identifier: str
    message: str
    line: int
    column: int
    end_column: int
    run: Optional[str]
    boogie_run: Optional[str]
    state: list
    needs: List[str]
    trace: List[dict]


class Error(NamedTuple):
    """What people are told of one mistake. `labels` are one, or the null and the perm of one access. `lines` has the message with its
    line of the file. `own` is the label at which the same part is checked by itself, in the unit `home`, where that is another unit,
    and `notes` are those at other places. `needs` tells what was needed and what was held, in one line where no run is shown. The other
    fields are empty there: `heading` and `trace` tell the run step by step, `run` is the run file with a comment for each choice, `state` tells
    where it fails, and `help` how to mend it."""
    labels: List[Label]
    place: Tuple[int, int]
    lines: List[str]
    of: str = ""
    own: str = ""
    home: str = ""
    notes: Sequence[str] = ()
    needs: Sequence[str] = ()
    trace: Sequence[str] = ()
    run: Sequence[str] = ()
    state: Sequence[str] = ()
    help: Sequence[Help] = ()
    heading: str = ""


class Open(NamedTuple):
    """A label of which nobody knows whether it can fail: its place, what is checked there in words, and why nobody knows."""
    label: str
    line: int
    column: int
    words: str
    why: str


class Result(NamedTuple):
    """What is known of a unit once all is looked at. `labels` are all that can fail, and `told_by` the programs whose word the verdict
    is."""
    unit: str
    verdict: str
    why: str
    labels: List[Label]
    open: List[Open]
    told_by: Sequence[str]
    seconds: float

    def is_checked(self):
        """Whether a program that is proved to be right showed that no run of it fails."""
        return self.verdict == VERIFIED and PROVE in self.told_by


class Teller:
    """Puts what is found of a unit into words. `wants_all` tells whether run and state are wanted of labels that are not shown."""

    def __init__(self, source, unit, is_boogie, wants_all, whole_trace=False, tells_needs=True):
        self.source, self.unit, self.is_boogie, self.wants_all = source, unit, is_boogie, wants_all
        self.whole_trace, self.tells_needs = whole_trace, tells_needs

    def told(self, label) -> Told:
        """What is told of one label."""
        return told_of_boogie(self.source, label, self.unit) if self.is_boogie else failures.told(self.source, label)

    def label(self, failure: Failure, of, is_shown) -> Label:
        """What is told of a failure, for programs."""
        told, run, state, needs, rows = self.told(failure.label), None, [], [], []
        if failure.confirmed and (is_shown or self.wants_all):
            if self.is_boogie:
                state = boogie_state(failure.end)[1]
            else:
                again = Retold(self.source, failure.run, failure.label)
                run, state, needs, rows = again.run_file(), again.state_data(), again.needs(), [it.data() for it in again.rows()]
                told.message = again.message(told.message)
        identifier = "" if self.is_boogie else identifiers.identifier(self.source, failure.label)
        end_column = span(self.source, told.line, told.column)[1] + 1
        return Label(failure.label, failure.confirmed, failure.why, of, identifier, told.message, told.line, told.column, end_column, run,
                     failure.boogie_run, state, needs, rows)

    def error(self, mistake: Mistake, examiner=None) -> Error:
        """What is told of one mistake; with an examiner, how it may be mended too."""
        names, first = [it.label for it in mistake.failures], shown_of(mistake)
        told = self.told(names[0]) if self.is_boogie else failures.joined(self.source, names)[0][0]
        again = Retold(self.source, first.run, first.label) if not self.is_boogie and first.confirmed and self.tells_needs else None
        told.message = again.message(told.message) if again else told.message
        labels = [self.label(it, mistake.of, mistake.is_shown) for it in mistake.failures]
        error = Error(labels, (told.line, told.column), telling.head_lines(self.source, told), mistake.of)
        error = error._replace(notes=telling.note_lines(self.source, told))
        if not self.is_boogie:
            error = error._replace(own=following.own_label(self.source, names[0]), home=following.home_of(self.source, names[0]))
        if not mistake.is_shown:
            return error._replace(needs=again.needs()[:1] if again and not mistake.of else [])
        if self.is_boogie:
            return error._replace(run=labels[0].boogie_run.splitlines(), state=boogie_state(first.end)[0])
        again = again or Retold(self.source, first.run, first.label)
        return error._replace(needs=again.needs(), heading=again.heading(), trace=again.lines(self.whole_trace), run=again.run_file().splitlines(),
                              state=again.state_lines(self.whole_trace), help=self.help(examiner, again, first.label))

    def help(self, examiner, again, label):
        """How a mistake may be mended."""
        found = help_of(examiner, self.source, again.again, label) if examiner is not None and again.again is not None else None
        return [found] if found else []

    def open(self, label, why) -> Open:
        """What is told of a label that is not decided."""
        told = self.told(label)
        words = told.message if self.is_boogie else naming.named(self.source, label) or told.message
        return Open(label, told.line, told.column, words, why)

    def told_by(self, outcome, asked_z3) -> List[str]:
        """The programs whose word the verdict on a unit is."""
        if outcome.verdict != FAILS:
            return [Z3 if asked_z3 else VALUES]
        return [REPLAY] if self.is_boogie else [RUN, REPLAY]


def whose_word(results) -> str:
    """On whose word some units are verified that nothing proves."""
    by_z3 = [Z3 in it.told_by for it in results]
    return " and ".join(["the word of `values`"] * (not all(by_z3)) + ["z3's word"] * any(by_z3))


def not_confirmed(label: Label) -> str:
    """What is told of a label that fails at some values, as no run confirms."""
    return f"not confirmed: values were found at which this fails: {label.message}; but {label.why}"


def shown_of(mistake: Mistake) -> Failure:
    """The failure whose run is shown: of null and permission to one access that for permission, in which the object is there."""
    return next((it for it in mistake.failures if it.label.endswith(" perm")), mistake.failures[0])


def told_of_boogie(source, label, procedure):
    """What is told of a label of a program of Boogie, at the first place where it stands, with notes at the others. The places in
    the procedure itself come first: a label of a contract stands in another one."""
    own = re.search(rf"^\s*procedure\s+{re.escape(procedure)}(?![\w$'])", source.text, re.M)
    behind = re.compile(r"^\s*procedure\s", re.M).search(source.text, own.end()) if own else None
    inside = range(own.start(), behind.start() if behind else len(source.text)) if own else range(0)
    found = sorted([it.start() for it in re.finditer(re.escape(f'"{label}"'), source.text)], key=lambda at: (at not in inside, at))
    (line, column), *others = [place_in(source.data, at) for at in found or [0]]
    kind = label.split()[-1]
    notes = [(*it, "an assertion with the same label, of which the same is told") for it in others]
    return Told(line, column, f"the assertion `{label}` might fail: {failures.PLAIN.get(kind, kind)}", notes)


def place_in(data, at):
    """The line and the column of a byte."""
    return data.count(b"\n", 0, at) + 1, at - data.rfind(b"\n", 0, at)


def boogie_state(walk):
    """The values of the variables of a program of Boogie where a walk ended: of a map those that were looked at."""
    data = []
    for name, (keys, base) in walk.procedure.locals.items():
        it = walk.env[name]
        if not keys:
            data.append({"variable": name, "value": spelled(it, base)})
            continue
        for key in sorted({**it.source.touched, **it.changed}):
            words = [scalar(part, its) for part, its in zip(key, keys)]
            data.append({"variable": f"{name}[{', '.join(words)}]", "value": spelled(it.get(key), base)})
    return ([", ".join(f"{it['variable']} = {it['value']}" for it in data)] if data else []), data


def unknown(unit, why) -> Result:
    """What is told of a unit of which nothing is known."""
    return Result(unit, UNDECIDED, why, [], [], (), 0.0)
