"""Decides the labels of a unit one after the other, in an order in which each mistake is told once, and before what comes of it.

First come the labels of a specification that is checked by itself. What fails at its users for the same part is set aside. Of the
others those come first that a failing run passes, if they can fail as well. What can fail only behind a label that fails is told last."""
from typing import Callable, Dict, List, NamedTuple

from . import following
from .believing import believable
from .cache import KnownRun
from .search import PLAIN, WAYS
from .units import FAILS, UNDECIDED, VERIFIED, Examiner, Failure, Passing

AT_ONCE, ALONE = 0.3, 0.8  # parts of the time that is left, for all labels at once and for each alone
ELSEWHERE = "the values that z3 finds lead elsewhere"
OTHER_KIND = {"null": "perm", "perm": "null"}


class Mistake(NamedTuple):
    """What is told as one: a failure, or those for null and for permission of one access. `of` is the label that it follows from, or
    nothing, and `is_shown` tells whether its run is to be shown."""
    failures: List[Failure]
    of: str
    is_shown: bool


class Wants(NamedTuple):
    """What is wanted of a unit: whether of labels that follow from others too, the run of its first mistake or those of all, and how
    many mistakes are told in order, where 0 stands for all."""
    followers: bool
    first_run: bool
    all_runs: bool
    errors: int


class Outcome(NamedTuple):
    """What is known of a unit: `open` has the labels that nobody decided, and why."""
    verdict: str
    failures: List[Failure]
    open: Dict[str, str]


class Decider:
    """Decides the labels of the unit of an examiner, and calls `tell` with each mistake. `left` has the labels that are not decided, in
    order, `open` those of them that were given up, and why, and `set_aside` those that follow from others. `known` has runs from before,
    by the labels at which they failed, and `runs` those that fail now."""

    def __init__(self, examiner: Examiner, source, wants: Wants, tell: Callable[[Mistake], None], known: Dict[str, KnownRun]):
        self.known, self.runs = dict(known), {}
        self.examiner, self.source, self.wants, self.tell = examiner, source, wants, tell
        self.left, self.open, self.set_aside = dict.fromkeys(examiner.possible()), {}, {}
        self.failures: Dict[str, Failure] = {}
        self.behind: List[Mistake] = []
        self.own = {} if examiner.task.is_boogie else {it: following.own_label(source, it) for it in self.left}
        self.first = [it for it, own in self.own.items() if own == it and not following.is_of_loop(source, it)]
        self.told, self.has_followers = 0, False

    def outcome(self) -> Outcome:
        """Decides all labels, and returns what is known then."""
        order = {label: n for n, label in enumerate(self.left)}
        if len(self.first) < len(self.left):
            self.decide(self.first)
        self.decide(list(self.left))
        for it in self.behind:
            self.tell(it)
        if self.wants.followers:
            self.has_followers = True
            self.left.update(self.set_aside)
            self.decide(list(self.set_aside))
        found = sorted(self.failures.values(), key=lambda it: order[it.label])
        is_failing = any([it.confirmed for it in found])
        return Outcome(FAILS if is_failing else UNDECIDED if found or self.open else VERIFIED, found, self.open)

    def decide(self, wanted):
        """Decides labels: all at once as long as there are values for one of them, and else each alone."""
        wanted = self.undecided(wanted)
        while wanted:
            if self.take_known(wanted):
                wanted = self.undecided(wanted)
                continue
            said, values = self.examiner.any_of(wanted, (PLAIN,), AT_ONCE)
            if said == "unsat":
                self.cannot_fail(wanted)
            elif values is None or not self.take(values):
                self.one_by_one(wanted)
                return
            wanted = self.undecided(wanted)

    def undecided(self, wanted):
        return [it for it in wanted if it in self.left and it not in self.open]

    def cannot_fail(self, labels):
        for it in labels:
            del self.left[it]
            self.open.pop(it, None)

    def one_by_one(self, wanted):
        """Decides each label alone, first in the plain way, and then in all."""
        for ways in ((PLAIN,), WAYS):
            asked = [it for it in wanted if it in self.left]
            for n, label in enumerate(asked):
                if label in self.left:
                    self.examiner.begin_anew()
                    self.alone(label, *self.examiner.any_of([label], ways, ALONE / (len(asked) - n)))

    def alone(self, label, said, values):
        """Takes what is found of one label."""
        if said == "unsat":
            self.cannot_fail([label])
        elif values is None:
            self.open[label] = said
        elif not self.take(values):
            self.note(Failure(label, False, None, None, None, ELSEWHERE), False)

    def take(self, values):
        """Takes values at which the unit fails, behind the labels that their run passes and that can fail too. False where the run
        fails at no label that is left."""
        walk = Passing(self.examiner.procedure, values.given)
        end = walk.run()
        if end.how != "failed" or end.label not in self.left:
            return False
        if not self.wants.errors or self.told < self.wants.errors:
            self.decide_before(end.label, [it for it in walk.come_to if it not in (end.label, other_of(end.label))])
        if end.label in self.left:
            is_behind = any([it in self.failures for it in walk.come_to])
            self.note(self.failure(values, end.label, is_behind), is_behind)
        return True

    def take_known(self, wanted):
        """Takes a run that is known from before, if the program fails on it again at one of these labels."""
        for label, run in [(label, run) for label, run in self.known.items() if label in wanted and not run.is_beside]:
            suffices = run.is_small or not self.shows(label, run.is_behind)
            failure = self.known_failure(label) if suffices else None
            if failure is not None:
                self.note(failure, run.is_behind, is_known=True)
                return True
        return False

    def known_failure(self, label):
        """The failure at a label by a run that is known from before, if the program confirms it."""
        run = self.known.pop(label, None)
        return run and self.examiner.confirmed_anew(run.choices, label)

    def decide_before(self, label, passed):
        """Decides the labels that a run passes before the one at which it fails."""
        del self.left[label]
        self.decide(passed)
        self.left[label] = None
        self.put_aside()

    def put_aside(self):
        """Sets the labels aside that follow from one that fails, until their turn has come."""
        for label in [it for it in self.left if self.followed(it) and not self.has_followers]:
            self.set_aside[label] = self.left.pop(label)
            self.open.pop(label, None)

    def followed(self, label):
        """The failing label that a label follows from, or nothing."""
        own = self.own.get(label, "")
        return own if own != label and own in self.failures and self.failures[own].confirmed else ""

    def failure(self, values, label, is_behind):
        """The failure at a label, with a small run where it is to be shown."""
        if not self.shows(label, is_behind):
            return self.examiner.confirmed(values, label)
        return believable(self.examiner, self.source, self.examiner.confirmed_small(values, label))

    def shows(self, label, is_behind):
        """Whether the run of a label is shown: that of the first that is told, or of all."""
        if self.wants.all_runs:
            return True
        return self.wants.first_run and not self.told and not is_behind and not self.followed(label)

    def note(self, failure, is_behind, is_known=False):
        """Tells a failure, with that of the other kind of the same access."""
        label, shows = failure.label, self.shows(failure.label, is_behind)
        self.cannot_wait(failure)
        found = [failure, *self.beside(label, shows, is_known)] if failure.confirmed else [failure]
        mistake = Mistake(found, self.followed(label), shows and failure.confirmed)
        for it in mistake.failures:
            self.keep(it, shows, is_behind, it is not failure)
        self.put_aside()
        if is_behind and not mistake.of:
            self.behind.append(mistake)
            return
        self.told += failure.confirmed and not mistake.of
        self.tell(mistake)

    def keep(self, failure, *how):
        """Notes the run of a failure that is confirmed."""
        if failure.confirmed:
            self.runs[failure.label] = KnownRun(failure.run.choices if failure.run else [failure.boogie_run.splitlines()], *how)

    def cannot_wait(self, failure):
        """Notes that a label is decided: it fails."""
        self.failures[failure.label] = failure
        self.left.pop(failure.label)
        self.open.pop(failure.label, None)

    def beside(self, label, shows, is_known):
        """The failure for null where a label is for permission to the same access, and the other way round, where that can fail too."""
        other = other_of(label)
        if other not in self.left or other in self.open:
            return []
        if is_known:
            found = self.known_failure(other) if other in self.known and self.known[other].is_beside else None
            if found is None:
                return []
            self.cannot_wait(found)
            return [found]
        said, values = self.examiner.any_of([other], (PLAIN,), AT_ONCE)
        if said == "unsat":
            self.cannot_fail([other])
        walk = Passing(self.examiner.procedure, values.given) if values is not None else None
        if walk is None or walk.run().label != other:
            return []
        found = self.examiner.confirmed(values, other)
        if shows and found.confirmed:
            found = believable(self.examiner, self.source, self.examiner.confirmed_small(values, other))
        if not found.confirmed:
            return []
        self.cannot_wait(found)
        return [found]


def other_of(label):
    """The label for permission to the access of a label for null, and the other way round; or nothing."""
    places, _, kind = label.rpartition(" ")
    return f"{places} {OTHER_KIND[kind]}" if kind in OTHER_KIND else ""
