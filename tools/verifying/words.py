"""The words of a call."""
import argparse
import fnmatch
import sys
from typing import NamedTuple, Optional, Sequence

from .work import cores

MOST_SECONDS = 1_000_000
MOST_JOBS = 512
MOST_ERRORS = 1_000_000
ERRORS = 5
FLAGS = ("help", "json", "all", "all-runs", "run-file", "trace", "no-runs", "no-certificates", "strict", "z3", "smoke", "no-smoke", "boogie", "times",
         "no-cache", "check", "formula", "print", "watch")


class Options(NamedTuple):
    """What the words of a call ask for. `smoke` is None where it is left open."""
    seconds: float = 20.0
    jobs: int = 1
    json: bool = False
    keep: Optional[str] = None
    runs: bool = True
    all_runs: bool = False
    run_file: bool = False
    trace: bool = False
    all: bool = False
    errors: int = ERRORS
    certificates: bool = True
    ship: Optional[str] = None
    strict: bool = False
    z3: bool = False
    smoke: Optional[bool] = None
    boogie: bool = False
    times: bool = False
    cache: bool = True
    color: str = "auto"
    units: Sequence[str] = ()
    html: Optional[str] = None
    sarif: Optional[str] = None
    watch: bool = False

    def wants_all_runs(self):
        """Whether the run and the state are wanted of each label, and not only of those that are shown."""
        return self.json or any([it is not None for it in (self.keep, self.html, self.sarif)])

    def wants(self, name):
        """Whether a unit is to be looked at."""
        return not self.units or any([fnmatch.fnmatchcase(name, it) for it in self.units])


class Parser(argparse.ArgumentParser):
    """Words that are no call end with status 2 and one line."""

    def error(self, message):
        print(f"verify: {message}; remduska verify --help tells more", file=sys.stderr)
        sys.exit(2)


def number(kind, least, most):
    """Reads a number between two."""
    def read(word):
        value = kind(word)
        if not least <= value <= most:
            raise ValueError
        return value
    read.__name__ = "number"
    return read


def parser():
    found = Parser(add_help=False, allow_abbrev=False)
    for name in FLAGS:
        found.add_argument(f"--{name}", action="store_true")
    found.add_argument("--unit", action="append", default=[])
    found.add_argument("--keep")
    found.add_argument("--html")
    found.add_argument("--sarif")
    found.add_argument("--certificates")
    found.add_argument("--color", choices=("auto", "always", "never"), default="auto")
    found.add_argument("--seconds", type=number(float, 1e-3, MOST_SECONDS), default=20.0)
    found.add_argument("--jobs", type=number(int, 1, MOST_JOBS), default=cores())
    found.add_argument("--errors", type=number(int, 0, MOST_ERRORS), default=ERRORS)
    found.add_argument("files", nargs="*")
    return found


def options_of(args) -> Options:
    """The options that words ask for."""
    smoke = True if args.smoke else False if args.no_smoke else None
    units = [name for word in args.unit for name in word.split(",") if name]
    return Options(args.seconds, args.jobs, args.json, args.keep, not args.no_runs, args.all_runs, args.run_file, args.trace, args.all, args.errors,
                   not args.no_certificates, args.certificates, args.strict, args.z3, smoke, args.boogie, args.times, not args.no_cache, args.color, units,
                   args.html, args.sarif, args.watch)
