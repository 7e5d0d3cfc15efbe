"""The command: what is done with its files, in which order, and the status."""
import os
import shutil
import signal
import sys
import tempfile

from . import boogie_word, cache, work, words
from .files import bytes_of, shown_path, source_of
from .gathered import beside
from .processes import Job, Pool
from .program import NoProgram, find
from .report import NO_CALL, Lines
from .report_json import Json
from .results import unknown
from .turns import Turns, UnitAtWork
from .units import VERIFIED

AHEAD = 4       # so many files for each process are translated before they are looked at
SMOKE = 1.0     # seconds for spots that no run reaches, where nobody asked for them
TICK = 0.25     # seconds after which it is looked what may be told


class NoTool(Exception):
    """A tool that is needed is missing."""


def main(given_words, page):
    """Does what the words say, and returns the status."""
    if sys.stdout is None:
        print("verify: the standard output is closed", file=sys.stderr)
        return NO_CALL
    for stream in (sys.stdout, sys.stderr):
        if hasattr(stream, "reconfigure"):      # what cannot be spelled in the reader's encoding is told all the same
            stream.reconfigure(errors="backslashreplace")
    for it in (signal.SIGTERM, signal.SIGHUP):
        signal.signal(it, stopped)
    try:
        status = status_of(given_words, page)
        sys.stdout.flush()
        return status
    except (NoTool, NoProgram) as why:
        print(f"verify: {why}", file=sys.stderr)
        return NO_CALL
    except KeyboardInterrupt:
        print("verify: interrupted", file=sys.stderr, flush=True)
        os._exit(130)
    except OSError as fault:
        return no_output(fault)


def stopped(number, _):
    """Ends the call where somebody stops it, with all that it has begun."""
    raise SystemExit(128 + number)


def no_output(fault):
    """What was to be told, kept or noted cannot be written. Of a reader that went away nothing is said."""
    try:
        sys.stdout.flush()
    except OSError:
        os.dup2(os.open(os.devnull, os.O_WRONLY), 1)
    if not isinstance(fault, BrokenPipeError):
        place = f"{fault.filename}: " if fault.filename else ""
        print(f"verify: {place}{fault.strerror}", file=sys.stderr)
    return NO_CALL


def status_of(given_words, page):
    """Does what the words say. What cannot be read or written, and a tool that is missing, is raised."""
    args = words.parser().parse_args(given_words)
    if args.help:
        print(page)
        return 0
    if not args.files and not args.check:
        print(f"verify: a file is missing; {page.splitlines()[0]}", file=sys.stderr)
        return NO_CALL
    if args.formula:
        from .formula import tell
        return tell(args.files, args.seconds, args.print)
    options = words.options_of(args)
    need_tools(options)
    if args.check:
        from .checking import check
        return check(options._replace(cache=False), programs_for(options))
    if options.ship is not None and len(args.files) != 1:
        raise NoTool("--certificates takes one file")
    if options.watch:
        from .language_server.watch import watch
        return watch(args.files, options)
    if options.keep:
        os.makedirs(options.keep, exist_ok=True)
    paths = programs_for(options)
    report = Json(options, sys.stdout, paths) if options.json else Lines(options, sys.stdout)
    return Command(args.files, options, beside(report, options), paths).status()


def need_tools(options):
    """Has z3 be there where it is wanted, and where nothing else finds runs, and Boogie where it is."""
    if options.z3 or not options.certificates:
        need("z3")
    if options.boogie:
        need("boogie")


def programs_for(options):
    """The files of the programs. Without certificates `prove` is asked for no proofs."""
    return find()._replace(searches=options.certificates)


def need(tool):
    if not shutil.which(tool):
        raise NoTool(f"{tool} is not on the path; Debian has it as a package")


class Progress:
    """A line on a terminal that tells what is at work. Nothing of it stays."""

    def __init__(self):
        self.on = sys.stderr is not None and sys.stderr.isatty()

    def tell(self, text):
        if self.on:
            width = shutil.get_terminal_size().columns - 1
            print(f"\r\x1b[K{text[:width]}", end="", file=sys.stderr, flush=True)

    def clear(self):
        if self.on:
            print("\r\x1b[K", end="", file=sys.stderr, flush=True)


class File:
    """A file at work: what is known of it, and what is still to come. `tasks` counts the jobs of it that are not done."""

    def __init__(self, path, room):
        self.path, self.room, self.data, self.given, self.fault = path, room, None, None, None
        self.units, self.turns, self.word, self.tasks, self.is_asked, self.is_begun, self.spots = [], None, None, 0, False, False, []

    def results(self):
        return [it.result for it in self.units]


class Command:
    """Goes through files: each is prepared ahead, its units are looked at side by side, and all is told to a report in the order of the
    files. `results` has what is told of each file."""

    def __init__(self, paths, options, report, programs):
        self.options, self.report, self.programs, self.progress = options, report, programs, Progress()
        self.cache = cache.opened(programs) if options.cache else cache.Cache()
        self.files = [File(path, None) for path in paths]
        self.results = []

    def status(self):
        with tempfile.TemporaryDirectory(prefix="verify-") as room:
            for n, file in enumerate(self.files):
                file.room = os.path.join(room, str(n))
            self.pool = Pool(lambda: work.begin(self.programs, room, self.cache), self.options.jobs)
            try:
                for n, file in enumerate(self.files):
                    self.go(n, file)
                self.report.end()
            finally:
                self.progress.clear()
                self.pool.end()
        return self.report.status

    def go(self, n, file):
        """Tells all of a file, and has those behind it begun meanwhile."""
        jobs = self.options.jobs
        for it in self.files[n:n + 1 + AHEAD * jobs * (jobs > 1)]:
            self.read(it)
        if file.fault is None:
            self.wait_for(file, lambda: file.given is not None or file.fault is not None, "translating")
        if file.fault is not None:
            self.report.missing(file.path, file.fault)
        elif file.given.refused:
            self.report.refused(file.given, source_of(file.path, file.data))
        else:
            self.look(n, file)
        sys.stdout.flush()
        shutil.rmtree(file.room, ignore_errors=True)
        file.data = None

    def wait_for(self, file, is_done, what):
        """Works until something is done, and tells what is found of a file meanwhile."""
        while not is_done():
            self.progress.tell(f"{shown_path(file.path)}: {what}")
            self.pool.step(TICK)
            self.progress.clear()
            if file.turns is not None:
                file.turns.tell()
                sys.stdout.flush()

    def read(self, file):
        """Reads a file and has it prepared, once."""
        if file.is_asked:
            return
        file.is_asked = True
        try:
            file.data = bytes_of(file.path)
        except OSError as fault:
            file.fault = f"the file cannot be read: {fault.strerror}"
            return
        os.mkdir(file.room)

        def done(given):
            file.given = given

        def failed(why):
            file.fault = f"the file cannot be looked at: {why}"

        wants_text = self.options.keep is not None or self.options.boogie
        self.pool.submit(Job(work.prepared, (file.path, file.data, file.room, wants_text, self.options.z3), done, failed))

    def look(self, n, file):
        """Has the units of a file looked at, and of those behind it, and tells of them."""
        jobs = self.options.jobs
        for it in self.files[n:n + 1 + jobs * (jobs > 1)]:
            self.begin(it)
        if file.fault is not None:
            self.report.missing(file.path, file.fault)
            return
        self.wait_for(file, lambda: file.tasks == 0, "looking for runs that fail")
        file.turns.tell()
        self.ask_for_certificates(file)
        self.ask_for_spots(file)
        self.wait_for(file, lambda: file.tasks == 0, "looking for spots that no run reaches")
        for it in file.units:
            spots = [spot for spot in file.spots if spot.unit == it.unit.name]
            if spots:
                self.report.unreached(file.given, it.unit, spots)
        self.report.file(file.given, file.results())
        self.results.append((file.path, file.results()))
        if file.word is not None:
            self.report.boogie(file.given, file.word, file.results())

    def begin(self, file):
        """Has the units of a file looked at, once it is prepared."""
        if file.is_begun or file.given is None or file.given.refused:
            return
        file.is_begun = True
        file.units = [UnitAtWork(it) for it in file.given.units if self.options.wants(it.name)]
        if not file.units and self.options.units:
            file.fault = f"there is no unit `{', '.join(self.options.units)}` with a procedure of its own"
            return
        all_labels = self.options.all or self.options.json
        file.turns = Turns(self.report, file.given, file.units, all_labels, 0 if self.options.json else self.options.errors)
        for it in file.units:
            if it.unit.is_proved:
                it.result = work.proved(it.unit)
            else:
                self.examine(file, it)
        if self.options.boogie:
            self.ask_boogie(file)

    def submit(self, file, function, values, done, failed, tell=None):
        """Has something done for a file."""
        def ended(then):
            def call(value):
                file.tasks -= 1
                then(value)
            return call

        file.tasks += 1
        self.pool.submit(Job(function, values, ended(done), ended(failed), tell))

    def examine(self, file, it):
        def done(result):
            it.result = result

        def failed(why):
            it.result = unknown(it.unit.name, why)

        self.submit(file, work.examined, (file.given._replace(units=[]), it.unit, self.options), done, failed, it.add)

    def ask_for_certificates(self, file):
        """Has the certificates of a file written that are to be shipped or kept with it."""
        paths = [self.options.ship] * (self.options.ship is not None)
        if self.report.keeper is not None:
            paths.append(self.report.keeper.path_of_certificates(file.given))
        if not paths or not file.given.is_searched:
            return

        def done(text):
            for it in paths:
                with open(it, "w", encoding="utf-8") as into:
                    into.write(text)

        def failed(why):
            raise NoTool(why)

        self.submit(file, work.certificates, (file.given.asked_of(), file.given.is_boogie), done, failed)

    def ask_for_spots(self, file):
        """Has spots of verified units looked for that no run reaches: where it is wanted, or where it is not said and takes little time."""
        names = [it.unit.name for it in file.units if it.result.verdict == VERIFIED]
        is_wanted = file.given.is_searched if self.options.smoke is None else self.options.smoke
        if not names or file.given.is_boogie or not is_wanted:
            return

        def done(spots):
            file.spots = spots

        seconds = self.options.seconds if self.options.smoke else SMOKE
        self.submit(file, work.smoke, (file.given._replace(units=[]), names, seconds), done, lambda why: None)

    def ask_boogie(self, file):
        def done(word):
            file.word = word

        def failed(why):
            file.word = boogie_word.no_word(why)

        self.submit(file, boogie_word.word, (file.given.text_file, file.room), done, failed)
