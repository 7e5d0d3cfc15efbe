"""Processes beside the server, which look at files and units, and one that cleans up behind a server that was killed.

The server has one thread, so that it may fork at any time. Each process leads a group of its own, with its solver and the programs
that it starts in it: to cancel its work, the group is killed."""
import os
import shutil
import signal
import sys
import tempfile
import time
from multiprocessing.connection import Pipe

from .. import program, work
from ..processes import deep
from . import engine

MOST = 8            # more processes are not started, however many cores there are
GRACE = 20.0        # seconds that a unit may take beyond its time
MANNERS = 0.5       # seconds for what is compiled to be ended by those who began it


class Keeper:
    """A process that waits for the end of the server. Then it ends the groups that are left, and takes the folder away."""

    def __init__(self, room):
        reading, self.writing = os.pipe()
        self.process = os.fork()
        if self.process == 0:
            try:
                os.setsid()
                os.close(self.writing)
                for number in (signal.SIGINT, signal.SIGTERM, signal.SIGHUP):
                    signal.signal(number, signal.SIG_IGN)
                mute(0, 1, 2)
                self.keep(reading, room)
            finally:
                os._exit(0)
        os.close(reading)

    def keep(self, reading, room):
        groups = set()
        with os.fdopen(reading) as lines:
            for line in lines:
                (groups.add if line[0] == "+" else groups.discard)(int(line[1:]))
        for it in groups:
            end_group(it, gently=True)
        shutil.rmtree(room, ignore_errors=True)

    def tell(self, sign, group):
        os.write(self.writing, b"%s%d\n" % (sign, group))

    def end(self):
        os.close(self.writing)
        os.waitpid(self.process, 0)


def mute(*descriptors):
    """Turns descriptors to where nothing is read and written, so that no process keeps the editor's streams open."""
    nowhere = os.open(os.devnull, os.O_RDWR)
    for it in descriptors:
        os.dup2(nowhere, it)


def end_group(group, gently=False):
    """Ends the processes of a group; gently, where what they started has to be ended by them."""
    try:
        if gently:
            os.killpg(group, signal.SIGTERM)
            time.sleep(MANNERS)
        os.killpg(group, signal.SIGKILL)
    except (ProcessLookupError, PermissionError):
        pass


class Job:
    """Some work: `kind` is find, translate or unit, and `said` is called with each thing that is told of it, and with whether it is
    the last one. `until` is when it is given up."""

    def __init__(self, kind, values, said, seconds):
        self.kind, self.values, self.said, self.seconds, self.until = kind, values, said, seconds, None


class Worker:
    """A process, with the job that it is at."""

    def __init__(self, workers, number):
        self.room = os.path.join(workers.room, f"process-{number}")
        os.mkdir(self.room)
        self.connection, theirs = Pipe()
        self.job = None
        self.process = os.fork()
        if self.process == 0:
            try:
                os.setpgid(0, 0)
                workers.leave()
                self.connection.close()
                mute(0, 1)
                serve(theirs, self.room)
            finally:
                os._exit(0)
        try:
            os.setpgid(self.process, self.process)
        except (PermissionError, ProcessLookupError):   # it did so itself, or is gone
            pass
        theirs.close()

    def end(self):
        end_group(self.process, gently=self.job is not None and self.job.kind == "find")
        os.waitpid(self.process, 0)
        self.connection.close()
        shutil.rmtree(self.room, ignore_errors=True)


def serve(connection, room):
    """The life of a process: one job after the other, until the server closes the connection."""
    for number in (signal.SIGINT, signal.SIGTERM, signal.SIGHUP):
        signal.signal(number, signal.SIG_DFL)
    while True:
        try:
            kind, values = connection.recv()
            done(kind, values, room, connection.send)
        except (EOFError, BrokenPipeError, ConnectionResetError):
            return


def done(kind, values, room, send):
    """Does a job, and sends what is told of it: whether it is the last, and the thing or what went wrong."""
    try:
        if kind == "find":
            send((True, program.find(), None))
        elif kind == "begin":
            work.begin(*values, room)
        elif kind == "translate":
            send((True, engine.translated(*values), None))
        else:
            deep(engine.examined, *values, lambda it: send((it.is_whole, it, None)))
    except (EOFError, BrokenPipeError, ConnectionResetError):
        raise
    except Exception as fault:      # what these scripts did wrong, so that the server goes on
        send((True, None, f"{type(fault).__name__}: {fault}" if not isinstance(fault, program.NoProgram) else str(fault)))


class Workers:
    """The processes. Jobs are started where one is idle; what they tell comes by `hear`."""

    def __init__(self):
        self.room = tempfile.mkdtemp(prefix="remduska-lsp-")
        self.keeper = Keeper(self.room)
        self.all, self.count, self.most = [], 0, min(MOST, work.cores())
        self.paths = None

    def leave(self):
        """What a new process leaves to the server."""
        os.close(self.keeper.writing)
        for it in self.all:
            it.connection.close()

    def idle(self, more=0):
        """A process without a job, which is started if there may be one more; or None. What does not take long may have more."""
        found = next((it for it in self.all if it.job is None), None)
        if found is None and len(self.all) < self.most + more:
            found = self.start()
        return found

    def start(self):
        self.count += 1
        sys.stderr.flush()
        found = Worker(self, self.count)
        self.keeper.tell(b"+", found.process)
        self.all.append(found)
        if self.paths is not None:
            found.connection.send(("begin", (self.paths,)))
        return found

    def know(self, paths):
        """Tells all processes which programs there are."""
        self.paths = paths
        for it in self.all:
            it.connection.send(("begin", (paths,)))

    def give(self, worker, job):
        worker.job, job.until = job, time.monotonic() + job.seconds + GRACE
        worker.connection.send((job.kind, job.values))

    def connections(self):
        return [it.connection for it in self.all if it.job is not None]

    def hear(self, connection):
        """Takes what a process tells."""
        worker = next(it for it in self.all if it.connection is connection)
        job = worker.job
        try:
            is_last, found, fault = connection.recv()
        except (EOFError, OSError):
            self.drop(worker)
            is_last, found, fault = True, None, "the process that looked at it ended by itself"
        if is_last:
            worker.job = None
            self.all.sort(key=lambda it: it is not worker)      # what it knows of a file serves the next job
        job.said(found, fault, is_last)

    def cancel(self, job):
        """Ends the process that is at a job, if one is; nothing more is told of it."""
        worker = next((it for it in self.all if it.job is job), None)
        if worker is not None:
            self.drop(worker)

    def drop(self, worker):
        self.all.remove(worker)
        worker.end()
        worker.job = None
        self.keeper.tell(b"-", worker.process)

    def overdue(self, now):
        """Ends the jobs whose time is over."""
        for worker in [it for it in self.all if it.job is not None and it.job.until < now]:
            job = worker.job
            self.drop(worker)
            job.said(None, "it took too long", True)

    def deadline(self):
        return min([it.job.until for it in self.all if it.job is not None], default=None)

    def end(self):
        for it in list(self.all):
            self.drop(it)
        shutil.rmtree(self.room, ignore_errors=True)
        self.keeper.end()
