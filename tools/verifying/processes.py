"""Work that is done in processes side by side, each of which tells what it finds while it works.

One process is begun at first, and another one where work waits for some time: so little work is done without the cost of many. Where
a process ends by itself its work is done once more, and what it told is not told twice."""
import os
import pickle
import select
import signal
import struct
import sys
import threading
import time

STACK = 256 * 1024 * 1024
DEPTH = 200_000
PATIENCE = 0.1      # seconds that work waits before another process is begun
LENGTH = struct.Struct("<Q")
PIECE = 1 << 20
TRIES = 2
TOLD, DONE, FAULT = "told", "done", "fault"


def deep(function, *values):
    """Calls a function on a stack that is large enough for all that may be nested."""
    found = []

    def call():
        try:
            found.append((function(*values), None))
        except BaseException as fault:
            found.append((None, fault))

    sys.setrecursionlimit(DEPTH)
    threading.stack_size(STACK)
    thread = threading.Thread(target=call)
    thread.start()
    thread.join()
    threading.stack_size(0)
    value, fault = found[0]
    if fault:
        raise fault
    return value


class Job:
    """A call of `function(tell, *values)` in some process. Here `tell` is called with each thing that it tells, `done` with what it
    returns, and `failed` with why it returned nothing."""

    def __init__(self, function, values, done, failed, tell=None):
        self.function, self.values, self.done, self.failed, self.tell = function, values, done, failed, tell
        self.tries, self.told, self.skipped = 0, 0, 0

    def take(self, kind, value):
        """Takes a message of the process. Returns whether the call has ended."""
        if kind == TOLD:
            self.skipped += 1
            if self.skipped > self.told:
                self.told = self.skipped
                self.tell(value)
            return False
        (self.done if kind == DONE else self.failed)(value)
        return True


class Process:
    """A process that does one job after the other. `begin` is called in it first. What it starts is of its group, and ends with it."""

    def __init__(self, begin, others):
        sys.stdout.flush()
        sys.stderr.flush()
        theirs, self.into = os.pipe()
        self.out, mine = os.pipe()
        self.job, self.since, self.data = None, 0.0, bytearray()
        self.number = os.fork()
        if self.number == 0:
            for it in (self.into, self.out, *[end for other in others for end in (other.into, other.out)]):
                os.close(it)
            serve(theirs, mine, begin)
        os.setpgid(self.number, self.number)
        os.close(theirs)
        os.close(mine)
        os.set_blocking(self.out, False)

    def start(self, job):
        """Gives it a job, or fails where it has ended."""
        self.job, self.since, job.tries, job.skipped = job, time.monotonic(), job.tries + 1, 0
        send(self.into, (job.function, job.values))

    def messages(self):
        """The messages that have come, and whether the process has ended."""
        has_ended = False
        while True:
            try:
                piece = os.read(self.out, PIECE)
            except BlockingIOError:
                break
            has_ended = not piece
            if has_ended:
                break
            self.data += piece
        return self.whole(), has_ended

    def whole(self):
        found = []
        while len(self.data) >= LENGTH.size:
            end = LENGTH.size + LENGTH.unpack_from(self.data)[0]
            if len(self.data) < end:
                break
            found.append(pickle.loads(self.data[LENGTH.size:end]))
            del self.data[:end]
        return found

    def end(self):
        """Ends it, whatever it does, with all that it started."""
        os.killpg(self.number, signal.SIGKILL)
        os.waitpid(self.number, 0)
        os.close(self.into)
        os.close(self.out)


def send(into, message):
    data = pickle.dumps(message, pickle.HIGHEST_PROTOCOL)
    data = memoryview(LENGTH.pack(len(data)) + data)
    while data:
        data = data[os.write(into, data):]


def received(out):
    """The next message, or None where there will be none."""
    data, wanted = b"", LENGTH.size
    while len(data) < wanted:
        piece = os.read(out, wanted - len(data))
        if not piece:
            return None
        data += piece
        if len(data) == LENGTH.size == wanted:
            wanted += LENGTH.unpack(data)[0]
    return pickle.loads(data[LENGTH.size:])


def serve(calls, answers, begin):
    """Does in a new process what is asked for, until nothing will be."""
    try:
        os.setpgid(0, 0)
        signal.signal(signal.SIGINT, signal.SIG_IGN)
        for it in (signal.SIGTERM, signal.SIGHUP):
            signal.signal(it, signal.SIG_DFL)
        deep(answer, calls, answers, begin)
    finally:
        os._exit(0)


def answer(calls, answers, begin):
    begin()
    while True:
        call = received(calls)
        if call is None:
            return
        function, values = call
        try:
            message = (DONE, function(lambda it: send(answers, (TOLD, it)), *values))
        except Exception as fault:
            message = (FAULT, f"{fault}" or type(fault).__name__)
        send(answers, message)


class Pool:
    """At most so many processes, and the jobs that wait for them."""

    def __init__(self, begin, most):
        self.begin, self.most, self.processes, self.waiting = begin, most, [], []

    def submit(self, job, first=False):
        """Has a job done, behind those that wait, or before them."""
        self.waiting.insert(0 if first else len(self.waiting), job)
        self.hand_out()

    def is_busy(self):
        return bool(self.waiting) or any([it.job for it in self.processes])

    def hand_out(self):
        """Gives jobs that wait to processes that have none, and begins a process where all have worked for some time."""
        while self.waiting:
            free = next((it for it in self.processes if it.job is None), None)
            if free is None:
                late = time.monotonic() - PATIENCE
                if len(self.processes) >= self.most or any([it.since > late for it in self.processes]):
                    return
                free = Process(self.begin, self.processes)
                self.processes.append(free)
            try:
                free.start(self.waiting.pop(0))
            except BrokenPipeError:
                self.lost(free)

    def step(self, seconds):
        """Waits for messages, at most so long, and hands them to their jobs."""
        poll, by_end = select.poll(), {it.out: it for it in self.processes}
        for it in by_end:
            poll.register(it, select.POLLIN | select.POLLHUP)
        can_grow = self.waiting and len(self.processes) < self.most
        for end, _ in poll.poll(1000 * min(seconds, PATIENCE if can_grow else seconds)):
            self.hear(by_end[end])
        self.hand_out()

    def hear(self, process):
        messages, has_ended = process.messages()
        for kind, value in messages:
            job = process.job
            if job is not None and kind != TOLD:
                process.job = None
            if job is not None:
                job.take(kind, value)
        if has_ended:
            self.lost(process)

    def lost(self, process):
        """Has what a process did that has ended by itself done once more: it had too little memory, or somebody ended it."""
        self.processes.remove(process)
        process.end()
        job = process.job
        if job is not None and job.tries < TRIES:
            self.submit(job, first=True)
        elif job is not None:
            job.failed("the process that looked at it ended by itself, twice")

    def end(self):
        for it in self.processes:
            it.end()
        self.processes, self.waiting = [], []
