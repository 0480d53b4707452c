"""Runs of the program under limits, and what came of each."""
import os
import resource
import signal
import subprocess
import tempfile
import time

UNLIMITED = resource.RLIM_INFINITY
MEGABYTE = 1 << 20


class Answer:
    """What a run came to. `status` is negative where a signal ended it, and None where it took too long."""

    def __init__(self, status, output, seconds, memory):
        self.status = status
        self.output = output
        self.seconds = seconds
        self.memory = memory

    def __eq__(self, other):
        return (self.status, self.output) == (other.status, other.output)

    def said(self):
        """The answer in a few words."""
        if self.status is None:
            return "no answer in time"
        if self.status < 0:
            return f"ended by {signal.Signals(-self.status).name}"
        first = self.output[:120].decode("utf-8", "replace")
        return f"status {self.status}, {len(self.output)} bytes: {first!r}"


def limits(stack, memory, processor, pipe):
    """What a child does before it becomes the program."""

    def apply():
        if stack is not None:
            resource.setrlimit(resource.RLIMIT_STACK, (stack, resource.getrlimit(resource.RLIMIT_STACK)[1]))
        if memory is not None:
            resource.setrlimit(resource.RLIMIT_AS, (memory, memory))
        if processor is not None:
            os.sched_setaffinity(0, {processor})
        if pipe is not None:
            signal.signal(signal.SIGPIPE, pipe)
        resource.setrlimit(resource.RLIMIT_CORE, (0, 0))

    return apply


def most_memory(pid):
    """The most memory that a process has had, in bytes, or 0 where it cannot be told. `ru_maxrss` of a child is no less than what the process had
    that it was forked from, which may be more than all that a small program takes."""
    try:
        with open(f"/proc/{pid}/status", encoding="ascii", errors="replace") as status:
            found = [line.split()[1] for line in status if line.startswith("VmHWM:")]
    except OSError:
        return 0
    return int(found[0]) * 1024 if found else 0


class Program:
    """The program that is tried, and a folder for its files."""

    def __init__(self, path, seconds):
        self.path = os.path.abspath(path)
        self.seconds = seconds
        self.folder = tempfile.mkdtemp(prefix="hostile-")

    def file(self, name, text):
        """A file of this name in the folder."""
        if isinstance(text, str):
            text = text.encode()
        with open(os.path.join(self.folder, name), "wb") as out:
            out.write(text)
        return name

    def run(self, words, stack=None, memory=None, processor=None, pipe=None, out=None, seconds=None):
        """Runs the program with these words. Its output goes to a file and is read back, or to `out`, and is then empty here."""
        seconds = seconds or self.seconds
        with tempfile.TemporaryFile() as taken:
            begun = time.monotonic()
            child = subprocess.Popen(
                [self.path] + list(words),
                cwd=self.folder,
                stdin=subprocess.DEVNULL,
                stdout=taken if out is None else out,
                stderr=subprocess.DEVNULL,
                preexec_fn=limits(stack, memory, processor, pipe),
            )
            status, usage, memory = self.wait(child, begun + seconds)
            taken.seek(0)
            output = taken.read() if out is None else b""
        if status is None:
            return Answer(None, output, seconds, 0)
        return Answer(status, output, usage.ru_utime + usage.ru_stime, memory)

    @staticmethod
    def wait(child, until):
        """The status of a child, what it used, and the most memory that it had, as far as it was looked at; no status where it is not done by then,
        and it is ended then."""
        memory = 0
        while True:
            pid, status, usage = os.wait4(child.pid, os.WNOHANG)
            if pid:
                child.returncode = os.waitstatus_to_exitcode(status)
                return child.returncode, usage, memory or usage.ru_maxrss * 1024
            if time.monotonic() > until:
                child.kill()
                _, _, usage = os.wait4(child.pid, 0)
                child.returncode = -signal.SIGKILL
                return None, usage, memory
            memory = most_memory(child.pid) or memory
            time.sleep(0.001)


class Report:
    """What passed and what failed, section by section."""

    def __init__(self):
        self.passed = 0
        self.failed = 0
        self.shown = 0

    def section(self, name):
        self.shown = 0
        print(f"-- {name}", flush=True)

    def say(self, holds, what, answer=None):
        """Counts a thing that should hold, and tells of it where it does not, ten times a section at most."""
        if holds:
            self.passed += 1
            return
        self.failed += 1
        self.shown += 1
        if self.shown <= 10:
            print(f"FAILED {what}" + (f": {answer.said()}" if answer else ""), flush=True)

    def figure(self, text):
        print("   " + text, flush=True)
