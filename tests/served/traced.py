"""Programs under strace, which stop in a call until a test lets them go on. No test of itself."""
import os
import pathlib
import subprocess
import time

from sites import Served

# With this option of strace a call stops the program when it has returned.
STOP = "signal=SIGSTOP"


def wait_until(is_so, seconds=60):
    """Whether this comes to be so within the time."""
    end = time.monotonic() + seconds
    while not is_so():
        if time.monotonic() > end:
            return False
        time.sleep(0.005)
    return True


class Traced:
    """A program under strace with these options; its calls go into a trace."""

    def __init__(self, trace, options, words, **how):
        self.trace = pathlib.Path(trace)
        self.process = subprocess.Popen(traced_words(self.trace, options, words), **how)

    def is_stopped(self):
        """Whether it stops for the first time within a minute, or has."""
        return wait_until(lambda: "stopped by SIGSTOP" in read(self.trace))

    def signal(self, name):
        """Sends this signal to the program, if it hasn't ended."""
        if self.process.poll() is None:
            subprocess.run(["pkill", f"-{name}", "-P", str(self.process.pid)])

    def goes_on(self):
        """Lets it go on; gives its status."""
        self.signal("CONT")
        return self.process.wait(60)

    def kill(self):
        """Kills the program, and so strace."""
        self.signal("KILL")
        self.process.wait(60)


class TracedSite(Traced, Served):
    """A site under strace with these options."""

    def __init__(self, room, members, number, strace, **how):
        self.trace, self.strace = room / f"calls-{number}", strace
        Served.__init__(self, room, members, number, **how)

    def start(self):
        words = self.words
        self.words = traced_words(self.trace, self.strace, words)
        Served.start(self)
        self.words = words


def traced_words(trace, options, words):
    """The words that run a program under strace; what an earlier one has traced there is gone."""
    trace.unlink(missing_ok=True)
    return ["strace", "-o", trace, *map(str, options), *words]


def read(file):
    """The text of a file, which may not be there."""
    return file.read_text(errors="replace") if file.exists() else ""


def lock_of(file):
    """How the file is locked by flock: READ, WRITE, or not at all: none."""
    inode = f":{os.stat(file).st_ino} "
    for line in pathlib.Path("/proc/locks").read_text().splitlines():
        if inode in line and " FLOCK " in line and "->" not in line:
            return "READ" if " READ " in line else "WRITE"
    return None
