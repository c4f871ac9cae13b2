"""Checks that run side by side, in copies of the crates."""
import concurrent.futures
import heapq
import os
import shutil
import subprocess
import threading

from repository import PARTS, with_all_below


# Where `rt` leaves a crate's library.
BUILT = "out/rlib"


class Cut(Exception):
    """The run ends: no check begins any more, and those that ran were ended."""


class Lanes:
    """The places for checks that run side by side, and the processes in them. Where several wait
    for a place, it goes to the least rank, and among equals to the one that came first."""

    def __init__(self, count):
        self.count, self.free, self.running = count, count, set()
        self.waiting, self.came, self.turn = [], 0, threading.Condition()
        self.is_cut = False

    def run(self, rank, folder, words):
        """What a command of the toolchain says in this folder, and whether it did it."""
        self.enter(rank)
        try:
            how = {"stdout": subprocess.PIPE, "stderr": subprocess.STDOUT, "errors": "replace"}
            how |= {"stdin": subprocess.DEVNULL, "cwd": folder}
            with self.turn:
                if self.is_cut:
                    raise Cut
                ran = subprocess.Popen(["rt", *words, "--jobs", "1"], **how)
                self.running.add(ran)
            said, _ = ran.communicate()
            with self.turn:
                self.running.discard(ran)
                if self.is_cut:
                    raise Cut
            return said.splitlines(), ran.returncode == 0
        finally:
            self.leave()

    def enter(self, rank):
        """Waits for a place."""
        with self.turn:
            self.came += 1
            mine = rank, self.came
            heapq.heappush(self.waiting, mine)
            is_next = lambda: self.is_cut or self.free and self.waiting[0] == mine
            self.turn.wait_for(is_next)
            self.waiting.remove(mine)
            heapq.heapify(self.waiting)
            self.free -= 1
            self.turn.notify_all()

    def leave(self):
        """Gives the place back."""
        with self.turn:
            self.free += 1
            self.turn.notify_all()

    def cut(self):
        """Ends all checks. `rt` ends what it has started, too."""
        with self.turn:
            self.is_cut = True
            for ran in self.running:
                ran.kill()
            self.turn.notify_all()


def linked(one, other):
    """Copies a file, by a second name for it where that can be."""
    try:
        os.link(one, other)
    except OSError:
        shutil.copy2(one, other)


def linked_work(one, other):
    """Copies a file of kept work: the check replaces those of this kind, and changes others."""
    (linked if one.endswith(".oantt") else shutil.copy2)(one, other)


class Bases:
    """Of each crate a copy, made where it is asked for, in which all that it stands on is built.
    So each library is proved once in a run, and the copies share what was built of it."""

    def __init__(self, root, built, below, lanes, room, ranks):
        self.root, self.built, self.below = root, built, below
        self.lanes, self.room, self.ranks = lanes, room, ranks
        self.pool = concurrent.futures.ThreadPoolExecutor(2 * len(below))
        # One command at a time works in a copy.
        self.turns = {it: threading.Lock() for it in below}
        self.made, self.lock = {}, threading.Lock()

    def later(self, make, crate):
        """What is made of the crate, once in a run, at some later time."""
        with self.lock:
            if (make, crate) not in self.made:
                self.made[make, crate] = self.pool.submit(make, crate)
            return self.made[make, crate]

    def copy(self, crate):
        """The crate's copy, or why there is none."""
        return self.later(self.make_copy, crate).result()

    def run(self, crate, verb):
        """What the command says in the crate's copy, and whether it did it."""
        with self.turns[crate]:
            folder = self.room / crate / "crates" / crate
            return self.lanes.run(self.ranks[crate], folder, [verb])

    def make_library(self, crate):
        """Builds the library in its copy; says why where that can't be done."""
        _, why = self.copy(crate)
        if why:
            return why
        said, is_done = self.run(crate, "lib")
        return None if is_done else f"{crate} isn't proved: {ended(said)}"

    def make_copy(self, crate):
        """Makes the crate's copy, or says why there is none."""
        others = [it for it in with_all_below(crate, self.below) if it != crate]
        for library in [self.later(self.make_library, it) for it in others]:
            if library.result():
                return None, library.result()
        copy, own = self.room / crate, self.root / "crates" / crate
        for part in (it for it in PARTS if (own / it).is_dir()):
            shutil.copytree(own / part, copy / "crates" / crate / part)
        # A library that the repository has built of these sources isn't built again: `rt` looks.
        built = self.built / "crates" / crate / BUILT
        if built.is_dir():
            shutil.copytree(built, copy / "crates" / crate / BUILT)
        for it in others:
            share(self.room / it, copy, it)
        shutil.copy(self.root / "HANDLES", copy)
        lines = (self.root / "crates.txt").read_text().splitlines(True)
        kept = (it for it in lines if it.split(":")[0] in (crate, *others))
        (copy / "crates.txt").write_text("".join(kept))
        return copy, None


def share(one, other, library):
    """Gives a copy a library that is built in another."""
    for part in (*PARTS, BUILT):
        source = one / "crates" / library / part
        if source.is_dir():
            to = other / "crates" / library / part
            shutil.copytree(source, to, copy_function=linked)


def ended(said):
    """How what a check said ends."""
    return " ".join(said[-3:])[:200]
