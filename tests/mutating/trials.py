"""Tries the mutants of a crate, many in one check."""
import concurrent.futures
import queue
import shutil
import threading

from checks import ended, linked, linked_work
from edits import Mutant, batches_of, name_of, verdict_of
from edits import is_for_names_alone, is_of_a_name, is_uncovered, is_unread, sentences
from repository import PARTS

# A check of more mutants costs less for each; a run that is cut loses those that it was trying.
MOST = 10


class Trial:
    """The copies of one crate in which its mutants are tried, each used by one check at a time."""

    def __init__(self, crate, bases, rank):
        self.crate, self.bases, self.rank = crate, bases, rank
        self.room = bases.room / "trials" / crate
        self.made, self.said = 0, []
        self.idle, self.lock = queue.SimpleQueue(), threading.Lock()

    def fault(self):
        """Why the crate itself, without a mutant, can't be proved, or None. Each check of a mutant
        goes on from what this one has kept."""
        base, why = self.bases.copy(self.crate)
        if why:
            return why
        self.said, _ = self.bases.run(self.crate, "check")
        if not any(it.startswith("logic=proved") for it in self.said):
            return f"the crate itself isn't proved: {ended(self.said)}"
        with self.bases.turns[self.crate]:
            self.copy_own(base / "crates" / self.crate, self.room / "seed")
        return None

    def copy_own(self, one, other):
        """Copies the crate itself, with what its own proof has kept."""
        for part in (it for it in PARTS if (one / it).is_dir()):
            shutil.copytree(one / part, other / part)
        kept = "out/incremental"
        shutil.copytree(one / kept, other / kept, copy_function=linked_work)

    def copy(self):
        """A copy that no check uses, of the crate and of all that it stands on."""
        try:
            to = self.idle.get_nowait()
        except queue.Empty:
            with self.lock:
                self.made += 1
                to = self.room / str(self.made)
            base = self.bases.room / self.crate
            is_own = lambda at, names: names if at == str(base / "crates" / self.crate) else []
            shutil.copytree(base, to, copy_function=linked, ignore=is_own)
        own = to / "crates" / self.crate
        shutil.rmtree(own)
        self.copy_own(self.room / "seed", own)
        return to, own

    def check(self, mutants, is_whole=False):
        """The lines of a check with these mutants applied, or why one of them can't be. Unless it
        is whole, it is of their functions alone, and not of all that calls them."""
        copy, folder = self.copy()
        try:
            for mutant in mutants:
                why = mutant.apply(folder)
                if why:
                    return None, why
            only = [] if is_whole else [self.name(it) for it in mutants]
            words = [word for it in only for word in ("--only", it)]
            said, _ = self.bases.lanes.run(self.rank, folder, ["check", *words])
            unread = next((it for it in said if is_unread(it)), None)
            return (said, None) if unread is None else (None, f"it can't be read: {unread[:200]}")
        finally:
            self.idle.put(copy)

    def name(self, mutant):
        """The name of the one function that the mutant changes, if the check has one for it."""
        return mutant.function and name_of(mutant.function, self.crate, self.said)

    def tried_alone(self, mutant):
        """Why the mutant passes, or None where the check refuses it; and then, where no clause
        does, the line of a proof by hand, which names what it took away, or that no proof was
        begun."""
        said, why = self.check([mutant], is_whole=True)
        if why:
            return why, None
        last = [it for it in said if it.startswith("logic=")]
        if last and last[-1].startswith("logic=not-proved"):
            return None, is_for_names_alone(said) or is_uncovered(said)
        if last:
            return "the crate is proved with it", None
        return f"the check came to no end: {ended(said)}", None


def together(trial, mutants, tell):
    """Tells of those that are refused in one check, and gives the others: those that wait for a
    check without what they call, and those that have to be tried alone."""
    said, why = trial.check(mutants)
    later, alone = [], []
    for mutant in mutants:
        verdict = None if why else verdict_of(mutant.function, trial.crate, said)
        # Where a proof by hand names what isn't there, it has to be seen whether that is all.
        own = f"/{mutant.function[2]}/"
        lost = not why and any(own in it for it in sentences(said) if is_of_a_name(it))
        if verdict == "not proved" and not lost:
            tell(mutant.name, None)
        elif verdict == "no proof" and len(mutants) > 1:
            later.append(mutant)
        else:
            alone.append(mutant)
    return later, alone


def in_batches(trial, pool, mutants, tell):
    """Tells of those that batches refuse, and gives those that have to be tried alone."""
    alone = []
    while mutants:
        ran = list(pool.map(lambda it: together(trial, it, tell), batches_of(mutants, MOST)))
        later = [it for row, _ in ran for it in row]
        alone += [it for _, row in ran for it in row]
        # What calls a function that another mutant changes waits for a check of its own.
        alone += later if len(later) == len(mutants) else []
        mutants = [] if len(later) == len(mutants) else later
    return alone


def try_crate(crate, names, bases, rank, tell):
    """Tries mutants of the crate, and tells of each, by its name, why it passes, or None where it
    is refused. Crates of a lesser rank go before it."""
    trial = Trial(crate, bases, rank)
    why = trial.fault()
    if why:
        for it in names:
            tell(it, why)
        return
    folder = bases.root / "crates" / crate
    mutants = [Mutant(folder / "mutants" / f"{it}.edit", folder) for it in names]
    alone = [it for it in mutants if trial.name(it) is None]
    # One more than there are places: so the next copy is ready where a place becomes free.
    with concurrent.futures.ThreadPoolExecutor(bases.lanes.count + 1) as pool:
        try_alone = lambda it: tell(it.name, *trial.tried_alone(it))
        early = [pool.submit(try_alone, it) for it in alone]
        late = in_batches(trial, pool, [it for it in mutants if it not in alone], tell)
        list(pool.map(try_alone, late))
        for it in early:
            it.result()
    shutil.rmtree(trial.room, ignore_errors=True)
