"""What the tests share: the built programs, what is counted, a room for each part. No test of
itself. BAGPAXOS and PROBE name the programs, as ./test does; without them a program is taken that
was built in its crate's folder, or taken from release/, whichever came last."""
import os
import pathlib
import subprocess
import sys
import tempfile

TESTS = pathlib.Path(__file__).resolve().parent.parent
ROOT, DATA = TESTS.parent, TESTS / "data"


def built(name):
    """Where the program is that came last."""
    places = [ROOT / f"crates/{name}/out/{name}", ROOT / f"out/released/{name}"]
    return max(places, key=lambda it: it.stat().st_mtime if it.exists() else 0)


def current(name):
    """Where the program is that was proved of the sources as they are; it is built if need be."""
    ran = subprocess.run([ROOT / "tools/program", name], stdout=subprocess.PIPE, text=True)
    return pathlib.Path(ran.stdout.strip()) if ran.returncode == 0 else sys.exit(1)


PROGRAM = pathlib.Path(os.environ.get("BAGPAXOS") or built("bagpaxos"))
PROBE = pathlib.Path(os.environ.get("PROBE") or built("probe"))


class Count:
    """How many comparisons there were."""

    passed = failed = 0

    def expect(self, what, got, wanted):
        """Counts a comparison, and prints one that fails."""
        if got == wanted:
            self.passed += 1
        else:
            self.failed += 1
            print(f"FAILED {what}: {got!r} and not {wanted!r}", flush=True)

    def end(self):
        """Prints the counts, and gives the status."""
        print(f"{self.passed} passed, {self.failed} failed")
        return 1 if self.failed or not self.passed else 0


def need(*programs):
    """Ends a test where one of these isn't built."""
    if not all(os.access(it, os.X_OK) for it in programs):
        print("there is no built program: run ./test, or rt ci, first")
        print("0 passed, 1 failed")
        sys.exit(1)


def can_trace(count):
    """Whether strace is here; without it a test fails, unless WITHOUT_STRACE is set."""
    tried = ["strace", "-o", "/dev/null", "-e", "inject=getpid:error=EIO", "true"]
    try:
        if subprocess.run(tried, capture_output=True).returncode == 0:
            return True
    except FileNotFoundError:
        pass
    print("skipped system calls that fail: strace isn't here, or can't trace")
    count.expect("strace is here, or WITHOUT_STRACE is set", "WITHOUT_STRACE" in os.environ, True)
    return False


def nobody_in(room):
    """How a program is run that has no rights but those of all, in this room; None where it can't
    be."""
    if os.geteuid() != 0:
        return {}
    how, top = {"user": 65534, "group": 65534}, tempfile.gettempdir()
    for folder in (room, *room.parents):
        is_ours = str(folder).startswith(top) and folder != pathlib.Path(top)
        if folder.stat().st_mode & 0o005 != 0o005 and is_ours:
            folder.chmod(0o755)
    try:
        if subprocess.run([PROGRAM, "--version"], capture_output=True, **how).returncode == 0:
            return how
    except PermissionError:
        pass
    print("skipped files without rights: the program can't be run as nobody")
    return None


def in_rooms(*parts):
    """Runs each part in an empty folder of its own."""
    for part in parts:
        with tempfile.TemporaryDirectory() as room:
            part(pathlib.Path(room))


def chosen_of(parts, names, parser):
    """The parts of these names; all of them, where there are none."""
    by_name = {it.__name__: it for it in parts}
    for unknown in set(names) - set(by_name):
        parser.error(f"no part {unknown}: {', '.join(by_name)}")
    return [by_name[it] for it in names] or parts


def said_by(words, **how):
    """What a command prints, and its status."""
    ran = subprocess.run(words, capture_output=True, text=True, timeout=60, **how)
    return ran.stdout, ran.returncode


def run(*words, **how):
    """What the program prints, and its status."""
    return said_by([PROGRAM, *words], **how)


def run_traced(trace, options, *words):
    """The same under strace, with these options; its trace goes into this file."""
    return said_by(["strace", "-o", trace, *options, PROGRAM, *words])


def status_without_room(*words):
    """The program's status where nothing can be written to standard output."""
    with open("/dev/full", "w") as full:
        how = {"stdin": subprocess.DEVNULL, "stdout": full, "stderr": subprocess.DEVNULL}
        return subprocess.run([PROGRAM, *words], timeout=60, **how).returncode
