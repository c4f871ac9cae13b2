"""What a program is made from, and whether the program that there is was made from that."""
import hashlib
import os
import pathlib
import re
import shutil
import subprocess

ROOT = pathlib.Path(__file__).resolve().parent.parent
# The program, and the one that tests alone need; each is the crate of its name.
NAME, PROGRAMS = "bagpaxos", ("bagpaxos", "probe")
CRATES, OUT = ROOT / "crates", ROOT / "out"
PARTS = ("src", "specs", "proofs")

# A line of comment, or else what may hold what looks like one: the rest of a line, a block, a text.
RATTLE = r"(^[ \t]*//[^\n]*\n?)|//[^\n]*|/\*.*?\*/|(?<!\w)b?r(#*)\".*?\"\2"
RATTLE += r"|\"(?:\\.|[^\"\\])*\"|'(?:\\.|[^'\\])'"
ANTT = r"(^[ \t]*--[^\n]*\n?)|--[^\n]*|\{-.*?-\}|\"(?:\\.|[^\"\\])*\""
COMMENTS = {".rt": re.compile(RATTLE, re.S | re.M), ".antt": re.compile(ANTT, re.S | re.M)}


def program_of(name):
    """Where the program is that was proved and built here."""
    return OUT / name


def mark_file(name):
    """The file beside it that says of what it was built."""
    return OUT / f"{name}.proved"


def crates_of_program(name):
    """The words of the lines of crates.txt that the program needs, by crate, lowest first."""
    lines = [it.partition("#")[0] for it in (ROOT / "crates.txt").read_text().splitlines()]
    words = {re.match(r"\s*(\w+)", it)[1]: it.split() for it in lines if it.strip()}
    needed = {}

    def add(crate):
        for lower in words[crate][1:]:
            if lower in words and lower not in needed:
                add(lower)
        needed[crate] = words[crate]

    add(name)
    return needed


def all_below(name, crates):
    """The crates that a crate stands on, also by way of others."""
    found, left = set(), [name]
    while left:
        direct = {it for it in crates[left.pop()][1:] if it in crates}
        left += direct - found
        found |= direct
    return sorted(found)


def without_comments(file):
    """The file's text without lines of comment: these change neither proof nor program."""
    text = file.read_text(errors="surrogateescape")
    keep = lambda found: found[0] if found[1] is None else ""
    return COMMENTS[file.suffix].sub(keep, text) if file.suffix in COMMENTS else text


def sum_of_sources(crates, folder=CRATES):
    """The sum of what the program is made from, in this folder of crates."""
    taken = hashlib.sha256()
    for name in sorted(crates):
        taken.update(f"{' '.join(crates[name])}\n".encode())
        for part in PARTS:
            for file in sorted(it for it in (folder / name / part).rglob("*") if it.is_file()):
                text = without_comments(file)
                head = f"{file.relative_to(folder)} {len(text)}\n"
                taken.update((head + text).encode(errors="surrogateescape"))
    return taken.hexdigest()


def toolchain():
    """What `rt version` says; None where there is no `rt`, or one of something else."""
    try:
        ran = subprocess.run(["rt", "version"], capture_output=True, text=True, check=True)
        return " ".join(ran.stdout.split())
    except (FileNotFoundError, PermissionError, subprocess.CalledProcessError):
        return None


def mark_of(name, sources, version):
    """What the mark says of the program that is in out/."""
    program = hashlib.sha256(program_of(name).read_bytes()).hexdigest()
    return f"toolchain: {version}\nsources: {sources}\nprogram: {program}\n"


def is_current(name, sources, version, since):
    """Whether the program is proved and built of these sources, which were read at that time. By
    which toolchain is asked where there is one."""
    mark = mark_file(name)
    try:
        said = mark.read_text()
        proved_by = re.match("toolchain: (.*)\n", said)[1] if version is None else version
        if said != mark_of(name, sources, proved_by):
            return False
    except (OSError, TypeError):
        return False
    try:
        os.utime(mark, (since, since))
    except OSError:
        # The sum is taken again next time.
        pass
    return True


def take_program(name, sources, version, since):
    """Takes the program that `rt` has built, and notes of what; what is half done never counts."""
    OUT.mkdir(exist_ok=True)
    new = OUT / f"new.{os.getpid()}"
    try:
        shutil.copy(CRATES / name / "out" / name, new)
        new.replace(program_of(name))
        new.write_text(mark_of(name, sources, version))
        os.utime(new, (since, since))
        new.replace(mark_file(name))
    finally:
        new.unlink(missing_ok=True)
