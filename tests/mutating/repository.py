"""The crates of a repository, and hashes of what a mutant's verdict rests on."""
import hashlib
import re
import shutil
import subprocess

PARTS = ("src", "specs", "proofs")


def copy_of(root, to):
    """Copies what mutants are made of and tried over, so that a run sees one state of it all."""
    for source in (it for part in (*PARTS, "mutants") for it in root.glob(f"crates/*/{part}")):
        shutil.copytree(source, to / source.relative_to(root))
    for name in ("crates.txt", "HANDLES"):
        shutil.copy(root / name, to)


def stands_on(root):
    """The crates that each crate names in crates.txt."""
    lines = (root / "crates.txt").read_text().splitlines()
    named = dict(it.split(":", 1) for it in lines if ":" in it and not it.startswith("#"))
    own = lambda words: [it for it in words.split() if it in named]
    return {it.split()[0]: own(words) for it, words in named.items()}


def with_all_below(crate, below):
    """The crate and all that it stands on."""
    found = [crate]
    for name in found:
        found += [it for it in below[name] if it not in found]
    return found


def logic_of_toolchain():
    """The sum of the logic in which verdicts are proved; toolchains that differ may share it."""
    ran = subprocess.run(["rt", "version"], capture_output=True, text=True, check=True)
    return re.search(r"logic \S+", ran.stdout)[0]


def files_of(part):
    """The files of a part of a crate, without those of its tests and of their proofs."""
    files = sorted(it for it in part.rglob("*") if it.is_file())
    return [it for it in files if it.relative_to(part).parts[0] not in ("tests", "tests.rt")]


def text_of(file):
    """The file's text without lines of comment, and without the line that names its tests."""
    text = re.sub(r"(?:(?<=\n)\n)?#\[cfg\(test\)\]\nmod tests;\n", "", file.read_text())
    lines = text.splitlines(keepends=True)
    return "".join(it for it in lines if not it.lstrip().startswith(("//", "-- ")))


def promised(text):
    """A source without imports, bodies of functions, and functions that aren't public."""
    kept, lines, is_own = [], text.splitlines(keepends=True), True
    at = 0
    while at < len(lines):
        line = lines[at]
        if re.match(r"\w", line):
            # A method that isn't public belongs to its type alone, unless it is a trait's.
            is_own = not re.match(r"(pub )?trait\b|impl\b.* for ", line)
        header = re.match(r"( *)((?:pub )?|pub\(crate\) )(?:const )?fn \w", line)
        end = body_of(lines, at, header[1]) if header else None
        if end is None:
            kept += [] if re.match(r"\s*$| *(pub )?(ghost )?use |(pub )?mod ", line) else [line]
            at += 1
        else:
            is_hidden = header[2] != "pub " and (is_own or not header[1])
            kept += [] if is_hidden else lines[at : end[0]]
            at = end[1]
    return "".join(kept)


def body_of(lines, header, indent):
    """The lines at which a function's body opens, and after which it ends; None without a body."""
    for at in range(header, len(lines)):
        line = lines[at].rstrip("\n")
        if line in (indent + "{}", indent + "{ }") or at == header and line.endswith("{}"):
            return at, at + 1
        is_opened = line.endswith(" {") and (at == header or line.startswith(indent + ")"))
        if line == indent + "{" or is_opened:
            end = next(n for n in range(at, len(lines)) if lines[n].rstrip("\n") == indent + "}")
            return at, end + 1
        if line.endswith(";"):
            return None
    return None


def taken_of(root, crate, below, logic):
    """A hash, to be gone on with, of what the verdict on any mutant of the crate rests on."""
    taken, crates = hashlib.sha256(logic.encode()), root / "crates"
    own = [(crates / crate / part, text_of) for part in PARTS]
    others = sorted(it for it in with_all_below(crate, below) if it != crate)
    lower = [(crates / it / "src", lambda file: promised(text_of(file))) for it in others]
    lower += [(crates / it / "specs", text_of) for it in others]
    for folder, read in own + lower:
        for file in files_of(folder):
            taken.update(f"{file.relative_to(root)}\n{read(file)}".encode())
    return taken


def hash_of(taken, edit):
    """A hash of all that the verdict on this mutant rests on, its edit among it."""
    whole = taken.copy()
    whole.update(edit.read_bytes())
    return whole.hexdigest()[:32]


def hashes_of(root, below, logic):
    """Of each mutant, by its crate and its name, a hash of all that its verdict rests on."""
    found = {}
    for crate in below:
        edits = sorted((root / "crates" / crate / "mutants").glob("*.edit"))
        taken = taken_of(root, crate, below, logic) if edits else None
        found.update({(crate, it.stem): hash_of(taken, it) for it in edits})
    return found
