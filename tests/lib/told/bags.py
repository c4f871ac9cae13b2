"""Whether a tree of files is a valid bag: the rules of docs/FORMATS.md, by a second writer who
shares nothing with the program. No test of itself."""
import hashlib
import re

DIGITS = {"md5": 32, "sha1": 40, "sha256": 64, "sha512": 128}
ENDS = re.compile(rb"\r\n|\r|\n")
VERSION = re.compile(rb"BagIt-Version:[ \t]+([0-9]+\.[0-9]+)[ \t]*")
ENCODING = re.compile(rb"Tag-File-Character-Encoding:[ \t]+([\x21-\x7e]+)[ \t]*")
MANIFEST = re.compile(r"(tag)?manifest-(.*)\.txt", re.DOTALL)
ESCAPED = {b"%0A": b"\n", b"%0D": b"\r", b"%25": b"%"}
MOST_PARTS, MOST_BYTES = 32, 67_108_864


def lines_of(text):
    """The lines of a text: CR LF, CR and LF each end one."""
    lines = ENDS.split(text)
    return lines if lines[-1] else lines[:-1]


def is_unsafe(path):
    return any(it in ("", ".", "..") for it in path.split("/"))


class Tree:
    """The files of a tree by their paths, and whether it has a payload folder."""

    def __init__(self):
        self.files, self.has_data = {}, False

    def takes(self, path, content):
        """Adds a file; whether the tree can have it."""
        parts = path.split("/")
        above = {"/".join(parts[:it]) for it in range(1, len(parts))}
        if is_unsafe(path) or path == "data" or len(parts) > MOST_PARTS:
            return False
        if path in self.files or above & set(self.files):
            return False
        if any(it.startswith(path + "/") for it in self.files):
            return False
        self.files[path] = content
        self.has_data = self.has_data or path.startswith("data/")
        return True

    def copy(self):
        made = Tree()
        made.files, made.has_data = dict(self.files), self.has_data
        return made

    @property
    def identity(self):
        return hashlib.sha512(self.files["manifest-sha512.txt"]).digest()

    @property
    def fault(self):
        """The number of the least fault; 0 where the tree is a valid bag."""
        return min(self.faults(), default=0)

    def faults(self):
        yield from self.faults_of_declaration()
        if "fetch.txt" in self.files:
            yield 5
        if not self.has_data:
            yield 6
        if "manifest-sha512.txt" not in self.files:
            yield 7
        for path, text in self.files.items():
            named = MANIFEST.fullmatch(path) if "/" not in path else None
            if named:
                yield from self.faults_of_manifest(named[1] is not None, named[2], text)

    def faults_of_declaration(self):
        if "bagit.txt" not in self.files:
            yield 1
            return
        lines = lines_of(self.files["bagit.txt"])
        version = VERSION.fullmatch(lines[0]) if len(lines) == 2 else None
        encoding = ENCODING.fullmatch(lines[1]) if len(lines) == 2 else None
        if not (version and encoding):
            yield 2
            return
        if version[1] not in (b"1.0", b"0.97"):
            yield 3
        if encoding[1].upper() != b"UTF-8":
            yield 4

    def faults_of_manifest(self, is_of_tags, algorithm, text):
        if algorithm not in DIGITS:
            yield 8
            return
        entries = [entry_of(it, DIGITS[algorithm]) for it in lines_of(text) if it.strip(b" \t")]
        if None in entries:
            yield 9
            return
        yield from self.faults_of_entries(is_of_tags, algorithm, entries)

    def faults_of_entries(self, is_of_tags, algorithm, entries):
        paths = [path for _, path in entries]
        if any(is_unsafe(it) or it.startswith("data/") == is_of_tags for it in paths):
            yield 10
        if not is_of_tags and len(set(paths)) < len(paths):
            yield 11
        if any(it not in self.files for it in paths):
            yield 12
        payload = {it for it in self.files if it.startswith("data/")}
        if not is_of_tags and payload - set(paths):
            yield 13
        for digest, path in entries:
            content = self.files.get(path)
            if content is not None and hashlib.new(algorithm, content).hexdigest() != digest:
                yield 14


def entry_of(line, digits):
    """The digest and the path of a manifest's line; None where it isn't well-formed."""
    found = re.fullmatch(rb"([0-9A-Fa-f]{%d})[ \t]+([^ \t].*)" % digits, line, re.DOTALL)
    if not found:
        return None
    path = found[2].removeprefix(b"*").removeprefix(b"./")
    path = re.sub(rb"%0[aAdD]|%25", lambda it: ESCAPED[it[0].upper()], path)
    try:
        return found[1].decode().lower(), path.decode()
    except UnicodeDecodeError:
        return None
