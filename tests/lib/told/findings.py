"""All that `check --words` says of a folder, by a second writer who shares nothing with the program:
from the places that `check --explain` prints, the files, and the sentences of docs/CODES.md. No test
of itself."""
import hashlib
import os
import pathlib
import re
import shutil
import stat
import unicodedata
import urllib.parse

from bags import DIGITS, is_unsafe, lines_of

ROOT = pathlib.Path(__file__).resolve().parents[3]
SHOWN, MOST_PARTS, MOST_TEXT, MOST_FILES = 160, 32, 67_108_864, 100_000
MARK = b"\xef\xbb\xbf"
READ = ("md5", "sha1", "sha256", "sha512")
# What Unicode has shown as nothing (Default_Ignorable_Code_Point), and what is like that.
IGNORED = [0xAD, 0x34F, 0x61C, 0x115F, 0x1160, 0x17B4, 0x17B5, *range(0x180B, 0x1810),
           *range(0x200B, 0x2010), *range(0x202A, 0x202F), *range(0x2060, 0x2070), 0x3164,
           *range(0xFE00, 0xFE10), 0xFEFF, 0xFFA0, *range(0xFFF0, 0xFFFC),
           *range(0x1BCA0, 0x1BCA4), *range(0x1D173, 0x1D17B), *range(0xE0000, 0xE1000)]
IGNORED = frozenset(map(chr, IGNORED))
REASONS = {
    "absent": "isn't there",
    "no right": "may not be read by this user",
    "no folder": "isn't a folder",
    "not UTF-8": "has an entry whose name isn't UTF-8, as `ls -b` shows; rename that",
    "link": "is a link; put a copy of what it leads to in its place",
    "special": "is a pipe, a socket or a device, and a bag has files and folders",
    "deep": f"has more than {MOST_PARTS} parts",
    "many": f"has more than {MOST_FILES:,} files and folders",
    "long": f"has more than {MOST_TEXT >> 20} MiB",
}
ESCAPED = {"0A": "\n", "0D": "\r", "25": "%"}


def sentences():
    """The sentence of each code, by docs/CODES.md: its words, and after a semicolon what to do."""
    found, code = {}, None
    for line in (ROOT / "docs/CODES.md").read_text().splitlines():
        if line.startswith(26 * " ") and code:
            words = line.strip()
            is_advice = words.startswith("to do: ")
            found[code] += "; " + words.removeprefix("to do: ") if is_advice else " " + words
        elif re.match(r"  \S", line) and len(line) > 26:
            code = line[2:26].strip()
            found[code] = line[26:].strip()
        else:
            code = None
    return found


SENTENCES = sentences()


def shown(name):
    """A name as a person reads it: what can't be seen in it is shown by its number."""
    blank = ("Cc", "Zl", "Zp", "Zs")
    return "".join(
        f"\\u{{{ord(it):x}}}"
        if it in IGNORED or it not in " \u1680" and unicodedata.category(it) in blank else it
        for it in name
    )


def shown_line(line):
    """A line between quotes; of a long one its beginning. What is no text has dots."""
    front = line[:SHOWN]
    try:
        words = shown(front.decode())
    except UnicodeDecodeError:
        words = "".join(chr(it) if 32 <= it < 127 else "." for it in front)
    return f'"{words}{".." if len(line) > SHOWN else ""}"'


def shown_path(path):
    """A path; between quotes where its end couldn't be seen."""
    is_plain = path and path == path.strip(" ")
    return shown(path) if is_plain else f'"{shown(path)}"'


def many(count, word):
    return f"{count} {word}{'' if count == 1 else 's'}"


# ---- names that may be mistaken


def without_escapes(name):
    return re.sub("%(0[AaDd]|25)", lambda it: ESCAPED[it[1].upper()], name)


def without_blanks(name):
    marks = {0xAD, *range(0x200B, 0x2010), 0x2060, 0xFEFF}
    is_blank = lambda it: it.isspace() or unicodedata.category(it) == "Cc" or ord(it) in marks
    return "".join(it for it in name if not is_blank(it))


def with_slashes(name):
    return re.sub(r"[/\\]+", "/", name)


def nfc(name):
    return unicodedata.normalize("NFC", name)


def key_of(name):
    plain = with_slashes(without_blanks(without_escapes(name)))
    return nfc(nfc(plain).casefold())


def difference(listed, present):
    """By what a listed name differs from that of a file."""
    if nfc(listed) == nfc(present):
        forms = [{it for it in ("NFC", "NFD") if unicodedata.is_normalized(it, name)}
                 for name in (listed, present)]
        told = {("NFC", "NFD"): ": listed in NFC, there in NFD",
                ("NFD", "NFC"): ": listed in NFD, there in NFC"}
        found = [told[it] for it in told if it[0] in forms[0] and it[1] in forms[1]]
        return "Unicode form" + (found or [""])[0]
    for how, made in (("letter case", str.casefold), ("blanks", without_blanks),
                      ("slashes", with_slashes)):
        if made(listed) == made(present):
            return how
    if without_escapes(listed) == without_escapes(present):
        return ("an escape: in a manifest %0A, %0D and %25 stand for a line feed, a carriage return "
                "and %")
    return "more than one of letter case, Unicode form, blanks, slashes and escapes"


# ---- what is found


class Folder:
    """What is in a folder that can be read, and what can't be read, with the reason."""

    def __init__(self, path, is_nobody=False):
        """`is_nobody`: for a user who has no rights but those of all."""
        self.path, self.files, self.folders, self.unread = path, {}, set(), {}
        self.lacks = lambda mode, rights: is_nobody and mode & rights != rights
        self.list(os.fsencode(path), "")
        self.files = dict(sorted(self.files.items(), key=lambda it: it[0].encode()))

    def list(self, place, below):
        try:
            entries = list(os.scandir(place))
        except OSError as why:
            kinds = {FileNotFoundError: "absent", PermissionError: "no right",
                     NotADirectoryError: "no folder"}
            self.unread[below or "."] = kinds[type(why)]
            return
        for entry in entries:
            try:
                path = f"{below}/{entry.name.decode()}".lstrip("/")
            except UnicodeDecodeError:
                self.unread[below or "."] = "not UTF-8"
                continue
            self.take(entry, path)

    def take(self, entry, path):
        mode = entry.stat(follow_symlinks=False).st_mode
        if path.count("/") >= MOST_PARTS:
            self.unread[path] = "deep"
        elif stat.S_ISDIR(mode):
            self.folders.add(path)
            if self.lacks(mode, 0o005):
                self.unread[path] = "no right"
            else:
                self.list(entry.path, path)
        elif stat.S_ISREG(mode):
            self.read(entry, path)
        else:
            self.unread[path] = "link" if stat.S_ISLNK(mode) else "special"

    def read(self, entry, path):
        is_text = path == "bagit.txt" or re.fullmatch("(tag)?manifest-[^/]*[.]txt", path)
        if is_text and entry.stat().st_size > MOST_TEXT:
            self.unread[path] = "long"
            return
        try:
            if self.lacks(entry.stat().st_mode, 0o004):
                raise PermissionError
            self.files[path] = pathlib.Path(os.fsdecode(entry.path)).read_bytes()
        except PermissionError:
            self.unread[path] = "no right"

    def has_unread(self, path):
        """Whether this can't be read, or what it is below."""
        parts = path.split("/")
        return any("/".join(parts[: it + 1]) in self.unread for it in range(len(parts)))

    @property
    def payload(self):
        return [it for it in self.files if it.startswith("data/")]


def letters_of(name):
    """A name in small letters, without dashes, blanks and endings `.txt`."""
    plain = re.sub("[-_ \u2010-\u2015\u2212]", "", name)
    plain = "".join(chr(ord(it) + 32) if "A" <= it <= "Z" else it for it in plain)
    return re.sub("([.]txt)+$", "", plain)


class Finding:
    """A line of `check --explain` below the first: a fault's number and its place."""

    def __init__(self, line):
        number, *fields = line.split(" ")
        self.number, self.path, self.algorithm, at = int(number), "", "", ""
        if len(fields) == 1 and self.number in (2, 3, 4, 9):
            at = fields[0]
        else:
            self.path = urllib.parse.unquote(fields[0], errors="strict")
            at, self.algorithm = fields[-1] if fields[1:] else "", (fields[1:-1] or [""])[0]
        name, colon, line = at.rpartition(":")
        self.name, self.line = (name, int(line)) if colon else (at, 0)


class Words:
    """What is said of a folder whose places are these."""

    def __init__(self, folder, lines):
        self.folder, self.files = folder, folder.files
        found = [Finding(it) for it in lines]
        self.findings = [it for it in found if not folder.has_unread(it.path)]
        self.missing, self.unlisted = {}, {}
        if any(it.number == 12 for it in self.findings):
            for it in self.findings:
                kept = {12: self.missing, 13: self.unlisted}.get(it.number, {})
                kept[key_of(it.path)] = it.path
            others = [it for it in self.files if not it.startswith("data/")]
            self.unlisted |= {key_of(it): it for it in others}

    def lines(self, code=None):
        """All lines: below a code of `unread` what can't be read, then the faults with their places,
        what RFC 8493 says, warnings and counts. What comes in the disk's order is sorted."""
        said = [f"{code}: {SENTENCES[code]}"] if code else []
        places = [f"  {shown(str(self.folder.path) if place == '.' else place)} {REASONS[why]}"
                  for place, why in self.folder.unread.items()]
        said += sorted(places)
        if self.folder.unread and not (self.files or self.folder.folders):
            return said
        for number in sorted({it.number for it in self.findings}):
            said.append(f"invalid {number}: {SENTENCES[f'invalid {number}']}")
            said += [f"  {self.place(it)}" for it in self.findings if it.number == number]
        warnings = list(self.warnings())
        return [*said, *self.by_rfc(), *(f"warning: {it}" for it in warnings), self.counts(warnings)]

    def counts(self, warnings):
        payload = len(self.folder.payload)
        faults = len({it.number for it in self.findings})
        unread = f", {many(len(self.folder.unread), 'place')} that can't be read"
        return (f"{many(payload, 'file')} below data/, {many(len(self.files) - payload, 'other')}; "
                f"{many(faults, 'fault')} at {many(len(self.findings), 'place')}"
                f"{unread if self.folder.unread else ''}, {many(len(warnings), 'warning')}")

    def place(self, it):
        """The sentence of one place."""
        told = {1: self.no_declaration, 7: self.no_manifest, 8: self.unknown, 9: self.malformed,
                10: self.astray, 12: self.not_there, 13: self.not_listed, 14: self.changed}
        if it.number in told:
            return told[it.number](it)
        if it.number in (2, 3, 4):
            return self.declared(it)
        if it.number == 11:
            return self.entry(it) + " again"
        if it.number == 5:
            return "fetch.txt is in the bag"
        tops = [it.split("/")[0] for it in self.files if "/" in it]
        meant = [it for it in tops if it != "data" and letters_of(it) == "data"]
        more = f"; if the folder {shown(meant[0])} is meant, rename it to data" if meant else ""
        return f"data isn't there, or is no folder{more}"

    def near(self, name):
        """Which file beside the payload may be meant to have this name, which none has."""
        meant = [it for it in self.files if "/" not in it and letters_of(it) == letters_of(name)]
        return f"; if {shown(meant[0])} is meant, rename it to {name}" if meant else ""

    def no_declaration(self, _):
        below = [it[:-10] for it in self.files if it.endswith("/bagit.txt")]
        more = f"; there is one in {shown(below[0])}: maybe that is the bag" if below else ""
        return f"bagit.txt isn't there{more or self.near('bagit.txt')}"

    def line_at(self, it):
        lines = lines_of(self.files.get(it.name, b""))
        return lines[it.line - 1] if it.line <= len(lines) else b""

    def declared(self, it):
        if it.number == 2:
            first = '; it has to be "BagIt-Version: 1.0"'
            second = '; it has to be "Tag-File-Character-Encoding: UTF-8"'
            why = {1: first, 2: second}.get(it.line, "; there are two lines only")
        else:
            why = {3: "; versions 1.0 and 0.97 are read",
                   4: "; the encoding that is read is UTF-8"}[it.number]
        if self.line_at(it).startswith(b"\xef\xbb\xbf"):
            why += "; it begins with a byte order mark: save it without"
        return f"bagit.txt line {it.line} is {shown_line(self.line_at(it))}{why}"

    def no_manifest(self, _):
        alike = [it for it in self.files if it[:8].lower() == "manifest" and "/" not in it]
        more = f"; there is {', '.join(map(shown, alike))}" if alike else ""
        return f"manifest-sha512.txt isn't there{more}{self.near('manifest-sha512.txt')}"

    def unknown(self, it):
        meant = [f"{kind}-{algorithm}.txt" for kind in ("manifest", "tagmanifest")
                 for algorithm in READ]
        meant = [one for one in meant if letters_of(one) == letters_of(it.path)]
        more = f"; rename it to {meant[0]}, and in tag manifests" if meant else ""
        if meant and meant[0] in self.files:
            more = f"; {meant[0]} is there too: compare both, and keep this one elsewhere"
        return f"{shown_path(it.path)} is of an algorithm that isn't read here{more}"

    def malformed(self, it):
        line = self.line_at(it)
        why = self.mistake(re.search(r"-(\w+)[.]txt$", it.name)[1], line)
        return f"{it.name} line {it.line} is {shown_line(line)}: {why}"

    def mistake(self, algorithm, line):
        if line.startswith(MARK):
            return "it begins with a byte order mark; save it without"
        begins = {b"#": "a manifest has no comments", b" ": "it begins with a blank",
                  b"\t": "it begins with a blank",
                  b"\\": "sha512sum begins so where it escapes a name; write the name as it is, "
                         "with %0A, %0D and %25"}
        if line[:1] in begins:
            return begins[line[:1]]
        digits, wanted = len(re.match(b"[0-9A-Fa-f]*", line)[0]), DIGITS[algorithm]
        if digits != wanted:
            other = [f", a {it} {digits}" for it in READ if DIGITS[it] == digits]
            more = (other or [""])[0]
            return f"it begins with {digits} hex digits, and a {algorithm} has {wanted}{more}"
        rest = line[digits:]
        if not rest.strip():
            return "no path comes after the digest"
        return "its path isn't UTF-8" if rest[:1] in b" \t" else "no blank comes after the digest"

    def entry(self, it):
        return f"{it.name} line {it.line} lists {shown_path(it.path)}"

    def astray(self, it):
        if it.path.startswith("/"):
            more = ", which begins with a slash, and paths begin in the bag's own folder"
            return self.entry(it) + more
        if is_unsafe(it.path):
            return self.entry(it) + (", which has an empty part, one that is . or .., or a slash at "
                                     "an end")
        if it.path.startswith("data/"):
            more = ", which is below data/, and a tag manifest lists the others"
            return self.entry(it) + more
        meant = f"data/{it.path}"
        is_there = f"; {shown_path(meant)} is there: list paths from the bag's own folder on"
        more = is_there if meant in self.files else ""
        return f"{self.entry(it)}, which isn't below data/{more}"

    def not_there(self, it):
        other = self.unlisted.get(key_of(it.path), it.path)
        more = f"; {shown(other)} is, and differs only by {difference(it.path, other)}"
        return f"{self.entry(it)}, which isn't there{more if other != it.path else ''}"

    def not_listed(self, it):
        other = self.missing.get(key_of(it.path), it.path)
        more = f"; it lists {shown(other)}, which differs only by {difference(other, it.path)}"
        return (f"{shown_path(it.path)} is in the bag, but {it.name} doesn't list it"
                f"{more if other != it.path else ''}")

    def changed(self, it):
        listed = re.match(b"[0-9A-Fa-f]*", self.line_at(it))[0].decode().lower()
        found = hashlib.new(it.algorithm, self.files[it.path]).hexdigest()
        return (f"{shown(it.path)} isn't as listed: {it.name} line {it.line} lists the "
                f"{it.algorithm} {listed}, found is {found}")

    def by_rfc(self):
        """A bag that is refused here alone, if each of its files was read."""
        if self.folder.unread:
            return
        numbers = {it.number for it in self.findings}
        found = [it for it in READ if f"manifest-{it}.txt" in self.files]
        if not numbers or numbers - {5, 7, 8} or not found:
            return
        if 8 in numbers:
            yield ("RFC 8493: not known, since a manifest isn't read here; nothing is wrong by "
                   f"those that are ({' '.join(found)})")
            return
        why = "no bag with a fetch.txt is taken here"
        why = "it has no identity here: no manifest-sha512.txt" if 7 in numbers else why
        unless = ", if its fetch.txt lists no other files" if 5 in numbers else ""
        yield f"RFC 8493: valid ({' '.join(found)}){unless}, but {why}"

    # ---- warnings

    def warnings(self):
        yield from self.oxum()
        twins = {}
        for path in self.files:
            if nfc(path) in twins:
                both = f"{shown(twins[nfc(path)])} and {shown(path)}"
                yield f"{both} differ only by Unicode form: on many disks they are one file"
            twins[nfc(path)] = path
        has_files = {"/".join(it.split("/")[:at]) for it in self.files for at in
                     range(1, it.count("/") + 1)}
        for folder in sorted(self.folder.folders - has_files - {"data"}):
            above = folder.rpartition("/")[0]
            if not above or above in has_files:
                yield f"{shown(folder)} is a folder without files, and no manifest can list it"
        yield from self.unlisted_by_tags()

    def oxum(self):
        """Another Payload-Oxum than that of the payload."""
        if "bag-info.txt" not in self.files:
            return
        # Of its first MiB.
        lines = [it.decode() for it in lines_of(self.files["bag-info.txt"][: 1 << 20])]
        said = [it[13:].strip() for it in lines if it[:13].lower() == "payload-oxum:"]
        count, payload = sum(len(self.files[it]) for it in self.folder.payload), self.folder.payload
        found = f"{count}.{len(payload)}"
        if said and said[0] != found:
            yield (f"bag-info.txt says Payload-Oxum {shown(said[0])}, and data/ has {count} bytes in "
                   f"{len(payload)} files: {found}")

    def unlisted_by_tags(self):
        tags = [it for it in READ if f"tagmanifest-{it}.txt" in self.files]
        listed = set()
        for it in tags:
            lines = [one for one in lines_of(self.files[f"tagmanifest-{it}.txt"]) if one.strip()]
            form = re.compile(rb"[0-9A-Fa-f]{%d}[ \t]+([*]|)(\./|)(.*)" % DIGITS[it])
            found = [form.fullmatch(one) for one in lines]
            if not all(found):
                return
            listed |= {one[3].decode() for one in found}
        for path in self.files if tags else ():
            if not path.startswith(("data/", "tagmanifest-")) and path not in listed:
                yield f"no tag manifest lists {shown(path)}, so a change to it would go unnoticed"


def in_order(lines):
    """Lines in an order of their own where the disk gives one: what can't be read, which manifests
    there are, and warnings of one kind."""
    kinds = [lines.index(it) for it in lines[1:] if not it.startswith("  ")]
    at = kinds[0] if lines[0].startswith("unread ") and kinds else 1
    made = [in_order_within(it) for it in [*lines[:1], *sorted(lines[1:at]), *lines[at:]]]
    for form in ("^warning: .* is a folder without files", "^warning: no tag manifest lists"):
        places = [place for place, it in enumerate(made) if re.search(form, it)]
        if places and places[-1] - places[0] < len(places):
            made[places[0] : places[-1] + 1] = sorted(made[it] for it in places)
    return made


def in_order_within(line):
    """A line, in which the disk has the order of manifests, or of twins."""
    front, there_is, names = line.partition("txt isn't there; there is ")
    if there_is and front.endswith("manifest-sha512.") and not names.startswith("one in"):
        names, meant, more = names.partition("; if ")
        return front + there_is + ", ".join(sorted(names.split(", "))) + meant + more
    twins = re.fullmatch("warning: (.*) and (.*)( differ only by Unicode form: .*)", line)
    return f"warning: {' and '.join(sorted(twins.groups()[:2]))}{twins[3]}" if twins else line


def said_of(path, room, explained, is_nobody=False):
    """All that is said of the folder of this path. `explained` gives the lines of `check --explain`
    for a folder; of one that can't be read whole, for a copy of the rest in this room."""
    folder = Folder(path, is_nobody)
    if not folder.unread:
        verdict, *places = explained(path)
        return Words(folder, places).lines()
    copy = room / "what can be read"
    for it in ("", *folder.folders):
        (copy / it).mkdir(parents=True, exist_ok=True)
    for it, content in folder.files.items():
        (copy / it).write_bytes(content)
    (verdict, *_), (_, *places) = explained(path), explained(copy)
    shutil.rmtree(copy)
    return Words(folder, places).lines(verdict)


def is_open(path):
    """Whether the disk's order decides which of two files a name may be mistaken for."""
    files = Folder(path).files
    below = [it for it in files if it.endswith("/bagit.txt")]
    beside = [letters_of(it) for it in files if "/" not in it]
    return (len({key_of(it) for it in files}) < len(files) or len(below) > 1
            or len({*beside}) < len(beside))
