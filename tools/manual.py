"""The manual page and the completion for bash, made from what the program says of itself."""
import re
import subprocess

SECTION = re.compile(r"(Commands|Arguments|Options):\n((?:  .*\n)+)\n?")
# The values of these options and arguments are files, or folders; of others nothing is known.
FILES = "<FILE>", "[FILE]", "<CELL>", "<PICTURE>"
FOLDERS = "<FOLDER>", "[FOLDER]", "[PATH]"
# The columns that `man` has beside the indent, on a terminal of 80: it takes 78.
WIDTH = 71


class Help:
    """What `--help` prints, in its parts."""

    def __init__(self, program, *words):
        how = {"stdout": subprocess.PIPE, "text": True, "check": True}
        ran = subprocess.run([program, *words, "--help"], **how)
        self.about, _, rest = ran.stdout.partition("\n\nUsage: ")
        usage, _, rest = rest.partition("\n\n")
        # Further lines are below the first, which stands after `Usage: `.
        self.usage = usage.replace("\n       ", "\n")
        self.sections = {}
        while found := SECTION.match(rest):
            entries = (re.split(r" {2,}", it.strip(), maxsplit=1) for it in found[2].splitlines())
            self.sections[found[1]] = [(it[0], it[1] if it[1:] else "") for it in entries]
            rest = rest[found.end() :]
        self.rest = rest.rstrip("\n")

    def entries(self, section):
        return self.sections.get(section, [])


def helps(program):
    """The program's own help, and that of each of its commands."""
    whole = Help(program)
    names = [name for name, _ in whole.entries("Commands") if name != "help"]
    return whole, {name: Help(program, name) for name in names}


def codes(program):
    """What `help codes` prints, if the program has that page."""
    ran = subprocess.run([program, "help", "codes"], capture_output=True, text=True)
    return ran.stdout.rstrip("\n") if ran.returncode == 0 else ""


def escaped(text):
    """The text as troff prints it, line for line."""
    text = text.replace("\\", "\\e").replace("-", "\\-").replace("'", "\\(aq").replace("`", "\\(ga")
    return re.sub(r"(?m)^\.", r"\\&.", text)


def listed(entries):
    """Entries of a section of the help, each with what it says."""
    return [line for name, about in entries for line in (".TP", escaped(name), escaped(about))]


def as_it_stands(text):
    """The text line for line, with the indent of all text, or a smaller one for a long line."""
    if not text:
        return []
    text = re.sub("(?m)^  ", "", text) if text.startswith("  ") else text
    beyond = max(map(len, text.split("\n"))) - WIDTH
    back, again = ([f".in -{beyond}n"], [".in"]) if beyond > 0 else ([], [])
    return [".PP", *back, ".nf", escaped(text), ".fi", *again]


def told(text):
    """Text of the help: its paragraphs are filled, its tables are entries, and lines of examples
    stay as they are. So all has the indent of a page, and fits a terminal of 80 columns."""
    lines = []
    for part in re.findall(r"(?m)(?:^\S.*\n?)+|(?:^ .*\n?)+", text):
        part = part.rstrip("\n")
        if not part.startswith(" "):
            lines += [".PP", escaped(part)]
        elif re.search(r"\S {2,}\S|[^\\]\n {3}", part):
            lines += table(part)
        else:
            lines += as_it_stands(part)
    return lines


def table(part):
    """Entries with a name and what is said of it, which keeps its lines."""
    rows = [row(it) for it in re.findall(r"(?m)^  \S.*(?:\n {3,}.*)*", part)]
    width = WIDTH - max(len(it) for _, about in rows for it in about)
    width = min(width, max(len(name) for name, _ in rows) + 2)
    lines = []
    for name, about in rows:
        lines += [f".TP {width}n", escaped(name), "\n.br\n".join(map(escaped, about))]
    return lines


def row(text):
    """The name of an entry, and the lines of what is said of it."""
    first, *others = text.split("\n")
    name, *about = re.split(r" {2,}", first[2:], maxsplit=1)
    column = first.rindex(about[0]) if about else re.match(" *", "".join(others)).end()
    return name, [*about, *(it[column:] for it in others)]


def manual(program, version, pages):
    """The page bagpaxos(1). The version is told in several lines, the name and the number first;
    pages is the folder of the others."""
    whole, commands = helps(program)
    usages = "\n".join(it.usage for it in [whole, *commands.values()])
    lines = [f'.TH BAGPAXOS 1 "" "{escaped(version.partition(chr(10))[0])}"']
    # Words of commands aren't to be divided.
    lines += [".nh", ".ad l"]
    about = whole.about.replace("\n", " ")
    lines += [".SH NAME", f"bagpaxos \\- {escaped(about)}"]
    lines += [".SH SYNOPSIS", *as_it_stands(usages)]
    lines += [".SH COMMANDS", *listed(whole.entries("Commands"))]
    lines += [".SH OPTIONS", *listed(whole.entries("Options")), *told(whole.rest)]
    for name, command in commands.items():
        lines += [f".SH BAGPAXOS {name.upper()}", escaped(command.about)]
        lines += [*as_it_stands(command.usage)]
        lines += listed(command.entries("Arguments") + command.entries("Options"))
        lines += told(command.rest)
    lines += [".SH CODES", *told(codes(program))]
    lines += [".SH FILES", ".TP", escaped(str(pages)), "The pages, README.md first, and examples."]
    lines += [".SH VERSION", *as_it_stands(version)]
    return "\n".join(lines) + "\n"


def options_of(help_text):
    """Each long option, and what its value is called, if it has one."""
    found = (re.search(r"(--[\w-]+)(?: (\S+))?$", name) for name, _ in help_text.entries("Options"))
    return [(it[1], it[2]) for it in found if it]


def completion(program):
    """What bash completes after `bagpaxos`."""
    whole, commands = helps(program)
    first = [name for name, _ in whole.entries("Commands")] + [it for it, _ in options_of(whole)]
    values, words = [], []
    for name, command in commands.items():
        for option, value in options_of(command):
            by = "".join(f"_bagpaxos_by {it}; " for it in kinds_for([value])[:1])
            values += [f"    {name}:{option}) {by}return ;;"] if value else []
        options = " ".join(option for option, _ in options_of(command))
        words.append(f"    {name}:-*) _bagpaxos_by -W '{options}' ;;")
        arguments = [it.rstrip(".") for it, _ in command.entries("Arguments")]
        words += [f"    {name}:*) _bagpaxos_by {it} ;;" for it in kinds_for(arguments)[:1]]
    words.append(f"    help:*) _bagpaxos_by -W '{' '.join(commands)} codes' ;;")
    lines = {"values": "\n".join(values), "words": "\n".join(words)}
    return COMPLETION.format(first=" ".join(first), **lines)


def kinds_for(values):
    """How bash completes each of these, where that is known."""
    return [kind for kind, of in (("-f", FILES), ("-d", FOLDERS)) for it in values if it in of]


COMPLETION = """\
# What bash completes after `bagpaxos`.
_bagpaxos() {{
  local word=${{COMP_WORDS[COMP_CWORD]}} before=${{COMP_WORDS[COMP_CWORD - 1]}}
  _bagpaxos_by() {{
    mapfile -t COMPREPLY < <(compgen "$@" -- "$word")
    case $1 in -[df]) compopt -o filenames 2> /dev/null ;; esac
  }}
  COMPREPLY=()
  if [ "$COMP_CWORD" = 1 ]; then
    _bagpaxos_by -W '{first}'
    return
  fi
  case ${{COMP_WORDS[1]}}:$before in
{values}
  esac
  case ${{COMP_WORDS[1]}}:$word in
{words}
  esac
}}
complete -F _bagpaxos bagpaxos
"""
