"""Style sheets, of pictures and of pages: whether they name what there is, in words of CSS, and whether
what is drawn can be seen on its sheet. No test of itself."""
import colorsys
import itertools
import re

WHITE, DARK = "#fff", "#12171e"
PROPERTIES = set("""align-items background border border-bottom border-collapse border-color border-radius
    border-style box-shadow color color-scheme cursor display fill flex flex-wrap font font-size font-weight
    gap grid-template-columns height list-style margin margin-top max-height min-height min-width opacity overflow
    overflow-wrap padding pointer-events position stroke stroke-dasharray stroke-linecap stroke-linejoin
    stroke-width table-layout text-align text-anchor text-decoration text-overflow text-underline-offset top
    white-space width z-index""".split())
KEYWORDS = set("""anywhere auto auto-fill block center collapse dark dashed default ellipsis end fixed flex
    grid hidden inherit inline-block left light middle monospace none nowrap pointer round sans-serif solid
    start sticky underline wrap Inter Helvetica Arial""".split())
FAMILIES = {"'Segoe UI'", "'Helvetica Neue'", "'DejaVu Sans'"}
NUMBER = re.compile(r"-?(\d+|\d*\.\d+)(px|em|%|vh|fr)?")
TAGS = set("body button footer h2 h3 header input li main output p path section svg table td text th tr ul "
           "div".split())


def colour_of(text):
    """Red, green and blue of a colour; None where it is none."""
    if re.fullmatch("#[0-9a-f]{3}", text):
        return tuple(int(it, 16) / 15 for it in text[1:])
    if re.fullmatch("#[0-9a-f]{6}", text):
        return tuple(int(text[it : it + 2], 16) / 255 for it in (1, 3, 5))
    found = re.fullmatch(r"hsl\((\d+(?:\.\d+)?),(\d+)%,(\d+)%\)", text)
    if not found or float(found[1]) > 360 or int(found[2]) > 100 or int(found[3]) > 100:
        return None
    return colorsys.hls_to_rgb(float(found[1]) / 360, int(found[3]) / 100, int(found[2]) / 100)


def light_of(colour):
    """How light a colour is, as WCAG 2 has it."""
    parts = [it / 12.92 if it <= 0.04045 else ((it + 0.055) / 1.055) ** 2.4 for it in colour]
    return 0.2126 * parts[0] + 0.7152 * parts[1] + 0.0722 * parts[2]


def contrast(one, other):
    """The contrast of two colours, 1 to 21."""
    low, high = sorted((light_of(colour_of(one)), light_of(colour_of(other))))
    return (high + 0.05) / (low + 0.05)


def nearest(colours):
    """How far apart the two of these colours are that are nearest, of 255 in each part."""
    pairs = itertools.combinations(map(colour_of, colours), 2)
    return min((255 * max(abs(a - b) for a, b in zip(*it)) for it in pairs), default=255)


def rules_of(sheet):
    """The rules of a sheet, in its order: each with its selector and its declarations."""
    rest = re.sub(r"\s+", " ", sheet)
    while rest.strip():
        found = re.match(r"\s*([^{}]+)\{([^{}]*)\}", rest)
        if not found:
            raise ValueError(f"no rule: {rest[:40]}")
        pairs = [it.split(":", 1) for it in found[2].split(";") if it.strip()]
        yield found[1].strip(), {name.strip(): value.strip() for name, value in pairs}
        rest = rest[found.end() :]


def sheets_of(style):
    """The rules of a light sheet, and of a dark one."""
    light, dark = style.split("@media (prefers-color-scheme:dark){")
    if not dark.rstrip().endswith("}"):
        raise ValueError("a dark sheet that doesn't end")
    return list(rules_of(light)), list(rules_of(dark.rstrip()[:-1]))


def mistakes_in(rules, classes, ids):
    """What rules name that there isn't, or what is no word of CSS."""
    for selector, declared in rules:
        for kind, name in re.findall(r"([.#]?)(?<![\w:-])([\w-]+)", re.sub(r":[\w-]+(\([^)]*\))?", "", selector)):
            if name not in {".": classes, "#": ids, "": TAGS}[kind]:
                yield f"{selector}: {kind}{name}"
        for name, value in declared.items():
            if name not in PROPERTIES:
                yield f"{selector}: {name}"
            yield from (f"{selector}: {name}: {it}" for it in words_of(value) if not is_value(it))


def words_of(value):
    """The words of a declaration's value."""
    value = re.sub(r"\b(repeat|minmax)\(([^()]*)\)", r"\2", value)
    value = re.sub(r"\b(repeat)\(([^()]*)\)", r"\2", value)
    return re.findall(r"'[^']*'|hsl\([^)]*\)|[^\s,/]+", value)


def is_value(word):
    return (word in KEYWORDS | FAMILIES or NUMBER.fullmatch(word) is not None
            or colour_of(word) is not None)


def declared(rules, selector, name):
    """The last declaration of this name for what one of the rules' selectors is."""
    found = [it[name] for its, it in rules if name in it and selector in its.split(",")]
    return found[-1] if found else None
