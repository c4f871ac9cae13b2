"""Mistakes that are planted in a picture, each of which `picture` has to find. No test of
itself."""
import re
import xml.etree.ElementTree as ElementTree

from picture import SVG, classes, numbers

ElementTree.register_namespace("", SVG[1:-1])
# How far a thing is moved that is put elsewhere: no two columns or rows are so far from each other.
ASIDE = 31
# The shapes of some marks, but for their places.
VOTE, ROUND = "m-6 -6h12v12h-12z", "m0 -6l6 11h-12z"
STOP, START, DEPOSIT = "m-4 4l8 8m0 -8l-8 8", "m-4 -6l10 6l-10 6z", "m-5 -7h7l4 4v10h-11z"


class Spoilt:
    """A picture in which something is to be spoilt."""

    def __init__(self, text):
        self.drawn = ElementTree.fromstring(text)
        self.columns = {}
        for name in self.of_class("name"):
            self.columns[int(re.match(r"site (\d+)", name.text)[1])] = int(name.get("x"))

    def text(self):
        return ElementTree.tostring(self.drawn, encoding="unicode")

    def of_class(self, *wanted):
        return [it for it in self.drawn.iter() if set(wanted) <= set(classes(it))]

    def labels(self):
        return [it for it in self.drawn.iter(f"{SVG}text") if it.get("dx") in ("13", "-13")]

    def arrows(self):
        """The arrows from one site to another, with their datagrams' lines and crosses."""
        groups = [it for it in self.drawn.iter(f"{SVG}g")]
        return [it for it in groups if re.search(r"site (\d+) to site (?!\1)", it[0].text)]

    def delivered(self):
        return [it for it in self.arrows() if "b" not in classes(it[1])]

    def crosses(self, is_broken):
        """Those of datagrams that were never delivered, or that were lost at a site."""
        groups = [it for it in self.drawn.iter(f"{SVG}g") if len(it) > 2]
        return [it[2] for it in groups if ("b" in classes(it[1])) == is_broken]

    def again(self):
        """The names of the sites where they are named a second time, if it isn't the last."""
        names = self.of_class("name")
        second = sorted({int(it.get("y")) for it in names})[1:-1][0]
        return [it for it in names if int(it.get("y")) == second]

    def recolour(self, one, other):
        """The classes of one bag's colour get another one's; or they aren't there."""
        style = self.drawn.find(f"{SVG}style")
        found = re.findall(rf"\.s{other}\{{stroke:([^}}]+)\}}", style.text) if other else ()
        classes_of = rf"\.s{one}\{{stroke:[^}}]+\}}.*\n"
        made = f".s{one}{{stroke:{found[-1]}}}.f{one}{{fill:{found[-1]};color:{found[-1]}}}\n" if (
            found) else ""
        head, dark, tail = style.text.rpartition("@media")
        style.text = head + dark + re.sub(classes_of, made, tail)

    def restyle(self, one, other):
        """Words of the style are others, where they stand first."""
        style = self.drawn.find(f"{SVG}style")
        style.text = style.text.replace(one, other, 1)

    def loops(self):
        """The lines of datagrams that sites have sent to themselves, and that arrived."""
        groups = [it for it in self.drawn.iter(f"{SVG}g")]
        return [it[1] for it in groups if "C" in it[1].get("d")]

    def on_top(self, element):
        self.drawn.remove(element)
        self.drawn.append(element)

    def unhead(self, place):
        definitions = self.drawn.find(f"{SVG}defs")
        definitions.remove(definitions[place])

    def exchange_shades(self):
        """The colours that are made are as light on a light sheet as they have to be on a dark one,
        and the other way round."""
        style = self.drawn.find(f"{SVG}style")
        other = lambda it: f",{int(it[1]) + (24 if int(it[1]) < 60 else -24)}%)"
        style.text = re.sub(r",(\d+)%\)", other, style.text)

    def marks(self, shape):
        """The marks of a shape, the first ones first; that of the legend comes last."""
        return [it for it in self.drawn if shape in (it.get("d") or "")]


def moved(element, index, by):
    """Moves a number of a path's."""
    found = numbers(element.get("d"))
    found[index] += by
    pieces = re.split(r"-?\d+(?:\.\d+)?", element.get("d"))
    together = [it for pair in zip(pieces, map(str, found)) for it in pair]
    element.set("d", "".join([*together, pieces[-1]]))


def put(element, name, by):
    element.set(name, str(int(element.get(name)) + by))


def exchanged(one, other, name):
    value, another = one.get(name), other.get(name)
    one.set(name, another)
    other.set(name, value)


def reworded(one, other):
    one.text, other.text = other.text, one.text


def recoloured(element):
    """Another colour than the one it has."""
    turned = lambda it: {"1": "2", "p": "r", "r": "p"}.get(it, "1")
    words = [it[0] + turned(it[1:]) if re.fullmatch(r"[sf](\d+|[pr])", it) else it for it in
             classes(element)]
    element.set("class", " ".join(words))


def turned(label):
    """Words stand on the other side, and so does their box."""
    is_left, far = "l" in classes(label), int(label.get("dx"))
    label.set("class", classes(label)[-1] if is_left else f"l {classes(label)[-1]}")
    label.set("dx", str(-far))


def bent(loop, by):
    for at in (2, 4):
        moved(loop, at, by)


def straight(loop):
    places = numbers(loop.get("d"))
    loop.set("d", "M{} {}L{} {}".format(*places[:2], *places[-2:]))


def whole(label):
    title = label[0]
    label.text = title.text
    label.remove(title)


def untitled(label):
    label.text = label[0].tail
    label.remove(label[0])


def to_sender(spoilt):
    arrow = spoilt.delivered()[0][1]
    x, _, end, _ = numbers(arrow.get("d"))
    moved(arrow, 2, x - end + (7 if end > x else -7))


def other_class(old, new):
    def change(spoilt):
        for it in spoilt.of_class(old)[:1]:
            it.set("class", it.get("class").replace(old, new))
    return change


# What is planted, and how.
MISTAKES = {
    "an arrow to its sender": to_sender,
    "an arrow that begins elsewhere": lambda it: moved(it.delivered()[0][1], 0, ASIDE),
    "an arrow from another row": lambda it: moved(it.delivered()[0][1], 1, ASIDE),
    "an arrow to another row": lambda it: moved(it.delivered()[0][1], -1, ASIDE),
    "an arrow on the wrong side": lambda it: moved(it.delivered()[0][1], -2, 14),
    "an arrow without a head": lambda it: it.delivered()[0][1].attrib.pop("marker-end"),
    "an arrow in another colour": lambda it: recoloured(it.delivered()[0][1]),
    "an arrow with another title": lambda it: reworded(it.delivered()[0][0], it.arrows()[-1][0]),
    "an arrow that is whole": lambda it: [one for one in it.arrows() if "b" in classes(
        one[1])][0][1].set("class", "a sp"),
    "no arrow": lambda it: it.drawn.remove(it.arrows()[0]),
    "a cross of a lost one at the wrong end": lambda it: moved(it.crosses(False)[0], 0, -ASIDE),
    "a cross of a lost one in another row": lambda it: moved(it.crosses(False)[0], 1, ASIDE),
    "a cross of a broken one elsewhere": lambda it: moved(it.crosses(True)[0], 0, ASIDE),
    "a cross too few": lambda it: it.arrows().pop() if not it.crosses(True) else [
        group.remove(group[2]) for group in it.drawn.iter(f"{SVG}g") if len(group) > 2][:1],
    "a repeat at another site": lambda it: moved(it.of_class("again")[0], -2, ASIDE),
    "a repeat in another row": lambda it: moved(it.of_class("again")[0], -1, ASIDE),
    "a repeat too few": lambda it: it.drawn.remove(it.of_class("again")[0]),
    "a failed site drawn as down": other_class("failed", "down"),
    "a site that is down drawn as failed": other_class("down", "failed"),
    "a gap that begins later": lambda it: moved(it.of_class("down")[0], 1, ASIDE),
    "a gap that ends later": lambda it: moved(it.of_class("down")[0], 2, ASIDE),
    "a gap at another site": lambda it: moved(it.of_class("down")[0], 0, ASIDE),
    "no gap": lambda it: it.drawn.remove(it.of_class("gap")[0]),
    "words exchanged": lambda it: reworded(it.labels()[0], it.labels()[-1]),
    "words at another site": lambda it: put(it.labels()[0], "x", ASIDE),
    "words in another row": lambda it: put(it.labels()[-1], "y", -ASIDE),
    "words in another colour": lambda it: recoloured(it.labels()[0]),
    "words too few": lambda it: it.drawn.remove(it.labels()[-1]),
    "a line's number elsewhere": lambda it: put(it.of_class("n")[0], "y", ASIDE),
    "lines' numbers exchanged": lambda it: reworded(it.of_class("n")[0], it.of_class("n")[-1]),
    "names exchanged": lambda it: reworded(it.of_class("name")[0], it.of_class("name")[1]),
    "another weight": lambda it: setattr(it.of_class("name")[0], "text", "site 1, weight 9"),
    "a vote drawn as a promise": lambda it: it.marks(VOTE)[0].set(
        "d", it.marks(VOTE)[0].get("d").replace(VOTE, ROUND)),
    "a vote in another colour": lambda it: recoloured(it.marks(VOTE)[0]),
    "a vote at another site": lambda it: moved(it.marks(VOTE)[0], 0, ASIDE),
    "a vote in another row": lambda it: moved(it.marks(VOTE)[0], 1, ASIDE),
    "a deposit too few": lambda it: it.drawn.remove(it.marks(DEPOSIT)[0]),
    "a stop at another site": lambda it: moved(it.marks(STOP)[0], 0, ASIDE),
    "a stop too few": lambda it: it.drawn.remove(it.marks(STOP)[0]),
    "a start too few": lambda it: it.drawn.remove(it.marks(START)[0]),
    "a known bag in another colour": lambda it: recoloured(it.of_class("knows")[0]),
    "a known bag since another row": lambda it: moved(it.of_class("knows")[0], 1, -ASIDE),
    "the legend's words exchanged": lambda it: reworded(it.of_class("g")[0], it.of_class("g")[3]),
    "the legend's bags exchanged": lambda it: reworded(it.of_class("g")[8], it.of_class("g")[9]),
    "a box that is too narrow": lambda it: put(it.of_class("box")[0], "width", -ASIDE - 60),
    "a box elsewhere": lambda it: put(it.of_class("box")[-1], "x", 2 * ASIDE),
    "no box": lambda it: it.drawn.remove(it.of_class("box")[0]),
    "long words as they are": lambda it: whole([one for one in it.labels() if len(one)][0]),
    "long words without a title": lambda it: untitled([one for one in it.labels() if len(one)][0]),
    "the sites not named again": lambda it: [it.drawn.remove(one) for one in it.again()],
    "the sites named in a row": lambda it: [put(one, "y", 30) for one in it.again()],
    "two bags of one colour": lambda it: it.recolour("2", "1"),
    "no colour on a dark sheet": lambda it: it.recolour("2", ""),
    "shades of a light sheet on a dark one": lambda it: it.exchange_shades(),
    "a name beside its box": lambda it: put(it.of_class("site")[0], "x", ASIDE),
    "a legend that is too low": lambda it: it.drawn.set("height", str(
        int(it.of_class("g")[-1].get("y")) + 1)),
    "a box that is too wide": lambda it: put(it.of_class("box")[0], "width", 40 * ASIDE),
    "a loop over the next column": lambda it: bent(it.loops()[0], 20 * ASIDE),
    "a loop to the left": lambda it: bent(it.loops()[0], -6 * ASIDE),
    "a loop that is a line": lambda it: straight(it.loops()[0]),
    "words on the other side": lambda it: turned([one for one in it.labels() if not (
        one.text or "#").startswith("#")][0]),
    "no head of a plain arrow": lambda it: it.unhead(0),
    "no head of a bag's arrow": lambda it: it.unhead(2),
    "a head in another colour": lambda it: recoloured(it.drawn.find(f"{SVG}defs")[2][0]),
    "a head that isn't turned": lambda it: it.drawn.find(f"{SVG}defs")[0].attrib.pop("orient"),
    "an arrow above the words": lambda it: it.on_top(it.arrows()[0]),
    "a column above the marks": lambda it: it.on_top(it.of_class("up")[0]),
    "a gap below what is known": lambda it: it.on_top(it.of_class("knows")[-1]),
    "a sheet above everything": lambda it: it.on_top(it.of_class("sheet")[0]),
    "a view of another height": lambda it: it.drawn.set(
        "viewBox", f"0 0 {it.drawn.get('width')} 90"),
    "a mark unlike the legend's": lambda it: it.marks(VOTE)[:-1][0].set(
        "class", it.marks(VOTE)[0].get("class").replace("m ", "")),
    "words to the right of where they end": lambda it: it.restyle(".l{text-anchor:end}", ""),
    "a dash that two have": lambda it: it.restyle("dasharray:1.5 3", "dasharray:5 3"),
    "lines of which the inside is filled": lambda it: it.restyle("path.a{fill:none;", "path.a{"),
    "a gap through which a column is seen": lambda it: it.restyle("width:8", "width:2"),
    "a box that hides nothing": lambda it: it.restyle(".sheet,.box{", ".sheet{"),
    "a style that names nothing": lambda it: it.restyle(".knows{", ".know{"),
    "a broken one's words exchanged": lambda it: exchanged(
        *[one for one in it.drawn.iter(f"{SVG}text") if one.get("dy") == "4" and not {"g", "n"} &
          set(classes(one))][:2], "y"),
}


def spoilt(text, mistake):
    """The picture with a mistake; None where it has nothing that could be spoilt so."""
    made = Spoilt(text)
    try:
        MISTAKES[mistake](made)
    except (IndexError, TypeError, KeyError, ValueError):
        return None
    changed = made.text()
    return changed if changed != Spoilt(text).text() else None
