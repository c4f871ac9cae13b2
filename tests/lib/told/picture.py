"""Where a picture of a run has everything: its columns are read by their names, its rows by the
words beside events, its marks by its own legend, and all of it is held to the run. No test of
itself."""
import re
import xml.etree.ElementTree as ElementTree
from typing import NamedTuple

from style import (DARK, WHITE, colour_of as shade_of, contrast, declared, mistakes_in, nearest,
                   sheets_of)

SVG = "{http://www.w3.org/2000/svg}"
# How far from a column an arrow may end; and how far from the middle of its row a stop may stand.
NEAR, ROW = 12, 26
# How many letters of words beside an event are seen; and how wide a letter is, in thousandths of
# the height, in the wider one of Helvetica and DejaVu Sans, by their published metrics; but `^`,
# `|` and `-` are those of Helvetica. A box is no narrower.
LETTERS, HIGH = 60, 12
WIDTHS = {260: "|", 275: "'", 278: "ijl", 295: "I", 318: " ,.\u00b7", 333: "-", 337: "/:;\\",
          352: "f", 390: "()[]", 392: "t", 401: "!", 411: "r", 460: '"', 469: "^", 500: "*J`",
          521: "s", 525: "z", 550: "c", 556: "?_", 557: "L", 579: "k", 592: "vxy", 611: "FT",
          612: "o", 613: "a", 615: "e", 634: "hnu", 635: "bdgpq", 636: "$0123456789{}",
          667: "EKPSY", 684: "AV", 685: "XZ", 686: "B", 722: "CR", 732: "U", 748: "N", 752: "H",
          770: "D", 778: "G", 780: "&", 787: "OQ", 818: "w", 838: "#+<=>~", 863: "M", 950: "%",
          974: "m", 989: "W", 1000: "\u2026", 1015: "@"}
WIDTHS = {it: wide for wide, letters in WIDTHS.items() for it in letters}
# So far apart are columns, at least; and so wide is the margin where a datagram breaks off in it.
SPACING = 250
# Sites are named again after about so many rows' height; and so far from any row, at least.
SCREENFUL, ASIDE = 25 * 26, 18
MARKS = {
    "deposit recorded": "deposit",
    "round recorded": "round",
    "promise recorded": "promise",
    "vote recorded": "vote",
    "known, recorded": "known",
    "stops, or fails": "stop",
    "starts again": "start",
    "never delivered": "lost",
}
NUMBERS = r"-?\d+(?:\.\d+)?"
DOT = "2.5"
# What lies above what: columns, what sites know, where they are down, names, repeats, arrows,
# marks, words with their boxes, and the legend.
LAYERS = {"sheet": 0, "up": 1, "knows": 2, "gap": 3, "down": 3, "failed": 3, "site": 4, "name": 4,
          "again": 5, "datagram": 6, "box": 8, "n": 8, "g": 9}
MARK_LAYER, WORDS_LAYER, LEGEND_LAYER = 7, 8, 9
# The classes of a style besides those of colours. Which ones are dashed, each in another way, of
# which only the line is seen, and which are as the sheet that is below them.
STYLED = set("sheet box l n g name site up knows gap down failed a b again x m o c".split())
DASHED = ("path.b", "path.again", ".down", ".failed")
HOLLOW = ("path.a", ".x", ".c")
AS_SHEETS = {".sheet": "fill", ".box": "fill", ".o": "fill", ".gap": "stroke", ".m": "stroke",
             ".c": "stroke"}


# The colours that were chosen: of what names no bag, of refusals, and of the bags of the trees 1 to 8,
# on a light sheet and on a dark one.
CHOSEN = {"p": ("#64748b", "#94a3b8"), "r": ("#b4483c", "#ef7d6f"), "1": ("#2f6fb5", "#6ea8e8"),
          "2": ("#d9792b", "#f0a05c"), "3": ("#3a9a62", "#5fc48a"), "4": ("#8d5cb4", "#bb90e0"),
          "5": ("#c0446a", "#ee7fa0"), "6": ("#1d8c99", "#4fc3d0"), "7": ("#8a6f3c", "#c9ab70"),
          "8": ("#5f6fc4", "#93a1f0")}


def made_of(tree):
    """The colours of the bag of a later tree, on a light sheet and on a dark one. Its hue is
    137.507 degrees beyond that of the tree before, of 320 degrees that begin at 20: the others are
    near to refusals. Of three trees, from a number on that 3 divides, each is lighter than the one
    before. On a dark sheet each is lighter than on a light one."""
    hue, lighter = 20 + tree * 137_507 % 320_000 / 1000, 8 * (tree % 3)
    return [f"hsl({hue:.3f},52%,{darkest + lighter}%)" for darkest in (36, 60)]


class Wrong(Exception):
    """What is said or drawn isn't so."""


def claim(holds, why):
    if not holds:
        raise Wrong(why)


def same(what, got, wanted):
    claim(got == wanted, f"{what}: {got!r} and not {wanted!r}")


class Mark(NamedTuple):
    """Something that stands in a column: its kind, where, and the letter of its colour."""

    kind: str
    x: int
    y: int
    colour: str


class Way(NamedTuple):
    """An arrow's line: from where to where, its colour and classes, whether it has a head, and the
    places towards which it bends."""

    begin: tuple
    end: tuple
    colour: str
    classes: frozenset
    has_head: bool
    bends: tuple


def colour_of(tree):
    """What ends the classes of a bag's colour; of what names none."""
    return str(tree) if tree else "p"


def seen_of(words):
    """What is seen of words: all, or an ellipsis in place of their end."""
    return words if len(words) <= LETTERS else f"{words[: LETTERS - 1]}…"


def words_of(text):
    """What is seen of a text's words, and all of them."""
    title = text.find(f"{SVG}title")
    return (text.text, text.text) if title is None else (title.tail, title.text)


# ---- the words beside events


class Labels:
    """The words beside the events of a run."""

    def __init__(self, words):
        self.words, self.run = words, words.run

    def text(self, event):
        if event.delivered:
            said = self.words.message(event.delivered)
            return f"#{event.number} {said}{self.note(event)}"
        return self.deed(event) + self.outcome(event)

    def note(self, event):
        if event.outcome == "down":
            return " · recorded, stops" if event.made else " · stops, no record"
        told = {"skip down": " · down", "failed": " · device fails", "unopened": " · not heard"}
        return told[event.outcome] if event.outcome in told else self.heard(event)

    def heard(self, event):
        if event.delivered.message.kind in ("Prepare", "Accept"):
            return " · refused" if event.sent[0].message.kind == "Refused" else ""
        if event.count is None:
            return ""
        heard, needed = event.count[0], self.words.needed
        if self.words.has_weights:
            return f" · weight {heard}, {needed} needed"
        return f" · {heard} of {needed}" if heard <= needed else ""

    def deed(self, event):
        slot = f" {event.slot}" if self.words.has_slots and event.slot else ""
        is_done, number = event.is_done, event.number
        if event.deed == "deposit":
            tree = "" if event.outcome == "registered" else f" of tree {number}"
            return f"deposit{tree}{slot}: "
        if event.deed == "propose":
            return f"proposes{slot} in {event.made.ballot}" if is_done else f"proposal{slot}: "
        if event.deed == "recover":
            return f"recovers{slot} in {event.made.ballot}" if is_done else f"recovery{slot}: "
        if event.deed == "ask":
            return f"asks {number}{slot}" if is_done else f"question to {number}{slot}: "
        if event.deed == "start":
            return f"starts, {event.said.split()[-1]} on record"
        return {"query": f"asked{slot}: ", "raw": "foreign bytes: ", "stop": ""}[event.deed]

    def outcome(self, event):
        tree = event.bag_said
        return {
            "registered": f"bag {tree}",
            "reply known": f"bag {tree} is known",
            "reply pending": f"bag {tree} is pending",
            "reply nothing": "nothing",
            "refused": "no valid bag" if event.refusal == 10 else "refused",
            "failed": "device fails",
            "unopened": "needs opening",
            "dropped": "dropped",
            "down": "stops",
        }.get(event.outcome, "")

    def colour(self, event):
        if event.delivered:
            return self.colour_of(event.delivered)
        return colour_of(event.tree)

    def colour_of(self, datagram):
        """That of a datagram: a refusal has one, and a promise none but the plain one."""
        if datagram.message.kind == "Refused":
            return "r"
        if datagram.message.kind == "Promise":
            return "p"
        return colour_of(self.run.tree_of(datagram.message.bag))


def end_of_words(words):
    """Where words end that begin beside a place; to the left, where they stand there."""
    wide = int(sum(WIDTHS[it] for it in words_of(words)[0]) * HIGH / 1000)
    beside = int(words.get("dx", 0))
    return int(words.get("x")) + beside + (-wide if "l" in classes(words) else wide)


def is_drawn(event):
    """Whether an event has a row."""
    if event.deed == "tree":
        return False
    is_lost = event.deed == "deliver" and event.outcome == "skip down"
    return is_lost or not event.outcome.startswith("skip")


# ---- reading


def classes(element):
    return (element.get("class") or "").split()


def numbers(text):
    return [float(it) if "." in it else int(it) for it in re.findall(NUMBERS, text)]


def letter(element, prefix):
    """The colour in an element's class: `1` of `s1` or `f1`."""
    found = [it[1:] for it in classes(element) if re.fullmatch(prefix + r"(\d+|[pr])", it)]
    claim(len(found) <= 1, f"two colours: {element.attrib}")
    return found[0] if found else ""


def kinds_of(element):
    """The classes of an element, but for that of its colour."""
    return frozenset(it for it in classes(element) if not re.fullmatch(r"[sf](\d+|[pr])", it))


def place_of(element):
    """Where a shape stands, and what it is without that place."""
    if element.tag == f"{SVG}circle":
        return int(element.get("cx")), int(element.get("cy")), f"circle {element.get('r')}"
    found = re.fullmatch(r"M(\d+) (\d+)(.*)", element.get("d"))
    claim(found, f"no place: {element.attrib}")
    return int(found[1]), int(found[2]), found[3]


def place_of_words(text):
    return int(text.get("x")), int(text.get("y"))


def way_of(path):
    """An arrow's line."""
    found = numbers(path.get("d"))
    colour = letter(path, "s")
    head = path.get("marker-end")
    claim(head in (None, f"url(#h{colour})"), f"another head: {path.attrib}")
    places = tuple(zip(found[::2], found[1::2]))
    return Way(places[0], places[-1], colour, kinds_of(path), head is not None, places[1:-1])


class Picture:
    """A picture, read and held to a run."""

    def __init__(self, text, words):
        self.drawn, self.words, self.run = ElementTree.fromstring(text), words, words.run
        self.labels = Labels(words)
        self.wide, self.high = int(self.drawn.get("width")), int(self.drawn.get("height"))
        self.elements = [it for it in self.drawn if it.tag not in (f"{SVG}style", f"{SVG}defs")]
        self.texts = [it for it in self.elements if it.tag == f"{SVG}text"]

    def check(self):
        self.check_names()
        self.check_labels()
        self.check_lines()
        self.read_legend()
        self.check_columns()
        self.check_marks()
        self.check_arrows()
        self.check_repeats()
        self.check_stub_words()
        self.check_inside()
        self.check_colours()
        self.check_layers()
        self.check_heads()
        self.check_style()

    # ---- columns and rows

    def check_names(self):
        """Each site is named above its column and below it, and each screenful between, with its
        weight where these differ."""
        self.columns, heights = {}, {}
        for name in [it for it in self.texts if classes(it) == ["name"]]:
            site = int(re.match(r"site (\d+)", name.text)[1])
            weight = f", weight {self.run.weights[site - 1]}" if self.words.has_weights else ""
            same("the name of a site", name.text, f"site {site}{weight}")
            x, y = int(name.get("x")), int(name.get("y"))
            box, line = self.elements[self.elements.index(name) - 1], y + int(name.get("dy"))
            wide, high = int(box.get("width")), int(box.get("height"))
            found = [box.get(it) for it in ("class", "x", "y", "transform")]
            middle = ["site", str(x), str(y), f"translate(-{wide // 2} 0)"]
            same(f"the box of site {site}", found, middle)
            claim(y + HIGH < line < y + high - 3, f"site {site} in its box: {line}")
            heights.setdefault(y, []).append(site)
            same(f"the names of site {site}", x, self.columns.setdefault(site, x))
        same("sites", list(self.columns), list(range(1, len(self.run.weights) + 1)))
        columns = list(self.columns.values())
        claim(columns == sorted(set(columns)), f"columns from left to right: {columns}")
        near = [it for it in zip(columns, columns[1:]) if it[1] - it[0] < SPACING]
        claim(not near, f"columns that are too near: {near}")
        for y, sites in heights.items():
            same(f"the sites named at {y}", sites, list(self.columns))
        self.names = sorted(heights)
        claim(len(self.names) > 1, "one row of names")
        self.top, self.bottom = self.names[0], self.names[-1]

    def check_shades(self, sheet, found):
        """Each colour is one, can be seen on its sheet, and is unlike each other. The first eight bags
        have colours that are chosen; those of others are made from the numbers of their trees."""
        shades = [it for _, it in found]
        same("no colours", [it for it in shades if shade_of(it) is None], [])
        for letters, it in found:
            is_chosen = letters in CHOSEN
            light, dark = CHOSEN[letters] if is_chosen else made_of(int(letters))
            same(f"the colour {letters} on {sheet}", it, dark if sheet == DARK else light)
            least = 3 if is_chosen else 1.8
            claim(contrast(it, sheet) >= least, f"{it} isn't seen on {sheet}")
        claim(nearest(shades[:10]) > 20, f"two are alike: {shades}")

    def check_screenfuls(self):
        """The sites are named again before a row if they were named a screenful above it, and nowhere
        else; no row is where they are named."""
        below = [self.top + 56, *(it + 30 for it in self.names[1:-1])]
        for one, name in zip(below, self.names[1:-1]):
            claim(name - 16 - one >= SCREENFUL, f"names at {name}, too early")
            claim(all(abs(it - name - 14) > ASIDE for it in self.rows.values()),
                  f"names at {name}, where a row is")
        for row in self.rows.values():
            named = max(it for it in below if it < row)
            claim(row - ROW - named < SCREENFUL, f"no names before the row {row}")

    def check_labels(self):
        """The words beside each event, in its site's column, one row below the other."""
        self.rows, events = {}, [(at, it) for at, it in enumerate(self.run.events) if is_drawn(it)]
        labels = [it for it in self.texts if it.get("dx") in ("13", "-13")]
        same("words beside events", len(labels), len(events))
        last = self.top
        for (place, event), label in zip(events, labels):
            what = f"line {event.line}, the words of an event"
            self.check_words(what, label, self.labels.text(event))
            same(f"{what}: column", int(label.get("x")), self.columns[event.site])
            same(f"{what}: colour", letter(label, "f"), self.labels.colour(event))
            same(f"{what}: side", ("l" in classes(label)), label.get("dx") == "-13")
            # An arrow doesn't end among the words: one from the left has them on the right, and one
            # from the right, as each to its sender, on the left. Other words are on the left, but
            # for the last site of several.
            is_left = event.site == 1 or event.site < len(self.run.weights)
            if event.delivered:
                is_left = event.delivered.sender >= event.delivered.to
            same(f"{what}: its side", "l" in classes(label), is_left)
            row = int(label.get("y"))
            claim(last < row < self.bottom, f"{what}: row {row} below {last}")
            self.rows[place], last = row, row
        self.last = last
        self.check_screenfuls()

    def check_words(self, what, label, wanted):
        """The words of a label, of which a title has what isn't seen; behind it is a box."""
        same(f"{what}: seen", words_of(label), (seen_of(wanted), wanted))
        same(f"{what}: a title", label.find(f"{SVG}title") is None, len(wanted) <= LETTERS)
        box = self.elements[self.elements.index(label) - 1]
        same(f"{what}: a box", (box.tag, classes(box)), (f"{SVG}rect", ["box"]))
        begin, end = sorted([int(label.get("x")) + int(label.get("dx", 0)), end_of_words(label)])
        x, y, wide, high = (int(box.get(it)) for it in ("x", "y", "width", "height"))
        line = int(label.get("y")) + int(label.get("dy"))
        claim(x <= begin and end <= x + wide, f"{what}: a box from {x} to {x + wide}")
        claim(y <= line - 10 and line + 3 <= y + high, f"{what}: a box from {y} to {y + high}")
        # Fonts are of different widths, but none of twice that of another.
        claim(wide <= 2 * (end - begin) + NEAR, f"{what}: a box that is {wide} wide")
        over = [it for it in self.columns.values() if x < it < x + wide]
        claim(not over and 0 <= x and x + wide <= self.wide, f"{what}: its box is over a column")

    def check_lines(self):
        """The numbers of the schedule's lines, each in the row of its first event."""
        wanted, line = [], None
        for place, row in self.rows.items():
            if self.run.events[place].line != line:
                line = self.run.events[place].line
                wanted.append((f"line {line}", row))
        found = [(it.text, int(it.get("y"))) for it in self.texts if classes(it) == ["n"]]
        same("numbers of lines", found, wanted)

    def read_legend(self):
        """What each mark means, and the bags' colours: a shape, and then its words."""
        at = self.elements.index([it for it in self.texts if "g" not in classes(it)][-1]) + 1
        shapes, self.shapes, bags, self.marked = [], {}, [], at
        for element in self.elements[at:]:
            if element.tag != f"{SVG}text":
                shapes.append(element)
                continue
            places, words = [place_of(it) for it in shapes], place_of_words(element)
            same(f"where the legend has {element.text}", {it[:2] for it in places}, {words})
            found = [(it.tag, place[2], kinds_of(it)) for it, place in zip(shapes, places)]
            if element.text in MARKS:
                self.shapes[MARKS[element.text]] = found
                same(f"the colours of {element.text}", {letter(it, "[sf]") for it in shapes} <=
                     {"", "r" if MARKS[element.text] == "stop" else "p"}, True)
            else:
                bags.append((element.text, letter(shapes[0], "f")))
            shapes = []
        self.check_entries([it for it in self.elements[at:] if it.tag == f"{SVG}text"])
        same("marks of the legend", sorted(self.shapes), sorted(MARKS.values()))
        same("a broken line, crossed", [it[2] for it in self.shapes["lost"]],
             [frozenset("ab"), frozenset("x")])
        claim(len({str(it) for it in self.shapes.values()}) == len(MARKS), "two marks are alike")
        trees = dict.fromkeys(it.tree for it in self.run.events if it.tree)
        same("bags of the legend", bags, [(f"bag {it}", colour_of(it)) for it in trees])

    def check_entries(self, entries):
        """The legend is below the sites' names. Each entry ends before the next one's mark, or this
        is below it, as far to the left as the first one."""
        places = [place_of_words(it) for it in entries]
        claim(places[0][1] > self.bottom + HIGH, f"a legend at {places[0]}")
        claim(places[-1][1] + HIGH <= self.high, f"a legend that ends at {places[-1]}")
        for words, (x, y), (then, below) in zip(entries, places, places[1:]):
            is_beside = below == y and end_of_words(words) < then - NEAR
            is_below = below >= y + HIGH + 4 and then == places[0][0]
            claim(is_beside or is_below, f"the entry beside or below {words.text}")

    def check_columns(self):
        """Each site's column; where it is down or has failed; and what it knows."""
        paths = [it for it in self.elements if it.tag == f"{SVG}path"]
        found = [(it, re.fullmatch(r"M(\d+) (\d+)V(\d+)", it.get("d"))) for it in paths]
        spans = [(classes(it), *map(int, at.groups())) for it, at in found if at]
        ends = {end for kinds, _, _, end in spans if kinds == ["up"]}
        same("one end of all columns", len(ends), 1)
        self.end = ends.pop()
        claim(self.last < self.end <= self.bottom, f"the end of columns: {self.end}")
        ups = [(x, begin < min(self.rows.values(), default=self.end)) for kinds, x, begin, _ in
               spans if kinds == ["up"]]
        same("columns", ups, [(it, True) for it in self.columns.values()])
        same("where sites are down", [it for it in spans if it[0][0] in ("gap", "down", "failed")],
             list(self.gaps()))
        same("what sites know", [it for it in spans if it[0][0] == "knows"], list(self.knowledge()))
        # What comes later is above: a site that is down doesn't look as if it knew.
        order = [kinds[0] for kinds, *_ in spans if kinds[0] in ("knows", "gap")]
        same("gaps above what is known", order, sorted(order, key="gap".__eq__))

    def gaps(self):
        """From each stop and each failure up to the next start of the site."""
        for place, event in enumerate(self.run.events):
            if event.outcome in ("down", "failed"):
                x, begin, end = self.columns[event.site], self.rows[place], self.end
                for later in range(place + 1, len(self.run.events)):
                    then = self.run.events[later]
                    if (then.site, then.outcome) == (event.site, "up"):
                        end = self.rows[later]
                        break
                yield ["gap"], x, begin, end
                yield [event.outcome], x, begin, end

    def knowledge(self):
        """From the event since which a Known is on record, where there is one slot."""
        for place, event in enumerate(self.run.events):
            if event.record and event.record.kind == "known" and not self.words.has_slots:
                x = self.columns[event.site]
                yield ["knows", f"s{colour_of(event.tree)}"], x, self.rows[place], self.end

    # ---- marks

    def check_marks(self):
        """The mark of each event's record, and of what came of it."""
        at = max(it for it, one in enumerate(self.elements) if one.tag == f"{SVG}g" or
                 classes(one) == ["name"])
        first = next((self.elements.index(it) for it in self.texts if it.get("dx") in
                      ("13", "-13") or classes(it) == ["n"]), self.marked)
        marks = [it for it in self.elements[at + 1 : first] if it.tag != f"{SVG}g"]
        wanted = list(self.marks())
        for mark in wanted:
            claim(marks, f"no {mark}")
            dot = f"{SVG}circle", f"circle {DOT}", frozenset()
            shapes = self.shapes.get(mark.kind) or [dot]
            taken, marks = marks[: len(shapes)], marks[len(shapes) :]
            self.check_mark(mark, taken, shapes)
        same("more marks", [it.attrib for it in marks], [])

    def check_mark(self, mark, taken, shapes):
        is_stop = mark.kind == "stop"
        for element, (tag, shape, kinds) in zip(taken, shapes):
            x, y, found = place_of(element)
            same(f"{mark}: classes", kinds_of(element), kinds)
            if is_stop:
                # A cross, somewhat lower than its row, so that a record's mark is seen.
                moved = numbers(found)
                y += moved[1] - numbers(shape)[1]
                found = shape if moved[2:] == numbers(shape)[2:] else found
                claim(moved[0] == numbers(shape)[0], f"{mark}: moved to {element.attrib}")
                claim(mark.y <= y < mark.y + ROW / 2, f"{mark} at {y}")
                y = mark.y
            same(f"{mark}", (element.tag, x, y, found), (tag, mark.x, mark.y, shape))
        colour = letter(taken[0], "s" if is_stop else "f")
        same(f"{mark}: colour", colour, mark.colour)

    def marks(self):
        for place, row in self.rows.items():
            event = self.run.events[place]
            x, below = self.columns[event.site], 14 if event.deed == "start" else 0
            if event.record:
                kind = event.record.kind
                colour = {"round": "p", "promise": ""}.get(kind, colour_of(event.tree))
                yield Mark(kind, x, row + below, colour)
            if event.outcome in ("down", "failed"):
                yield Mark("stop", x, row, "r")
            elif event.outcome == "up":
                yield Mark("start", x, row, "p")
            elif not event.record and not event.outcome.startswith("skip"):
                yield Mark("nothing", x, row, "p")

    # ---- arrows

    def check_arrows(self):
        """An arrow for each datagram, from its sender's column and row to where it went."""
        arrows = [it for it in self.elements if it.tag == f"{SVG}g"]
        same("arrows", [(it.get("class"), it.get("id")) for it in arrows],
             [("datagram", f"datagram-{it.number}") for it in self.run.datagrams])
        for arrow, sent in zip(arrows, self.run.datagrams):
            what = f"#{sent.number} {self.words.message(sent)}"
            title = f"{what}: site {sent.sender} to site {sent.to}"
            same(f"the title of {what}", arrow.find(f"{SVG}title").text, title)
            paths = arrow.findall(f"{SVG}path")
            ways = [it for it in paths if "a" in classes(it)]
            crosses = [it for it in paths if "x" in classes(it)]
            same(f"{what}: lines", len(ways), 1)
            same(f"{what}: others", len(paths) - len(crosses), 1)
            self.check_arrow(what, sent, way_of(ways[0]), crosses)

    def check_arrow(self, what, sent, way, crosses):
        begin = self.columns[sent.sender], self.rows[sent.event]
        same(f"{what}: its beginning", way.begin, begin)
        same(f"{what}: its colour", way.colour, self.labels.colour_of(sent))
        how, place = self.run.passages.get(sent.number, ("never", None))
        middles = []
        if how == "never":
            self.check_broken(what, sent, way)
            middles = [way.end]
        else:
            same(f"{what}: its classes", (way.classes, way.has_head), (frozenset("a"), True))
            self.check_end(what, sent, way, place)
            if how == "lost":
                middles = [(self.columns[sent.to], self.rows[place])]
        found = [place_of(it) for it in crosses]
        same(f"{what}: its crosses", [it[:2] for it in found], middles)
        cross = self.shapes["stop"][0][1:]
        crossed = [(it[2], kinds_of(one)) for it, one in zip(found, crosses)]
        same(f"{what}: crosses", crossed, [cross for _ in middles])
        colours = [letter(it, "s") for it in crosses]
        same(f"{what}: their colour", colours, [way.colour for _ in middles])

    def check_end(self, what, sent, way, place):
        """An arrow ends beside its addressee's column, on the side that it comes from, in the row
        of the event that it reaches; one to its sender on the right."""
        x, y = way.end
        beside = x - self.columns[sent.to]
        is_left = sent.sender < sent.to
        claim(0 < abs(beside) <= NEAR and (beside < 0) == is_left, f"{what}: it ends at {x}")
        same(f"{what}: the row of its end", y, self.rows[place])
        # One to its sender goes out to the right and comes back before the next column.
        begin = self.columns[sent.sender]
        is_loop = sent.sender == sent.to
        same(f"{what}: bends", [it for _, it in way.bends], [way.begin[1], y] if is_loop else [])
        after = [it for it in self.columns.values() if it > begin]
        for bend, _ in way.bends:
            claim(x < bend < min([self.wide, *after]), f"{what}: it bends to {bend}")

    def check_broken(self, what, sent, way):
        """One that was never delivered breaks off on the side of its addressee, before the next
        column and the next row; one to its sender on the right."""
        same(f"{what}: its classes", (way.classes, way.has_head), (frozenset("ab"), False))
        same(f"{what}: bends", way.bends, ())
        x, y = way.end
        beside = x - way.begin[0]
        gap = min((abs(it - way.begin[0]) for it in self.columns.values() if it != way.begin[0]),
                  default=self.wide)
        claim(NEAR < abs(beside) < gap, f"{what}: it breaks off at {x}")
        claim((beside < 0) == (sent.to < sent.sender), f"{what}: it breaks off at {x}")
        is_outside = x > max(self.columns.values())
        claim(not is_outside or way.begin[0] + SPACING <= self.wide, f"{what}: at the margin")
        later = min((it for it in self.rows.values() if it > way.begin[1]), default=self.end)
        claim(way.begin[1] < y < later, f"{what}: it breaks off in row {y}")

    def check_repeats(self):
        """A dotted line for each time that a datagram came again, to where it did."""
        found = [way_of(it) for it in self.elements if "again" in classes(it)]
        wanted = []
        for place, event in enumerate(self.run.events):
            is_first = self.run.passages.get(event.number, ("", place))[1] == place
            if event.delivered and place in self.rows and not is_first:
                wanted.append((event.delivered, place))
        same("repeated datagrams", len(found), len(wanted))
        for way, (sent, place) in zip(found, wanted):
            what = f"#{sent.number} again"
            dotted = frozenset(["a", "again"])
            same(f"{what}: its classes", (way.classes, way.has_head), (dotted, True))
            begin = self.columns[sent.sender], self.rows[sent.event]
            same(f"{what}: its beginning", way.begin, begin)
            same(f"{what}: its colour", way.colour, self.labels.colour_of(sent))
            self.check_end(what, sent, way, place)

    def check_stub_words(self):
        """The words of each datagram that was never delivered, beyond the end of its arrow."""
        labels = [it for it in self.texts if it.get("dy") == "4" and letter(it, "f")]
        sent = [it for it in self.run.datagrams if it.number not in self.run.passages]
        same("words of broken arrows", [words_of(it)[1] for it in labels],
             [f"#{it.number} {self.words.message(it)}" for it in sent])
        arrows = {it.get("id"): it for it in self.elements if it.tag == f"{SVG}g"}
        for label, it in zip(labels, sent):
            path = arrows[f"datagram-{it.number}"].find(f"{SVG}path[@class]")
            way, what = way_of(path), f"the words of #{it.number}"
            self.check_words(what, label, f"#{it.number} {self.words.message(it)}")
            same(f"{what}: row", int(label.get("y")), way.end[1])
            same(f"{what}: colour", letter(label, "f"), way.colour)
            is_left = way.end[0] < way.begin[0]
            same(f"{what}: side", "l" in classes(label), is_left)
            beyond = int(label.get("x")) - way.end[0]
            claim(0 < abs(beyond) < 2 * NEAR and (beyond < 0) == is_left, f"{what}: at {beyond}")
            self.check_room(label)

    def check_room(self, words):
        """Words don't run out of the picture, or over the next column."""
        at, to = int(words.get("x")), end_of_words(words)
        claim(0 <= to <= self.wide, f"words that end outside of the picture: {words.text}")
        over = [it for it in self.columns.values() if at < it < to or to < it < at]
        claim(not over, f"words over the next column: {words.text}")

    def check_inside(self):
        """Words are inside of the picture: those beside events and of the legend to their ends, and
        the former don't run over the next column."""
        for words in self.drawn.iter(f"{SVG}text"):
            is_inside = 0 < int(words.get("x")) < self.wide and 0 < int(words.get("y")) < self.high
            claim(is_inside, f"words outside of the picture: {words.text}")
            if words.get("dx") in ("13", "-13"):
                self.check_room(words)
            elif "g" in classes(words):
                is_inside = end_of_words(words) <= self.wide
                claim(is_inside, f"words that end outside of the picture: {words.text}")

    def check_colours(self):
        """Each bag has a colour of its own, on a light sheet and on a dark one, and so have refusals
        and what names no bag; nothing else has a colour."""
        style = self.drawn.find(f"{SVG}style").text
        light, dark = style.split("@media (prefers-color-scheme:dark){")
        drawn = [letter(it, "[sf]") for it in self.elements if it.tag != f"{SVG}g"]
        drawn += [letter(it, "[sf]") for it in self.drawn.iter(f"{SVG}path")]
        for sheet in (light, dark):
            found = re.findall(r"\.s(\d+|[pr])\{stroke:([^}]+)\}\.f\1\{fill:\2;color:\2\}", sheet)
            claim(set(drawn) - {""} <= {it for it, _ in found}, f"colours of {found}")
            trees = dict.fromkeys(it.tree for it in self.run.events if it.tree)
            same("colours", [it for it, _ in found], ["p", "r", *map(str, trees)])
            same("two of one colour", len({it for _, it in found}), len(found))
            self.check_shades(DARK if sheet is dark else WHITE, found)
        grounds = [f"fill:{it}}}" in one for one, it in ((light, WHITE), (dark, DARK))]
        same("sheets", grounds, [True, True])
        claim(".sheet,.box" in light and ".sheet,.box" in dark, "a sheet that is neither")

    # ---- what is above what, and how it looks

    def layer_of(self, place, element):
        """What an element is, as a number: what has a greater one comes later, and lies above."""
        found = [LAYERS[it] for it in classes(element) if it in LAYERS]
        if found:
            return found[0]
        if element.tag == f"{SVG}text":
            return WORDS_LAYER
        return MARK_LAYER if place < self.marked else LEGEND_LAYER

    def check_layers(self):
        """A sheet is below everything, and each layer above those before it."""
        sheet = self.elements[0]
        same("a sheet", [sheet.get(it) for it in ("class", "x", "y", "width", "height")],
             ["sheet", None, None, "100%", "100%"])
        same("the view", self.drawn.get("viewBox"), f"0 0 {self.wide} {self.high}")
        layers = [self.layer_of(*it) for it in enumerate(self.elements)]
        same("layers, from below", layers, sorted(layers))
        same("sheets", layers.count(0), 1)

    def check_heads(self):
        """Each colour has an arrowhead, which is turned as its line, and ends where this ends."""
        heads = self.drawn.findall(f"{SVG}defs/{SVG}marker")
        trees = dict.fromkeys(it.tree for it in self.run.events if it.tree)
        wanted = ["hp", "hr", *(f"h{it}" for it in trees)]
        same("arrowheads", [it.get("id") for it in heads], wanted)
        for head in heads:
            same("the parts of an arrowhead", len(head), 1)
            same(f"the colour of {head.get('id')}", letter(head[0], "f"), head.get("id")[1:])
            same("an arrowhead is turned", head.get("orient"), "auto")
            _, top, tip, middle, back, bottom = numbers(head[0].get("d"))
            same("a tip in the middle", (middle - top, back), (bottom - middle, 0))
            end = int(head.get("refX")), int(head.get("refY"))
            is_tip = tip - 1 <= end[0] <= tip and end[1] == middle
            claim(is_tip, f"a line ends at {end} of its head")

    def check_style(self):
        """The style names what there is, in words of CSS. It tells dashed lines apart, has words
        end where those to the left have to, and hides what is below a gap, a box or a ring."""
        light, dark = sheets_of(self.drawn.find(f"{SVG}style").text)
        shades = {it[1:] for names, _ in light for it in re.findall(r"\.[sf](?:\d+|[pr])$", names)}
        for sheet in (light, dark):
            same("what the style names", list(mistakes_in(sheet, STYLED | shades, set())), [])
        said = lambda selector, name: declared(light, selector, name)
        same("to the left", (said(".l", "text-anchor"), said("text", "text-anchor")), ("end", None))
        same("names", said(".name", "text-anchor"), "middle")
        same("how high words are", said("text", "font").split()[0], f"{HIGH}px")
        dashes = [said(it, "stroke-dasharray") for it in DASHED]
        claim(None not in dashes and len(set(dashes)) == len(dashes), f"dashes: {dashes}")
        whole = [said(it, "stroke-dasharray") for it in ("path.a", ".up", ".knows", ".gap", ".x")]
        same("whole lines", whole, 5 * [None])
        same("only lines", [said(it, "fill") for it in HOLLOW], len(HOLLOW) * ["none"])
        for name, sheet in ((light, WHITE), (light + dark, DARK)):
            shown = {it: declared(name, it, what) for it, what in AS_SHEETS.items()}
            same("as the sheet", shown, dict.fromkeys(AS_SHEETS, sheet))
            for text, ground in ((".n", sheet), (".g", sheet), (".name", None)):
                ground = ground or declared(name, ".site", "fill")
                seen = contrast(declared(name, text, "fill"), ground)
                claim(seen > (2 if text == ".n" else 3), f"{text} isn't seen on {ground}")
            # Columns are pale, and a site whose device has failed has the colour of refusals.
            for line in (".up", ".down"):
                seen = contrast(declared(name, line, "stroke"), sheet)
                claim(1.4 < seen < 3, f"{line}, seen on {sheet} by {seen}")
            same("failed", declared(name, ".failed", "stroke"), CHOSEN["r"][sheet == DARK])
            same("a ring", declared(name, ".o", "stroke"), CHOSEN["p"][0])
        widths = [float(said(it, "stroke-width")) for it in (".gap", ".knows", ".up")]
        claim(widths == sorted(set(widths), reverse=True), f"a gap covers a column: {widths}")
