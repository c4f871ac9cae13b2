"""Schedules that are made by chance, from a seed: a federation of a few sites, bags and trees that
are none, one slot or two, and commands of every kind with every fate. No test of itself."""
import random

from story import Run, sealed

DECLARATION = b"BagIt-Version: 1.0\nTag-File-Character-Encoding: UTF-8\n"
# A query, and a Prepare of a site that is no member.
HEAD = "425002{}0000000000000007{}016100000001"
CLIENT = sealed(bytes.fromhex(HEAD.format("11", "00"))).hex()
STRANGER = sealed(bytes.fromhex(HEAD.format("01", "3f") + "000000013f")).hex()
NAMES = ("a", "b%20c", "%C3%A9%25", "x<&>y")
# How many commands come after the trees, and how often each does.
COMMANDS = 60
OFTEN = {"deposit": 8, "propose": 6, "recover": 4, "deliver": 50, "pump": 8, "ask": 4, "query": 5, "raw": 3,
         "stop": 3, "start": 9, "tree": 1}


class Making:
    """A schedule in the making, which is run meanwhile, to know what there is to deliver."""

    def __init__(self, seed):
        self.chance, self.lines, self.run = random.Random(seed), [], Run("")
        self.count = self.chance.choice((1, 2, 3, 3, 3, 4, 5))
        weights = [self.chance.choice((1, 1, 2, 5)) for _ in range(self.count)]
        self.say("federation", 7, self.count, *(weights if self.chance.random() < 0.3 else []))
        slots = 1 if self.chance.random() < 0.6 else 2
        self.slots = [f"{self.chance.choice(NAMES)} {it + 1}" for it in range(slots)]
        self.fates = self.chance.choice((0, 0.05, 0.2))
        self.trees()

    def say(self, *words):
        line = " ".join(str(it) for it in words if it != "")
        self.lines.append(line)
        self.run.command(len(self.lines), line.split())

    def trees(self):
        """Tree 1 is a bag, tree 2 another, tree 3 the first one again, and tree 4 none."""
        for tree, manifest in enumerate(("-", "0a", "-", None), 1):
            self.say("tree", tree)
            self.say("folder", tree)
            self.say("file", tree, "bagit.txt", DECLARATION.hex())
            if manifest:
                self.say("file", tree, "manifest-sha512.txt", manifest)

    def site(self):
        """A site; now and then one that isn't there."""
        return self.chance.randint(1, self.count) if self.chance.random() < 0.98 else (
            self.chance.choice((0, self.count + 1))
        )

    def fate(self):
        """A fate, sometimes; of so many bytes that a record is kept or lost."""
        if self.chance.random() >= self.fates:
            return ""
        kept = self.chance.choice((0, 20, 21, 22, 23, 80, 81, 85, 86, 90))
        fates = ("stop 1", "stop 2", "stop 3", "fail 1", "fail 2")
        fate = self.chance.choice(fates)
        return f"{fate} {kept % 4 if fate == 'stop 3' else kept}"

    def datagram(self):
        """The number of a datagram: most often of one that no event has named; else of any, or of
        one that wasn't sent yet."""
        sent = len(self.run.datagrams)
        unnamed = [it + 1 for it in range(sent) if it + 1 not in self.run.named]
        if unnamed and self.chance.random() < 0.85:
            return self.chance.choice(unnamed[:8])
        return self.chance.randint(0, sent + 2) if self.chance.random() < 0.2 else (
            self.chance.randint(1, max(sent, 1))
        )

    def waiting(self):
        """A site that has to be started, if there is one."""
        found = [it for it, state in self.run.state.items() if state != "up"]
        return self.chance.choice(found) if found and self.chance.random() < 0.9 else self.site()

    def bytes(self):
        """Bytes that no site sent: none, noise, a datagram as it was sent, with another byte or for
        another federation, and messages of a client and of a stranger."""
        digits = self.chance.choice(("-", "00", 27 * "ab", CLIENT, STRANGER))
        if not self.run.datagrams or self.chance.random() < 0.4:
            return digits
        data = bytearray.fromhex(self.run.hex(self.chance.choice(self.run.datagrams)))
        how = self.chance.choice(("as it is", "another byte", "cut", "another federation"))
        if how == "another byte":
            data[self.chance.randrange(len(data))] ^= 1
        elif how == "another federation":
            data = sealed(bytes(data[:11] + b"\10" + data[12:-8]))
        return data[: -1 if how == "cut" else None].hex()

    def command(self):
        word = self.chance.choices(list(OFTEN), list(OFTEN.values()))[0]
        slot, site = self.chance.choice(self.slots), self.site()
        if word == "deposit":
            tree = self.chance.choice((1, 1, 2, 2, 3, 4, 9))
            self.say(word, site, tree, slot, self.fate())
        elif word in ("propose", "recover"):
            self.say(word, site, slot, self.fate())
        elif word == "deliver":
            self.say(word, self.datagram(), self.fate())
        elif word == "pump":
            self.say(word, self.chance.randint(1, 6))
        elif word == "ask":
            self.say(word, site, self.site(), slot, self.fate())
        elif word == "query":
            self.say(word, site, slot)
        elif word == "raw":
            self.say(word, site, self.bytes())
        elif word == "tree":
            self.say(self.chance.choice(("tree 1", "folder 9", "file 1 data -", "tree 9")))
        else:
            self.say(word, site if word == "stop" else self.waiting())


def schedule_of(seed):
    """The text of the schedule of a seed. Two sites have deposits and propose them, so that there
    is something to deliver; in the end all are started, what is left arrives, and each is asked."""
    made = Making(seed)
    for site in range(1, min(2, made.count) + 1):
        made.say("deposit", site, site, made.slots[0])
        made.say("propose", site, made.slots[0])
    for _ in range(COMMANDS):
        made.command()
    for site in range(1, made.count + 1):
        made.say("start", site)
    made.say("propose", 1, made.slots[0])
    made.say("pump", 50)
    for site in range(1, made.count + 1):
        made.say("query", site, made.slots[0])
    return "".join(f"{it}\n" for it in made.lines)
