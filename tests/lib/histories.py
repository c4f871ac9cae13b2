"""Writes the proof that agreement is false, by a table of a history of two sites that serve.

Each line of a table is what happens to site N: its process starts, is asked to deposit its bag (A
is that of site 1, B that of site 2), waits in vain, ends and starts again, waits in vain and
proposes its bag in a ballot of this round, or hears a message.

    start N · deposit N · idle N · restart N
    propose N ROUND
    hear N MESSAGE [-> TO[,TO] MESSAGE] [+ ENTRY]

After an arrow stands what it then sends, and to which sites; after a plus what it adds to its
records. Messages are Prepare(round,site), Promise(from,round,site[,round,site,bag]),
Accept(round,site,bag), Accepted(from,round,site,bag), Refused(from,round,site,round,site), and
entries Promise(round,site), Vote(round,site,bag), Known(bag). Lines of comment are the head of the
proof. Nothing is believed of a table: the proof computes each answer by the definitions. Its names
are those of laws.edits/words.histories.
"""
import re

# Each site by its number: that it is a member, its bag, the request to deposit it.
SITES = {1: ("one", "A", "r1"), 2: ("other", "B", "r2")}
MEMBERS = {number: it[0] for number, it in SITES.items()}

RIGHT = """\
  right{k} : Right c{k} ({input})
  unfolding WORDS
  right{k} = record {{
    are = {are};
    effect_is = {why};
    keep = {keep};
    its_stand =
        stand {n} {next}
        (record {{
          within = {within};
          known = refl;
          votes = {votes};
        }});
  }}
"""

MAY_HEAR = """
      may_hear c{k} m{b} good{b} refl right{k} f{i} {n}
      (at_index {place} f{i}.handed ({n}, datagram_of 7 (m m{b})) refl) refl {count} {written}"""

MAY_TURN = """ (
    serves {n} {old},
    (of_two {n} {member}, refl),
    record {{ may_come = tt; comes = {comes} }},
    refl,
  )"""

AGREED = """\
  agreed : ((members : Membership) → ReportsAgree device members) → A ≡ B
  agreed law =
      law two history h{i} h{j} a A B two_are happens (at_index {i} history h{i} refl)
      (at_index {j} history h{j} refl) (reports {m} A ({step}) refl)
      (reports {n} B ({other}) refl)

pub reports_agree_is_false : ¬ ((members : Membership) → ReportsAgree device members)
reports_agree_is_false law = differ (λ u v r s apart. agreed u v r s apart law)
"""


def parts_of(text):
    """A message or an entry: its kind, and its numbers and bags."""
    kind, inside = re.fullmatch(r"(\w+)\((.*)\)", text).groups()
    return kind, tuple(inside.split(","))


def ballot(parts):
    return f"(ballot {parts[0]} {parts[1]})"


def vote(parts):
    return f"(vote {parts[0]} {parts[1]} {parts[2]})"


def deposit(site):
    return f"{site} {' '.join(SITES[site])}"


def with_bag(bag):
    """What a deposit of this bag is named by."""
    return deposit(next(site for site, it in SITES.items() if it[1] == bag))


def filled(pieces):
    """The pieces one after another, in lines of at most 100."""
    lines = ["     "]
    for it in pieces:
        lines += [] if len(lines[-1]) + len(it) < 100 else ["     "]
        lines[-1] += f" {it}"
    return "\n".join(lines)


class Site:
    """A site between two turns: the names of its state and of what says that its records are."""

    def __init__(self, number):
        self.number, self.letter, self.count = number, "xy"[number - 1], 0
        self.state, self.are = f"(deposited {deposit(number)})", f"are_{self.letter}"
        self.idle, self.issued, self.knows = 0, False, False


class History:
    """What the lines of a table so far have written."""

    def __init__(self):
        self.said, self.happenings, self.may, self.posts, self.reports = [], [], [], [], {}
        self.ballots, self.votes, self.messages, self.calls = set(), set(), {}, 0
        self.sites = {it: Site(it) for it in SITES}

    def say(self, text):
        """This is said before what is said later."""
        self.said.append(text)

    def happens(self, what, may):
        """This happens, and may: by what `may` gives for its place."""
        i = len(self.happenings)
        self.happenings.append(what)
        head = f"  may_{i} : May device two f{i} h{i}\n  unfolding new_federation\n  may_{i} ="
        self.may.append(f"{head}{may(i)}\n")

    def becomes(self, site, state):
        """This is the site's state now, by a name of its own."""
        site.count += 1
        name = f"{site.letter}{site.count}"
        self.say(f"  abbrev {name} : State\n  {name} = {state}\n")
        site.state = name

    # ---- ballots and votes, by the names of what says that they are well-formed

    def is_ballot(self, parts):
        self.ballots.add(parts[:2])
        return f"b{''.join(parts[:2])}"

    def is_vote(self, parts):
        self.is_ballot(parts)
        self.votes.add(parts[:3])
        return f"v{''.join(parts[:3])}"

    # ---- messages and entries

    def message(self, text):
        """The number of this message; what it is is said where it comes up first."""
        if text not in self.messages:
            self.messages[text] = len(self.messages) + 1
            kind, parts = parts_of(text)
            body, good = getattr(self, f"of_{kind.lower()}")(parts)
            k = self.messages[text]
            self.say(f"  abbrev m{k} : Body\n  m{k} = {body}\n")
            self.say(f"  good{k} : Good m{k}\n  good{k} = {good}\n")
        return self.messages[text]

    def of_prepare(self, parts):
        return f"Prepare {ballot(parts)}", f"prepare {ballot(parts)} {self.is_ballot(parts)}"

    def of_promise(self, parts):
        by, its, prior = parts[0], parts[1:3], parts[3:]
        given = f"{by} {MEMBERS[int(by)]} {ballot(its)} {self.is_ballot(its)}"
        if not prior:
            return f"Promise {by} {ballot(its)} None", f"promise {given}"
        named = f"Promise {by} {ballot(its)} (Some {vote(prior)})"
        return named, f"promise_of {given} {vote(prior)} {self.is_vote(prior)}"

    def of_accept(self, parts):
        return f"Accept {vote(parts)}", f"accept {vote(parts)} {self.is_vote(parts)}"

    def of_accepted(self, parts):
        by, its = parts[0], parts[1:]
        given = f"{by} {MEMBERS[int(by)]} {vote(its)} {self.is_vote(its)}"
        return f"Accepted {by} {vote(its)}", f"accepted {given}"

    def of_refused(self, parts):
        by, its, standing = parts[0], parts[1:3], parts[3:]
        both = f"{ballot(its)} {ballot(standing)}"
        given = f"{by} {MEMBERS[int(by)]} {both} {self.is_ballot(its)} {self.is_ballot(standing)}"
        return f"Refused {by} {both}", f"refused {given}"

    def entry(self, text):
        """The entry, and what says that its record is well-formed."""
        kind, parts = parts_of(text)
        if kind == "Round":
            return f"entry.Round {parts[0]}", "(is_slot, (omega arith, omega arith))"
        if kind == "Promise":
            return f"entry.Promise {ballot(parts)}", f"(is_slot, {self.is_ballot(parts)})"
        if kind == "Vote":
            return f"entry.Vote {vote(parts)}", f"(is_slot, {self.is_vote(parts)}.0)"
        return f"entry.Known {parts[0]}", f"(is_slot, is_its_bag {with_bag(parts[0])})"

    # ---- calls

    def call(self, site, input, state, to, sent, record, line, why):
        """A call of the site, after which this is its state; its number."""
        self.calls += 1
        k, old, are = self.calls, site.state, site.are
        sends, ms, commits, keep = "[]", "tt", "None", "tt"
        if sent:
            b = self.message(sent)
            self.posts += [(it, sent) for it in to]
            sends = f"(to_both m{b})" if len(to) == 2 else f"(to_site {to[0]} m{b} ∷ [])"
            ms = f"(good{b}.0, (good{b}.0, tt))" if len(to) == 2 else f"(good{b}.0, tt)"
        self.becomes(site, state)
        if record:
            said, keep = self.entry(record)
            commits, site.are = f"(Some (r ({said})))", f"are_{site.state}"
            self.say(
                f"  {site.are} : AreRecords (records_of a {site.state}.es)\n  {site.are} =\n"
                f"      whole-push (records_of a {old}.es) (r ({said})) {are}\n      {keep}\n"
            )
        words = [f"call {site.number} {MEMBERS[site.number]} {old} {site.state}"]
        words = filled([*words, commits, sends, line, ms, "(omega arith)"])
        self.say(f"  abbrev c{k} : Call\n  c{k} =\n{words}\n")
        issued, knows = site.issued, site.knows
        self.say(RIGHT.format(
            k=k, input=input, are=are, why=why, keep=keep, n=site.number, next=site.state,
            within="omega arith" if issued else "tt",
            votes="λ none. absurd (cc none)" if knows else "λ none v k. refl",
        ))
        return k

    # ---- the lines of a table

    def start(self, site):
        named = deposit(site.number)
        self.happens(f"start {named}", lambda i: f" may_start {named} f{i} refl")

    def deposit(self, site):
        named = deposit(site.number)
        self.say(
            f"  {site.are} : AreRecords (records_of a {site.state}.es)\n"
            f"  {site.are} = (is_deposit {named}, tt)\n"
        )
        what = f"Turns {site.number} (deposit_step {named}) 0 0"
        self.happens(what, lambda i: f" may_deposit {named} f{i} refl")

    def idle(self, site):
        n, old = site.number, site.state
        turn = MAY_TURN.format(n=n, old=old, member=MEMBERS[n], comes="(refl, refl)")
        self.happens(f"Turns {n} (idle_step {n} {old}) 0 0", lambda i: turn)
        site.idle += 1
        self.becomes(site, f"record {old} {{ idle = {site.idle} }}")

    def restart(self, site):
        n, old = site.number, site.state
        given = f"{n} {MEMBERS[n]} {old} {site.are}"
        self.happens(f"Ends {n} (records_of a {old}.es)", lambda i: f" may_end {given} f{i} refl")
        self.happens(f"starts_again {given}", lambda i: f" may_start_again {given} f{i} refl")
        site.issued, site.idle = False, 0
        self.becomes(site, f"started_again {old}")

    def propose(self, site, number):
        n, old, site.issued = site.number, site.state, True
        k = self.call(
            site, "calls.Proposes a", f"begins_ballot {old} {number} {n}", [1, 2],
            f"Prepare({number},{n})", f"Round({number})", "None", "refl",
        )
        self.say(
            f"  comes{k} : turn_of device addresses (Some no_folders) (serves {n} {old}) Nothing\n"
            f"      (proposed c{k}).turn.done (next_of c{k})\n"
            "  unfolding next_waiting deposits_of known_of same_slot\n"
            f"  comes{k} = proposes c{k} right{k}\n"
        )
        turn = MAY_TURN.format(n=n, old=old, member=MEMBERS[n], comes=f"comes{k}")
        self.happens(f"Turns {n} (proposed c{k}) 2 0", lambda i: turn)

    def hear(self, site, text, to, sent, record):
        n, b, place = site.number, self.message(text), self.posts.index((site.number, text))
        bag = record[6] if record.startswith("Known") else None
        state, line, why = f"told {site.state} m{b}", "None", "refl"
        if bag:
            site.knows, state = True, f"knowing ({state}) {bag}"
            line, why = f"(Some (site_lines.Known a {bag}))", f"rw (itself {bag}) refl"
        elif record:
            state = f"noted ({state}) ({self.entry(record)[0]})"
        if sent.startswith("Refused"):
            why = "rw differs refl"
        k = self.call(site, f"calls.Arrives (Some (m m{b}))", state, to, sent, record, line, why)
        if bag:
            self.reports[bag] = (len(self.happenings), n, f"hearing c{k} m{b}")
        given = {"k": k, "b": b, "n": n, "place": place, "count": len(to)}
        given["written"] = 1 if bag else 0
        what = "Turns {n} (hearing c{k} m{b}) {count} {written}".format(**given)
        self.happens(what, lambda i: MAY_HEAR.format(i=i, **given))

    def text(self):
        """The whole of the section."""
        count = len(self.happenings)
        section = "module _ (A B : BagId) (r1 : Request 7 a A) (r2 : Request 7 a B)"
        said = [f"{section} (differs : Apart A B) where"]
        for it in sorted(self.ballots):
            name, fits = f"b{''.join(it)}", "omega arith, omega arith"
            said.append(f"  {name} : IsBallot {ballot(it)}\n  {name} = ({fits}, ({fits}))\n")
        for it in sorted(self.votes):
            name, its = f"v{''.join(it)}", f"{it[0]} {it[1]} b{it[0]}{it[1]}"
            said.append(f"  {name} : GoodVote {vote(it)}")
            said.append(f"  {name} = good_vote {with_bag(it[2])} {its}\n")
        said += [*self.said, "  -- ---- the history\n"]
        for i, it in enumerate(self.happenings):
            said.append(f"  abbrev h{i} : Happening Disk\n  h{i} = {it}\n")
        said.append("  abbrev f0 : Federation Disk\n  f0 = new_federation\n")
        for i in range(count - 1):
            said.append(f"  abbrev f{i + 1} : Federation Disk\n  f{i + 1} = after f{i} h{i}\n")
        history = filled([*(f"h{i} ∷" for i in range(count)), "[]"])
        happens = filled([*(f"(may_{i}," for i in range(count)), f"tt{')' * count}"])
        said += [*self.may, f"  abbrev history : List (Happening Disk)\n  history =\n{history}\n"]
        said.append("  happens : IsHistory device two history\n  unfolding MayAll")
        said.append(f"  happens =\n{happens}\n")
        (i, m, step), (j, n, other) = self.reports["A"], self.reports["B"]
        return "\n".join([*said, AGREED.format(i=i, j=j, m=m, n=n, step=step, other=other)])


def proof_of(table):
    """The proof, by the text of a table."""
    history, head = History(), ""
    for line in table.splitlines():
        if line.startswith("#"):
            head += f"--{line[1:]}\n"
            continue
        line, _, record = line.partition(" + ")
        line, _, sent = line.partition(" -> ")
        word, site, *given = line.split()
        site = history.sites[int(site)]
        if word == "hear":
            to, _, sent = sent.partition(" ")
            to = [int(it) for it in to.split(",")] if sent else []
            history.hear(site, *given, to, sent, record)
        else:
            getattr(history, word)(site, *given)
    return f"{head}{history.text()}"
