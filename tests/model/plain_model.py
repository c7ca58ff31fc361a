"""A plain model of sites: each keeps the set of its operations, and all that it says is worked out from that set.

An identifier that its origin has retired, by an operation of the set, is read as one of which nothing is known.

The model follows the definitions and not the program: it keeps no board, merges by the union of sets, ships whole sets,
and looks at the operations of a job anew whenever it is asked for the job.
"""
import json
from typing import NamedTuple

from tests.model.plain_words import GREATEST_COUNTER, GREATEST_MOMENT, GREATEST_NODES
from tests.model.plain_words import Unread, read_line, read_roster, read_words, words_of, words_of_roster

MOST_JOBS = 10_000
MOST_RESERVATIONS = 1_000
MOST_RANGES = 1_000
KINDS = "uos"
FIELDS = ("owner", "name", "priority", "nodes", "limit", "account")
OPERATIONS = {"decline": "handback"}  # of commands that add an operation of another name


class Operation(NamedTuple):
    """One operation: its stamp, its kind, the stamp of its job or reservation, and what it says."""

    stamp: tuple
    kind: str
    subject: tuple
    values: dict


class Packet(NamedTuple):
    """What a site tells another: the versions that it needs and reaches, and the sender's whole set."""

    sender: int
    need: list
    reached: list
    gives: dict


class Answer(NamedTuple):
    """The answer to a line, whether the line is kept, and the packet that a shipment made."""

    text: str
    kept: bool = False
    packet: Packet = None


def version_of(operations):
    """Of each site the greatest counter among these operations, else 0."""
    version = [0] * 16
    for operation in operations:
        counter, site = operation.stamp
        version[site] = max(version[site], counter)
    return version


def covers(version, stamp):
    """Whether a version covers a stamp."""
    return stamp[0] <= version[stamp[1]]


def is_at_most(version, other):
    """Whether a version is at most another."""
    return all(mine <= theirs for mine, theirs in zip(version, other))


def by_kind(pair):
    """The order of the live pairs of holds: that of the kinds, then that of the stamps."""
    return KINDS.index(pair[0]), pair[1]


class Job:
    """What a set of operations says of a job. These are the operations of the set that are the job's."""

    def __init__(self, operations):
        self.operations = operations
        self.stamp = operations[0].subject
        self.version = version_of(operations)
        self.grant = max((self.stage(it) for it in self.of("grant", "handback")), default=None)
        self.begun = next(iter(self.of("begin")), None)
        self.finished = next(iter(self.of("finish")), None)
        self.deleted = bool(self.of("delete"))
        self.fields = {name: self.field(name) for name in FIELDS}
        pairs = self.live_pairs()
        self.site_pairs = sorted(pair for pair in pairs if isinstance(pair[0], int))
        self.hold_pairs = sorted((pair for pair in pairs if isinstance(pair[0], str)), key=by_kind)
        self.holds = [kind for kind in KINDS if any(kind == it for it, _ in self.hold_pairs)]
        self.letter = self.letter_now()

    def of(self, *kinds):
        """The operations of these kinds."""
        return [it for it in self.operations if it.kind in kinds]

    def field(self, name):
        """The value of a field with its stamp: that of the greatest operation which sets it."""
        greatest = max((it for it in self.operations if name in it.values), key=lambda it: it.stamp)
        return greatest.values[name], greatest.stamp

    @staticmethod
    def stage(operation):
        """The stage of a grant that an operation makes: its term, whether it is handed back, its stamp, its site."""
        return operation.values["term"], operation.kind == "handback", operation.stamp, operation.values.get("site")

    def live_pairs(self):
        """The pairs of an element, a site or a kind, and a stamp that an operation adds and none removes."""
        added, removed = set(), set()
        for operation in self.operations:
            added |= {(element, operation.stamp) for element in operation.values.get("adds", ())}
            removed |= operation.values.get("removes", set())
        return added - removed

    def value(self, name):
        """The value of a field."""
        return self.fields[name][0]

    def sites(self):
        """The sites that are present, in their order."""
        return sorted({site for site, _ in self.site_pairs})

    def granted(self):
        """The site that the job is granted to, or None."""
        return self.grant[3] if self.grant and not self.grant[1] else None

    def letter_now(self):
        """The letter of the job, empty where it is gone."""
        if self.finished or self.deleted and not self.begun:
            return ""
        if self.begun:
            return "E" if self.deleted else "R"
        if self.holds:
            return "H"
        return "Q" if self.granted() is None else "T"


class Site:
    """A site: the set of its operations, and what it has heard from each site."""

    def __init__(self, roster, number):
        self.roster = roster
        self.number = number
        self.operations = {}
        self.subjects = {}
        self.heard = [[0] * 16 for _ in range(16)]
        self.known_jobs = {}
        self.version = [0] * 16
        # the stamps that are retired, and of each site the counter of its last Retire
        self.retired = set()
        self.retirements = [0] * 16
        # the jobs and the reservations of this site that are not retired
        self.named = {"submit": set(), "reserve": set()}

    def copy(self):
        """A site that holds the same."""
        other = Site(self.roster, self.number)
        other.operations = dict(self.operations)
        other.subjects = {subject: list(them) for subject, them in self.subjects.items()}
        other.heard = [list(version) for version in self.heard]
        other.known_jobs = dict(self.known_jobs)
        other.version = list(self.version)
        other.retired = set(self.retired)
        other.retirements = list(self.retirements)
        other.named = {kind: set(stamps) for kind, stamps in self.named.items()}
        return other

    # The set

    def add(self, operation):
        """Adds an operation to the set, and to the list of those of its job or reservation."""
        self.operations[operation.stamp] = operation
        self.subjects.setdefault(operation.subject, []).append(operation)
        counter, site = operation.stamp
        self.version[site] = max(self.version[site], counter)
        if operation.kind == "retire":
            self.retirements[site] = max(self.retirements[site], counter)
            stamps = {(it, site) for it in range(operation.values["first"], operation.values["last"] + 1)}
            self.retired |= stamps
            for named in self.named.values():
                named -= stamps
        elif operation.kind in self.named and site == self.number and operation.stamp not in self.retired:
            self.named[operation.kind].add(operation.stamp)

    def make(self, kind, subject, values):
        """Makes a new operation of this site; a subject None means the operation itself."""
        stamp = (1 + max(self.version), self.number)
        self.add(Operation(stamp, kind, subject or stamp, values))
        return stamp

    def job(self, stamp):
        """The job of this stamp, or None where there is none or it is retired. What was worked out is kept until the job has
        another operation."""
        operations = self.subjects.get(stamp)
        if not operations or stamp in self.retired or operations[0].kind in ("reserve", "cancel", "retire"):
            return None
        job = self.known_jobs.get(stamp)
        if job is None or len(job.operations) != len(operations):
            job = self.known_jobs[stamp] = Job(list(operations))
        return job

    def jobs(self, most=None):
        """All jobs in the order of their stamps, or so many of the last subjects as are jobs."""
        stamps = sorted(self.subjects)
        found = (self.job(stamp) for stamp in (stamps if most is None else stamps[-most:]))
        return [job for job in found if job]

    def last_of_reservation(self, stamp):
        """The greatest operation of a reservation, or None where there is no such reservation or it is retired."""
        operations = self.subjects.get(stamp, [])
        if stamp in self.retired or not any(it.kind == "reserve" for it in operations):
            return None
        return max(operations, key=lambda it: it.stamp)

    def reservations(self):
        """The greatest operation of each reservation, in the order of the reservations' stamps."""
        found = (self.last_of_reservation(stamp) for stamp in sorted(self.subjects))
        return [last for last in found if last]

    def ranges(self, site):
        """The ranges of the counters that are retired at a site, of which none touches another."""
        return ranges_of(counter for counter, its in self.retired if its == site)

    def is_settled(self, job):
        """Whether a job of this site is finished, or was deleted before it began and no other site has its grant: it never
        begins any more."""
        return bool(job.finished) or job.deleted and not job.begun and job.granted() in (None, self.number)

    def is_unsettled(self, stamp):
        """Whether this is a job of this site that isn't settled, or a reservation that isn't cancelled."""
        job, last = self.job(stamp), self.last_of_reservation(stamp)
        return job is not None and not self.is_settled(job) or last is not None and last.kind == "reserve"

    # Names

    def name(self, stamp):
        """The identifier of a job or a reservation."""
        return f"{stamp[0]}.{self.site_name(stamp[1])}"

    def site_name(self, number):
        """The name of a site, `-` for none. A job may name a site that the roster hasn't yet: then it is the number."""
        if number is None:
            return "-"
        return self.roster.names[number] if number < len(self.roster.names) else f"#{number}"

    # Refusals and operations

    def refusals(self, who, command):
        """The numbers of all refusals that apply to a command. What needs a job that isn't known doesn't apply."""
        found = {15} if max(self.version) >= GREATEST_COUNTER and self.would_add(command) else set()
        if command.kind == "submit":
            return found | ({14} if len(self.named["submit"]) >= MOST_JOBS else set())
        if command.kind == "retire":
            return found | self.refusals_of_retire(command.values["first"], command.values["last"])
        if command.kind in ("reserve", "cancel"):
            return found | self.refusals_of_reservations(who, command)
        job = self.job(command.subject)
        if job is None:
            return {1}
        return found | self.refusals_of_jobs(who, command, job)

    def would_add(self, command):
        """Whether a command would add an operation where nothing refuses it."""
        job = self.job(command.subject) if command.subject else None
        if command.kind == "release":
            return job is not None and bool(self.pairs_to_release(job, command))
        return not (command.kind == "grant" and job is not None and job.granted() == command.values["asker"])

    @staticmethod
    def pairs_to_release(job, command):
        """The live pairs of the kinds that a command releases."""
        return {pair for pair in job.hold_pairs if pair[0] in command.values["kinds"]}

    def refusals_of_reservations(self, who, command):
        """Those of `reserve` and `cancel`."""
        found = {2} if who.role == "user" else set()
        if command.kind == "cancel":
            last = self.last_of_reservation(command.subject)
            return found | ({13} if last is None or last.kind == "cancel" else set())
        start, end, nodes = (command.values[it] for it in ("start", "end", "nodes"))
        if end <= start or end > GREATEST_MOMENT or not 1 <= nodes <= GREATEST_NODES:
            found.add(12)
        if len(self.named["reserve"]) >= MOST_RESERVATIONS:
            found.add(14)
        return found

    def refusals_of_retire(self, first, last):
        """Those of `retire`. A range is of counters that this site has given."""
        if not 1 <= first <= last <= self.version[self.number]:
            return {17}
        stamps = [(counter, self.number) for counter in range(first, last + 1)]
        found = {17} if any(self.is_unsettled(stamp) for stamp in stamps) else set()
        counters = [counter for counter, site in self.retired.union(stamps) if site == self.number]
        return found | ({14} if len(ranges_of(counters)) > MOST_RANGES else set())

    def refusals_of_jobs(self, who, command, job):
        """Those of the commands that name a job which is known."""
        kind, granted = command.kind, job.granted()
        asker = command.values.get("asker")
        held = bool(job.holds)
        applies = {
            2: not self.is_permitted(who, command, job),
            3: job.finished is not None if kind == "decline" else job.letter == "",
            4: kind in ("alter", "hold") and granted is not None,
            5: kind == "grant" and job.stamp[1] != self.number,
            6: held and (kind == "grant" and granted is None or kind == "begin" and not job.begun),
            7: kind == "grant" and granted is None and asker not in job.sites(),
            8: kind == "grant" and granted not in (None, asker),
            9: kind in ("begin", "finish", "handback", "decline") and granted != self.number,
            10: kind in ("begin", "handback", "decline") and job.begun is not None,
            11: kind == "finish" and job.begun is None,
        }
        return {number for number, does in applies.items() if does}

    @staticmethod
    def is_permitted(who, command, job):
        """Whether the role permits a command on a job."""
        owns = who.user == job.value("owner") or who.role in ("operator", "admin")
        if command.kind in ("alter", "delete"):
            return owns
        if command.kind not in ("hold", "release"):
            return True
        may = {"u": owns, "o": who.role in ("operator", "admin"), "s": who.role == "admin"}
        return all(may[kind] for kind in command.values["kinds"])

    def do(self, who, command):
        """Does a command: its answer, and whether it added an operation."""
        found = self.refusals(who, command)
        if found:
            return Answer(f"refused {min(found)}\n")
        if command.kind in ("submit", "reserve"):
            return Answer(self.name(self.begin_subject(who, command)) + "\n", True)
        if command.kind == "retire":
            self.make("retire", None, command.values)
            return Answer("done\n", True)
        adds = self.would_add(command)
        if adds:
            self.make(OPERATIONS.get(command.kind, command.kind), command.subject, self.values_of(command))
        if command.kind == "grant":
            return Answer("granted\n" if adds else "yours\n", adds)
        return Answer("done\n", adds)

    def begin_subject(self, who, command):
        """Adds a Submit or a Reserve, and gives its stamp."""
        values = dict(command.values)
        if command.kind == "submit":
            values["owner"] = who.user
            values["adds"] = values.pop("sites") | ({"u"} if values.pop("held") else set())
        return self.make(command.kind, None, values)

    def values_of(self, command):
        """What the operation of a command says."""
        values, job = dict(command.values), self.job(command.subject)
        if command.kind == "alter" and "sites" in values:
            values["adds"] = values.pop("sites")
            values["removes"] = set(job.site_pairs)
        elif command.kind == "hold":
            values = {"adds": values["kinds"]}
        elif command.kind == "release":
            values = {"removes": self.pairs_to_release(job, command)}
        elif command.kind == "grant":
            values = {"site": values["asker"], "term": 1 + (job.grant[0] if job.grant else 0)}
        elif command.kind in ("handback", "decline"):
            values = {"term": job.grant[0]}
        elif command.kind == "begin":
            # not under the names of the fields, which a Begin doesn't set
            values["takes"] = job.value("nodes")
            values["end"] = values["moment"] + job.value("limit")
        return values

    # Packets

    def ship(self, to):
        """The packet for a site."""
        return Packet(self.number, list(self.heard[to]), list(self.version), dict(self.operations))

    def is_foreign(self, packet):
        """Whether a packet is of a site that the roster hasn't, or tells of operations of one."""
        count = len(self.roster.names)
        return packet.sender >= count or any(packet.reached[count:])

    def take(self, packet):
        """Takes a packet: its answer."""
        if self.is_foreign(packet):
            return Answer("foreign\n")
        for site, counter in enumerate(packet.need):
            if counter > self.version[site]:
                return Answer(f"gap {self.site_name(site)}\n")
        grew = not is_at_most(packet.reached, self.version)
        for stamp in packet.gives.keys() - self.operations.keys():
            self.add(packet.gives[stamp])
        self.heard[packet.sender] = [max(pair) for pair in zip(self.heard[packet.sender], packet.reached)]
        return Answer("taken\n" if grew else "known\n", True)

    def text_of(self, packet):
        """The text of a packet that this site has just made: what changed beyond the packet's need."""
        jobs = [job for job in self.jobs() if not is_at_most(job.version, packet.need)]
        reservations = [last for last in self.reservations() if not covers(packet.need, last.stamp)]
        retired = self.retired_beyond(packet.need)
        return packet_text(packet.sender, packet.need, packet.reached, jobs, reservations, retired) + "\n"

    def retired_beyond(self, need):
        """Of each site that has retired something beyond what is needed: its number, the counter of its last Retire, and all
        ranges that are retired there."""
        sites = [site for site, counter in enumerate(self.retirements) if counter > need[site]]
        return [[site, self.retirements[site], self.ranges(site)] for site in sites]

    def compacted(self):
        """What a compacted journal of this site has behind its header: a packet that needs nothing and has all, and for each
        site of the roster the line of a packet that tells nothing but what was heard of it, or an empty one."""
        zeros = [0] * 16
        known = packet_text(self.number, zeros, self.version, self.jobs(), self.reservations(), self.retired_beyond(zeros))
        heard = enumerate(self.heard[: len(self.roster.names)])
        return [known] + ["take " + packet_text(sender, version, version, [], [], []) if any(version) else "" for sender, version in heard]

    # Listings

    def listed(self, jobs):
        """The jobs that have a letter and are asked for: all where none is."""
        return [job for job in self.jobs() if job.letter and (not jobs or job.stamp in jobs)]

    def short_line(self, job):
        """A job's line of the short listing."""
        value = job.value
        front = f"{self.name(job.stamp):<18} {value('name'):<16} {value('owner'):<16} {job.letter}"
        numbers = f"{value('priority'):>6} {value('nodes'):>8} {value('limit'):>9}"
        return f"{front} {numbers} {self.site_name(job.granted())}\n"

    def full_lines(self, job):
        """A job's lines of the full listing."""
        rows = {
            "Job_Name": job.value("name"),
            "Job_Owner": job.value("owner"),
            "Account_Name": job.value("account") or "-",
            "job_state": job.letter,
            "Priority": job.value("priority"),
            "Hold_Types": "".join(job.holds) or "n",
            "Resource_List.nodes": job.value("nodes"),
            "Resource_List.walltime": job.value("limit"),
            "Resource_List.sites": "+".join(self.site_name(site) for site in job.sites()) or "-",
            "granted": self.site_name(job.granted()),
            "begun": job.begun.values["moment"] if job.begun else "-",
        }
        return f"Job Id: {self.name(job.stamp)}\n" + "".join(f"    {label} = {it}\n" for label, it in rows.items())

    def listing(self, full, jobs=()):
        """The text of a listing."""
        line = self.full_lines if full else self.short_line
        return "".join(line(job) for job in self.listed(jobs))

    # Plans

    def queue(self):
        """The jobs that wait for this site's machine, in their order."""
        nodes = self.roster.nodes[self.number]
        waiting = [
            job
            for job in self.jobs()
            if job.letter in ("Q", "T")
            and job.granted() in (None, self.number)
            and self.number in job.sites()
            and job.value("nodes") <= nodes
        ]
        return sorted(waiting, key=lambda job: (job.granted() != self.number, -job.value("priority"), job.stamp))

    def spans(self, moment):
        """What the site's nodes are used for: the start, the end and the nodes of each use."""
        found = []
        for job in self.jobs():
            if job.begun and not job.finished and job.begun.stamp[1] == self.number:
                end = max(job.begun.values["end"], moment + 1)
                found.append((moment, end, job.begun.values["takes"]))
        for last in self.reservations():
            if last.kind == "reserve" and last.values["site"] == self.number:
                found.append((last.values["start"], last.values["end"], last.values["nodes"]))
        return found

    def fits(self, job, second, spans):
        """Whether a job fits at a second. The use only rises where a span starts, so these seconds are enough."""
        end, nodes = second + job.value("limit"), self.roster.nodes[self.number]
        seconds = {second} | {start for start, _, _ in spans if second < start < end}
        return all(use_at(it, spans) + job.value("nodes") <= nodes for it in seconds)

    def seconds_from(self, moment, spans):
        """The seconds at which a job may first fit: one that doesn't fit at a second fits at the next only if some use ends
        there."""
        return sorted({moment} | {end for _, end, _ in spans if end > moment})

    def plan(self, moment, left_out=()):
        """The text of the plan without some jobs: those that start at the moment, and the head with the second at which it
        can."""
        spans, text = self.spans(moment), ""
        queue = [job for job in self.queue() if job.stamp not in left_out]
        while queue and self.fits(queue[0], moment, spans):
            job = queue.pop(0)
            text += f"start {self.name(job.stamp)}\n"
            spans.append((moment, moment + job.value("limit"), job.value("nodes")))
        if not queue:
            return text
        head = queue.pop(0)
        shadow = next(second for second in self.seconds_from(moment, spans) if self.fits(head, second, spans))
        spans.append((shadow, shadow + head.value("limit"), head.value("nodes")))
        for job in queue:
            if self.fits(job, moment, spans):
                text += f"start {self.name(job.stamp)}\n"
                spans.append((moment, moment + job.value("limit"), job.value("nodes")))
        return text + f"head {self.name(head.stamp)} {shadow}\n"

    # Rosters

    def hear_roster(self, words):
        """The answer to the words of a line that tells the roster: it has to go on with the one that is known."""
        try:
            told = read_roster(words)
        except Unread:
            return Answer("other roster\n")
        if not told.goes_on_with(self.roster):
            return Answer("other roster\n")
        known, self.roster = self.roster, told
        return Answer("done\n", told != known)

    def seen(self):
        """Of each site its name, the counter that was seen of it, and the counter of this one that it is known to have seen."""
        rows = [f"{name} {self.version[site]} {self.counter_seen_by(site)}\n" for site, name in enumerate(self.roster.names)]
        return "".join(rows)

    def counter_seen_by(self, site):
        """The counter of this site that another is known to have seen; it has seen all of its own."""
        return (self.version if site == self.number else self.heard[site])[self.number]

    # Lines

    def say(self, said):
        """The answer to what a line says; `take` is not among these lines."""
        if said.kind == "acts":
            answers = [self.do(said.who, command) for command in said.commands]
            return Answer("".join(it.text for it in answers), any(it.kept for it in answers))
        if said.kind == "list":
            return Answer(self.listing(said.full, said.jobs))
        if said.kind == "misuse":
            return Answer(f"usage {said.number}\n")
        if said.kind == "ship":
            return Answer("", packet=self.ship(said.number))
        if said.kind == "plan":
            return Answer(self.plan(said.number))
        return Answer("")

    def answer(self, line):
        """The answer of a site by itself to a line that is no `take` of a packet."""
        try:
            roster = words_of_roster(line)
            if roster:
                return self.hear_roster(roster)
            if words_of(line) == ["seen"]:
                return Answer(self.seen())
            if words_of(line) == ["roster"]:
                return Answer(" ".join(self.roster.words()) + "\n")
            said = read_line(self.roster, self.number, line)
        except Unread:
            return Answer("cannot be read\n")
        if said.kind == "take":
            return Answer("cannot be read\n")
        answer = self.say(said)
        return answer._replace(text=self.text_of(answer.packet)) if answer.packet else answer


class SiteBySeconds(Site):
    """A site that plans by looking at one second after another, wherever the use of its nodes rises or falls."""

    def __init__(self, roster, number, seconds=None):
        """The seconds that are looked at, ascending, or None for all."""
        super().__init__(roster, number)
        self.seconds = seconds

    def looked_at(self, start, end):
        """The seconds that are looked at, from the start until before the end."""
        if self.seconds is None:
            return range(start, end)
        return [second for second in self.seconds if start <= second < end]

    def fits(self, job, second, spans):
        """Whether a job fits at a second: whether its nodes are free at each second of its time."""
        free = self.roster.nodes[self.number] - job.value("nodes")
        return all(use_at(it, spans) <= free for it in self.looked_at(second, second + job.value("limit")))

    def seconds_from(self, moment, spans):
        """The seconds at which a job may first fit: all, until the last use has ended."""
        return self.looked_at(moment, 1 + max(end for _, end, _ in spans))


def ranges_of(counters):
    """The ranges that counters make, ascending, of which none touches another."""
    ranges = []
    for counter in sorted(counters):
        if ranges and ranges[-1][1] + 1 == counter:
            ranges[-1][1] = counter
        else:
            ranges.append([counter, counter])
    return ranges


def use_at(second, spans):
    """How many nodes are used at a second."""
    return sum(nodes for start, end, nodes in spans if start <= second < end)


def stamped(field):
    """A value with its stamp, as packets write it."""
    return [field[0], list(field[1])]


def grant_value(job):
    """A job's grant, as packets write it."""
    if job.grant is None:
        return None
    term, is_returned, stamp, site = job.grant
    return ["returned", term, list(stamp)] if is_returned else ["open", term, list(stamp), site]


def progress_value(job):
    """A job's progress, as packets write it."""
    if job.begun is None:
        return None
    begun = job.begun
    front = [list(begun.stamp), begun.values["moment"], begun.values["takes"], begun.values["end"]]
    if job.finished is None:
        return ["begun"] + front
    finished = job.finished
    return ["finished"] + front + [list(finished.stamp), finished.values["moment"], finished.values["status"]]


def job_value(job):
    """A job, as packets write it."""
    value = {name: stamped(job.fields[name]) for name in FIELDS}
    value["deleted"] = job.deleted
    value["grant"] = grant_value(job)
    value["holds"] = [stamped(pair) for pair in job.hold_pairs]
    value["id"] = list(job.stamp)
    value["progress"] = progress_value(job)
    value["sites"] = [stamped(pair) for pair in job.site_pairs]
    value["touched"] = job.version
    return value


def reservation_value(last):
    """A reservation by its greatest operation, as packets write it."""
    window = None
    if last.kind == "reserve":
        window = [last.values[it] for it in ("site", "start", "end", "nodes")]
    return {"id": list(last.subject), "window": [window, list(last.stamp)]}


def packet_text(sender, need, reached, jobs, reservations, retired):
    """The text of a packet, without a line feed. It is of format 3 where there is a range to tell."""
    value = {
        "format": 2,
        "jobs": [job_value(job) for job in jobs],
        "need": need,
        "reached": reached,
        "reservations": [reservation_value(last) for last in reservations],
        "sender": sender,
    }
    if retired:
        value |= {"format": 3, "retired": retired}
    return json.dumps(value, separators=(",", ":"), sort_keys=True)


class Federation:
    """All sites of a script, and the packets between them."""

    def __init__(self, roster, kind=Site):
        self.roster = roster
        self.sites = [kind(roster, number) for number in range(len(roster.names))]
        self.packets = []

    def answer(self, words):
        """The answer to the words of a line of a script behind the line of the roster."""
        if words[0] == "equal":
            if len(words) != 3:
                raise Unread
            return "equal\n" if len({self.state(name) for name in words[1:]}) == 1 else "different\n"
        site = self.site(words[0])
        if len(words) < 2:
            raise Unread
        return self.said(site, read_words(self.roster, site.number, words[1:]))

    def said(self, site, said):
        """The answer to what a line says of a site."""
        if said.kind == "take":
            if not said.word.isdigit() or not 1 <= int(said.word) <= len(self.packets):
                raise Unread
            return site.take(self.packets[int(said.word) - 1]).text
        answer = site.say(said)
        if answer.packet:
            self.packets.append(answer.packet)
            return f"packet {len(self.packets)}\n"
        return answer.text

    def site(self, name):
        """The site of this name."""
        number = self.roster.find(name)
        if number is None:
            raise Unread
        return self.sites[number]

    def state(self, name):
        """The stamps of all operations of a site, which name them."""
        return frozenset(self.site(name).operations)


def replay(script, kind=Site):
    """What a replay of a script writes, at sites of a kind, and the number of the first line that can't be read, or None."""
    federation, text = None, []
    lines = script.split(b"\n")
    for number, line in enumerate(lines, 1):
        line = line[:-1] if line.endswith(b"\r") and number < len(lines) else line
        try:
            words = words_of(line)
            if not words:
                continue
            if federation is None:
                if words[0] != "roster":
                    raise Unread
                federation = Federation(read_roster(words[1:]), kind)
            else:
                text.append(federation.answer(words))
        except Unread:
            return "".join(text), number
    return "".join(text), None
