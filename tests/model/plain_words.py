"""What the words of a line say, read in the plainest way: the line of a script behind the name of its site.

This is a reader of its own. It follows docs/COMMANDS.md, and shares nothing with the program.
"""
import re
from typing import NamedTuple

NAME = re.compile(r"[A-Za-z][A-Za-z0-9_.-]{0,14}")
SITE_NAME = re.compile(r"[A-Za-z][A-Za-z0-9-]{0,14}")
NODES_OF_SITE = re.compile(r"(.*?):([0-9]+)")
DIGITS = re.compile(r"[0-9]+")
READABLE = re.compile(rb"[ -~\t]*")
VERBS = ("grant", "begin", "finish", "handback", "decline", "retire", "ship", "take", "plan")
ROLES = {"operator": "operator", "admin": "admin"}
GREATEST_COUNTER = 1_000_000_000
GREATEST_MOMENT = 1_000_000_000_000
GREATEST_NODES = 1_000_000
GREATEST_LIMIT = 10_000_000

# The options of each utility, each with whether it takes an argument.
OPTIONS = {
    "qsub": {"A": True, "h": False, "l": True, "N": True, "p": True},
    "qalter": {"A": True, "l": True, "N": True, "p": True},
    "qhold": {"h": True},
    "qrls": {"h": True},
    "qdel": {},
    "qstat": {"f": False},
}


class Unread(Exception):
    """The line can't be read."""


class Misuse(Exception):
    """The words of a utility are at fault, by this number."""

    def __init__(self, number):
        super().__init__(number)
        self.number = number


class Roster(NamedTuple):
    """The names of the sites, and the nodes of each."""

    names: tuple
    nodes: tuple

    def find(self, name):
        """The number of the site of this name, or None."""
        return self.names.index(name) if name in self.names else None

    def words(self):
        """The words that make this roster."""
        return [f"{name}:{nodes}" for name, nodes in zip(self.names, self.nodes)]

    def goes_on_with(self, known):
        """Whether the names of a known roster stand first in this one, in their order."""
        return self.names[: len(known.names)] == known.names


class Who(NamedTuple):
    """Who asks: a user in the role `user`, `operator` or `admin`."""

    user: str
    role: str


class Command(NamedTuple):
    """One command: its kind, the job or the reservation that it names, and what else it says."""

    kind: str
    subject: tuple
    values: dict


class Said(NamedTuple):
    """What a line says: its kind, and what stands beside it."""

    kind: str
    who: Who = None
    commands: tuple = ()
    full: bool = False
    jobs: tuple = ()
    number: int = 0
    word: str = ""


def read_number(word):
    """A decimal number of 64 bits, or None."""
    if not DIGITS.fullmatch(word) or int(word) >= 1 << 64:
        return None
    return int(word)


def number_within(word, least, greatest):
    """A decimal number in a range, or None."""
    number = read_number(word)
    return number if number is not None and least <= number <= greatest else None


def wanted(value):
    """The value, where there is one."""
    if value is None:
        raise Unread
    return value


def read_roster(words):
    """The roster of the words behind `roster`."""
    names, nodes = [], []
    for word in words:
        match = NODES_OF_SITE.fullmatch(word)
        if not match or not SITE_NAME.fullmatch(match[1]) or match[1] in ("roster", "equal"):
            raise Unread
        names.append(match[1])
        nodes.append(wanted(number_within(match[2], 1, GREATEST_NODES)))
    if not 1 <= len(names) <= 16 or len(set(names)) < len(names):
        raise Unread
    return Roster(tuple(names), tuple(nodes))


def words_of_roster(line):
    """The words behind `roster` where a line tells a site by itself the roster, else None. A user may be called so too."""
    words = words_of(line)
    return words[1:] if words[:1] == ["roster"] and ":" in "".join(words[1:2]) else None


def read_site(roster, name, malformed):
    """The site of this name; what is at fault otherwise depends on the form of the name."""
    site = roster.find(name)
    if site is None:
        raise Misuse(6 if SITE_NAME.fullmatch(name) else malformed)
    return site


def read_identifier(roster, here, word):
    """The stamp that an identifier names, read at a site."""
    sequence, dot, name = word.partition(".")
    counter = number_within(sequence, 1, GREATEST_COUNTER)
    if len(sequence) > 10 or counter is None:
        raise Misuse(5)
    return (counter, read_site(roster, name, 5) if dot else here)


def read_resources(roster, text):
    """What a list of resources sets."""
    values = {}
    for pair in text.split(","):
        name, equals, value = pair.partition("=")
        if not equals or name not in ("nodes", "walltime", "sites"):
            raise Misuse(4)
        if name == "sites":
            values["sites"] = {read_site(roster, it, 4) for it in value.split("+")}
            continue
        number = number_within(value, 1, GREATEST_NODES if name == "nodes" else GREATEST_LIMIT)
        if number is None:
            raise Misuse(4)
        values["nodes" if name == "nodes" else "limit"] = number
    return values


def read_priority(text):
    """The priority that a text writes."""
    if not re.fullmatch(r"[+-]?[0-9]+", text) or not -1024 <= int(text) <= 1023:
        raise Misuse(4)
    return int(text)


def read_name(text):
    """A name of a job or an account."""
    if not NAME.fullmatch(text):
        raise Misuse(4)
    return text


def read_kinds(text):
    """The kinds of holds that a list names."""
    if not re.fullmatch(r"[uos]+", text):
        raise Misuse(4)
    return set(text)


def read_option(roster, utility, letter, argument):
    """What an option sets, under its letter."""
    if letter == "A":
        return read_name(argument)
    if letter == "N":
        return read_name(argument)
    if letter == "p":
        return read_priority(argument)
    if letter == "l":
        return read_resources(roster, argument)
    if letter == "h" and utility != "qsub":
        return read_kinds(argument)
    return True


def read_options(roster, utility, words):
    """The last value of each option, and the operands."""
    options, words = {}, list(words)
    while words and words[0].startswith("-") and words[0] not in ("-", "--"):
        letters = words.pop(0)[1:]
        while letters:
            letter, letters = letters[0], letters[1:]
            if letter not in OPTIONS[utility]:
                raise Misuse(2)
            argument = None
            if OPTIONS[utility][letter]:
                if not letters and not words:
                    raise Misuse(3)
                # the rest of the word, or the next one
                argument, letters = letters or words.pop(0), ""
            options[letter] = read_option(roster, utility, letter, argument)
    return options, words[1:] if words[:1] == ["--"] else words


def fields_of(options):
    """The fields that options set."""
    fields = dict(options.get("l", {}))
    for letter, field in (("A", "account"), ("N", "name"), ("p", "priority")):
        if letter in options:
            fields[field] = options[letter]
    return fields


def submit(roster, options):
    """The command of `qsub`."""
    values = {"name": "STDIN", "priority": 0, "nodes": 1, "limit": 3600, "account": ""}
    values["sites"] = set(range(len(roster.names)))
    values.update(fields_of(options))
    values["held"] = "h" in options
    return Command("submit", None, values)


def read_utility(roster, here, who, words):
    """What the words behind a user ask, the first being the utility."""
    if not words or words[0] not in OPTIONS:
        raise Misuse(1)
    utility = words[0]
    options, operands = read_options(roster, utility, words[1:])
    if utility == "qsub":
        return Said("acts", who, (submit(roster, options),))
    if not operands and utility != "qstat":
        raise Misuse(7)
    # a job that is named twice counts once, at its first place
    jobs = tuple(dict.fromkeys(read_identifier(roster, here, word) for word in operands))
    if utility == "qstat":
        return Said("list", who, full="f" in options, jobs=jobs)
    if utility == "qalter":
        kind, values = "alter", fields_of(options)
    elif utility == "qdel":
        kind, values = "delete", {}
    else:
        kind, values = ("hold" if utility == "qhold" else "release"), {"kinds": options.get("h", {"u"})}
    return Said("acts", who, tuple(Command(kind, job, values) for job in jobs))


def named(roster, here, word):
    """The stamp that an identifier names, where a fault of it makes the line unreadable."""
    try:
        return read_identifier(roster, here, word)
    except Misuse:
        raise Unread from None


def read_reserve(roster, words):
    """`reserve WHERE START END NODES`, from the second word on."""
    if len(words) != 4:
        raise Unread
    site = wanted(roster.find(words[0]))
    start, end, nodes = (wanted(read_number(word)) for word in words[1:])
    return Command("reserve", None, {"site": site, "start": start, "end": end, "nodes": nodes})


def read_scheduled(roster, here, verb, words):
    """`grant`, `begin`, `finish`, `handback` and `decline`, from the second word on."""
    counts = {"grant": 2, "begin": 2, "finish": 3, "handback": 1, "decline": 1}
    if len(words) != counts[verb]:
        raise Unread
    values = {}
    job = named(roster, here, words[0])
    if verb == "grant":
        values["asker"] = wanted(roster.find(words[1]))
    if verb in ("begin", "finish"):
        values["moment"] = wanted(number_within(words[1], 0, GREATEST_MOMENT))
    if verb == "finish":
        values["status"] = wanted(number_within(words[2], 0, 255))
    return Command(verb, job, values)


def read_retire(words):
    """`retire FIRST LAST`, from the second word on."""
    if len(words) != 2:
        raise Unread
    first, last = (wanted(read_number(word)) for word in words)
    return Command("retire", None, {"first": first, "last": last})


def read_verb(roster, here, verb, words):
    """What a line says whose first word is a verb."""
    if verb == "retire":
        return Said("acts", Who("scheduler", "user"), (read_retire(words),))
    if verb in ("grant", "begin", "finish", "handback", "decline"):
        return Said("acts", Who("scheduler", "user"), (read_scheduled(roster, here, verb, words),))
    if len(words) != 1:
        raise Unread
    if verb == "ship":
        return Said("ship", number=wanted(roster.find(words[0])))
    if verb == "plan":
        return Said("plan", number=wanted(number_within(words[0], 0, GREATEST_MOMENT)))
    return Said("take", word=words[0])


def read_who(word):
    """Who asks by a word `USER` or `USER/ROLE`."""
    user, slash, role = word.partition("/")
    if not NAME.fullmatch(user) or user in VERBS or slash and role not in ROLES:
        raise Unread
    return Who(user, ROLES[role] if slash else "user")


def read_words(roster, here, words):
    """What the words of a line say at a site."""
    if words[0] in VERBS:
        return read_verb(roster, here, words[0], words[1:])
    who = read_who(words[0])
    if words[1:2] == ["reserve"]:
        return Said("acts", who, (read_reserve(roster, words[2:]),))
    if words[1:2] == ["cancel"]:
        if len(words) != 3:
            raise Unread
        return Said("acts", who, (Command("cancel", named(roster, here, words[2]), {}),))
    try:
        return read_utility(roster, here, who, words[1:])
    except Misuse as misuse:
        return Said("misuse", who, number=misuse.number)


def words_of(line):
    """The words of a line of bytes; none where it is empty or a comment."""
    if not READABLE.fullmatch(line):
        raise Unread
    words = line.decode("ascii").split()
    return [] if words and words[0].startswith("#") else words


def read_line(roster, here, line):
    """What a line of bytes says at a site. `take` and a text is not read here."""
    words = words_of(line)
    return read_words(roster, here, words) if words else Said("skip")
