"""Random lines for a site of the plain model: commands of every kind, rosters, misuses and lines that can't be read."""
from tests.model.plain_words import Roster

USERS = ("ann", "ann", "bob", "roster", "Dora.x-y", "cy_2/operator", "oz/operator", "root/admin", "root/admin")
SITE_NAMES = (
    "argonne lemont batavia fermi oak-ridge sparks ames golden livermore hanford A z9 "
    "a-rather-long-1 brookhaven upton idaho"
).split()
MISUSES = (
    "ann",
    "ann qmove 1",
    "ann QSUB",
    "ann qsub -Z",
    "ann qsub -p",
    "ann qsub -p 1024",
    "ann qsub -p -1025",
    "ann qsub -l nodes=0",
    "ann qsub -l nodes=2,,walltime=5",
    "ann qsub -l walltime=10000001",
    "ann qsub -l sites=nowhere",
    "ann qsub -l sites=+",
    "ann qsub -l color=red",
    "ann qsub -N 9x",
    "ann qsub -A averyverylongname",
    "ann qalter",
    "ann qalter -h 1",
    "ann qalter -p 5 x",
    "ann qhold -h n 1",
    "ann qhold -h uox 1",
    "ann qrls 1.nowhere",
    "ann qrls -- -",
    "ann qdel",
    "ann qdel -f 1",
    "ann qdel 12345678901",
    "ann qdel 1.9x",
    "ann qdel 0",
    "ann qstat -x",
    "ann qstat --x",
    "ann qstat -f 1.",
    "roster",
    "roster a",
    "roster argonne lemont:4",
    "roster/admin argonne:8",
    "equal a b",
    "root/admin grant 1 argonne",
)
UNREADABLE = (
    "9x qsub",
    "ann/ qsub",
    "ann/boss qsub",
    "grant/operator qsub",
    "averyverylonguser qsub",
    "grant 1",
    "grant 1 nowhere",
    "begin 1 x",
    "begin 1 1000000000001",
    "finish 1 5 256",
    "finish 1 5",
    "handback 1 2",
    "handback 1.nowhere",
    "decline",
    "decline 1 argonne",
    "decline/admin qsub",
    "retire",
    "retire 1",
    "retire 1 2 3",
    "retire 1.argonne 2",
    "retire -1 2",
    "retire 1 18446744073709551616",
    "retire qsub",
    "retire/operator qsub",
    "ship",
    "ship nowhere",
    "take",
    "plan",
    "plan -1",
    "plan 18446744073709551616",
    "ann cancel",
    "ann cancel x",
    "oz/operator reserve nowhere 1 2 3",
    "oz/operator reserve lemont 1 2",
    "ann qsub \x7f",
    "roster argonne:8 \x7f",
    "roster argonne:8 lemont:4\xe9",
    "# a comment with \x01",
    "\xe9ric qsub",
)
SKIPPED = ("", "   ", "\t", "# a comment", "  #x qsub", "#roster a:1")
NODES = (1, 2, 4, 8, 13, 1_000_000)
# what stands for the nodes of a site in a roster that is none; the last but one is 4 where it is cut to 64 bits
WRONG_NODES = ("0", "1000001", "", "x", "-4", "+4", "4x", "8:4", "18446744073709551620", "000")
WRONG_NAMES = ("", "9x", "a_b", "a.b", "sixteen-letters-", "roster", "equal", "ann/admin", '"a"')
MOST_SITES = 16


class RandomLines:
    """Makes lines by what a site holds, so that most of them do something."""

    def __init__(self, pick, roster):
        """The roster is the longest that a site will know."""
        self.pick = pick
        self.roster = roster
        self.makers = (
            [self.submit] * 18
            + [self.alter] * 9
            + [self.hold] * 7
            + [self.release] * 7
            + [self.delete] * 3
            + [self.short_list] * 4
            + [self.full_list] * 4
            + [self.reserve] * 3
            + [self.cancel] * 2
            + [self.grant] * 14
            + [self.begin] * 10
            + [self.finish] * 5
            + [self.hand_back] * 5
            + [self.decline] * 4
            + [self.retire] * 4
            + [self.plan] * 5
            + [self.seen] * 1
            + [self.tell_roster] * 2
            + [self.misuse] * 3
            + [self.unreadable] * 2
            + [self.skipped] * 1
        )

    def line(self, site):
        """A line for the site, as a text; a `ship` or a `take` is not among them."""
        return self.pick.choice(self.makers)(site)

    # Words

    def user(self):
        """Who submits or lists."""
        return self.pick.choice(USERS)

    def master(self):
        """Who asks something of a job: mostly one who may."""
        return self.pick.choice(("root/admin", "root/admin", "oz/operator", self.user()))

    def moment(self):
        """A moment, mostly a small one."""
        return self.pick.choice((self.pick.randrange(100), self.pick.randrange(5000), 1_000_000_000_000))

    def site_name(self, site):
        """A site that the site knows, seldom one that it may not know yet."""
        roster = self.roster if self.pick.random() < 0.04 else site.roster
        return self.pick.choice(roster.names)

    def site_names(self, site):
        """A value of `sites`."""
        return "+".join(self.site_name(site) for _ in range(self.pick.randrange(1, 4)))

    def identifier(self, site, wanted=lambda job: True):
        """The identifier of a job that the site knows, of those wanted if there are any; seldom of another job."""
        recent = site.jobs(40)
        if not recent or self.pick.random() < 0.04:
            return f"{self.pick.randrange(1, 40)}.{self.site_name(site)}"
        job = self.pick.choice([job for job in recent if wanted(job)] or recent)
        counter, origin = job.stamp
        if origin == site.number and self.pick.random() < 0.5:
            return f"{counter:0{self.pick.choice((1, 1, 10))}d}"
        return site.name(job.stamp)

    def identifiers(self, site):
        """One to three jobs."""
        return " ".join(self.identifier(site) for _ in range(self.pick.choice((1, 1, 1, 2, 3))))

    def resources(self, site):
        """An argument of `-l`."""
        pairs = (
            f"nodes={self.pick.choice((1, 2, 3, 5, 8, 13, 1_000_000))}",
            f"walltime={self.pick.choice((1, 10, 50, 51, 100, 3600, 10_000_000))}",
            f"sites={self.site_names(site)}",
        )
        return ",".join(self.pick.sample(pairs, self.pick.randrange(1, 4)))

    def options(self, site, letters):
        """Some options of a utility, in some spelling."""
        words = []
        for letter in self.pick.sample(letters, self.pick.randrange(0, len(letters) + 1)):
            if letter == "h":
                words.append("-h")
                continue
            argument = {
                "A": lambda: self.pick.choice(("chem", "phys", "x.y-z_1")),
                "N": lambda: self.pick.choice(("render", "STDIN", "a", "fifteen-letters")),
                "p": lambda: self.pick.choice(("5", "-5", "+7", "1023", "-1024", "0012", str(self.pick.randrange(9)))),
                "l": lambda: self.resources(site),
            }[letter]()
            words.append(f"-{letter}{self.pick.choice(('', ' '))}{argument}")
        return " ".join(words + [""])

    # Lines

    def submit(self, site):
        """`qsub`"""
        options = self.options(site, self.pick.choice(("", "l", "lp", "pN", "AhlNp")))
        return f"{self.user()} qsub {options}{self.pick.choice(('', '', 'render.sh', '-- -p 5'))}".strip()

    def alter(self, site):
        """`qalter`"""
        return f"{self.master()} qalter {self.options(site, 'AlNp')}{self.identifiers(site)}"

    def kinds(self):
        """The option of `qhold` and `qrls`, which may be left out."""
        return self.pick.choice(("", "", "-h u ", "-ho ", "-h s ", "-h uos ", "-hsuu "))

    def hold(self, site):
        """`qhold`"""
        return f"{self.master()} qhold {self.kinds()}{self.identifiers(site)}"

    def release(self, site):
        """`qrls`"""
        held = self.identifier(site, lambda job: job.letter == "H")
        kinds = self.pick.choice(("-h uos ", self.kinds()))
        return f"{self.master()} qrls {kinds}{held}"

    def delete(self, site):
        """`qdel`"""
        return f"{self.master()} qdel {self.identifiers(site)}"

    def short_list(self, site):
        """`qstat` of all jobs or of some"""
        return self.pick.choice(("ann qstat", f"bob qstat {self.identifiers(site)}", "root/admin qstat --"))

    def full_list(self, site):
        """`qstat -f` of some jobs, seldom of all"""
        return self.pick.choice(("ann qstat -f", *[f"bob qstat -ff {self.identifiers(site)}"] * 3))

    def reserve(self, site):
        """`reserve`"""
        start = self.pick.randrange(3000)
        end = start + self.pick.choice((0, 1, 60, 1000, 1_000_000_000_000))
        nodes = self.pick.choice((0, 1, 2, 4, 8, 1_000_000, 1 << 63))
        who = self.pick.choice(("oz/operator", "root/admin", "oz/operator", "ann"))
        return f"{who} reserve {self.site_name(site)} {start} {end} {nodes}"

    def cancel(self, site):
        """`cancel`"""
        standing = [last.subject for last in site.reservations()]
        name = self.identifier(site)
        if standing and self.pick.random() < 0.9:
            name = site.name(self.pick.choice(standing))
        return f"{self.pick.choice(('oz/operator', 'root/admin', 'bob'))} cancel {name}"

    def grant(self, site):
        """`grant`, mostly of a job of this site"""
        own = self.identifier(site, lambda job: job.stamp[1] == site.number and job.letter == "Q")
        return f"grant {own} {self.pick.choice((self.site_name(site), site.site_name(site.number)))}"

    def of_granted(self, site, letters, verb, rest):
        """A line of the scheduler's on a job that is granted to the site and has one of these letters; mostly a grant
        where there is no such job."""

        def is_wanted(job):
            """Whether the job is so."""
            return job.granted() == site.number and job.letter in letters

        if not any(is_wanted(job) for job in site.jobs(40)) and self.pick.random() < 0.8:
            return self.grant(site)
        return f"{verb} {self.identifier(site, is_wanted)}{rest}"

    def begin(self, site):
        """`begin`"""
        return self.of_granted(site, "TH", "begin", f" {self.moment()}")

    def finish(self, site):
        """`finish`"""
        return self.of_granted(site, "RE", "finish", f" {self.moment()} {self.pick.choice((0, 1, 255))}")

    def hand_back(self, site):
        """`handback`"""
        return self.of_granted(site, "TH", "handback", "")

    def decline(self, site):
        """`decline`, mostly of a job that was deleted"""
        return self.of_granted(site, ("", "T"), "decline", "")

    def retire(self, site):
        """`retire`, mostly of what is settled"""
        own = site.version[site.number]
        settled = [job.stamp[0] for job in site.jobs(40) if job.stamp[1] == site.number and site.is_settled(job)]
        if not settled or self.pick.random() < 0.2:
            first = self.pick.randrange(own + 3)
            return f"retire {first} {max(0, first + self.pick.randrange(-1, 9))}"
        first = last = self.pick.choice(settled)
        while first > 1 and not site.is_unsettled((first - 1, site.number)) and self.pick.random() < 0.8:
            first -= 1
        while last < own and not site.is_unsettled((last + 1, site.number)) and self.pick.random() < 0.8:
            last += 1
        return f"retire {first:0{self.pick.choice((1, 1, 12))}d} {last}"

    def plan(self, site):
        """`plan`"""
        return f"plan {self.moment()}"

    def seen(self, site):
        """`seen`"""
        return "seen"

    def tell_roster(self, site):
        """`roster`, with a roster that goes on with the site's, or with one that doesn't"""
        words = self.right_roster(site) if self.pick.random() < 0.4 else self.wrong_roster(site)
        if self.pick.random() < 0.05:
            return "\t".join([" roster ", *words]) + " "
        return " ".join(["roster", *words])

    def misuse(self, site):
        """The words of a utility, misused."""
        return self.pick.choice(MISUSES)

    def unreadable(self, site):
        """A line that can't be read."""
        return self.pick.choice(UNREADABLE)

    def skipped(self, site):
        """A line that is answered by nothing."""
        return self.pick.choice(SKIPPED)

    # Rosters

    def right_roster(self, site):
        """The words of a roster that goes on with the site's: the same one, one with other nodes, or a longer one."""
        known, most = site.roster, len(self.roster.names)
        count = min(most, len(known.names) + self.pick.choice((0, 0, 1, 1, 2, most)))
        nodes = [*known.nodes, *self.roster.nodes[len(known.nodes) : count]]
        for place in range(count):
            if self.pick.random() < 0.15:
                nodes[place] = self.pick.choice(NODES)
        words = Roster(self.roster.names[:count], tuple(nodes)).words() if self.pick.random() < 0.7 else known.words()
        if self.pick.random() < 0.1:
            words[-1] = words[-1].replace(":", ":00")
        return words

    def wrong_roster(self, site):
        """The words of a roster that doesn't go on with the site's, or of no roster. What is changed is a word that the site
        knows, or makes it none: a site never learns another name than the round's."""
        words, kind = self.right_roster(site), self.pick.randrange(10)
        place = self.pick.randrange(len(site.roster.names) if kind < 4 else len(words))
        name, nodes = words[place].split(":")
        if kind == 0:
            words.insert(place, "newcomer:4")
        elif kind == 1:
            del words[place]
        elif kind == 2:
            words[place] = f"{self.pick.choice((name.swapcase(), name[:14] + 'x', 'newcomer'))}:{nodes}"
        elif kind == 3:
            # the first and the last of a roster of one site are the same, and it stays right
            other = (place + self.pick.randrange(1, max(2, len(words)))) % len(words)
            words[place], words[other] = words[other], words[place]
        elif kind == 4:
            words.append(f"{name}:4")
        elif kind == 5:
            words.append(f"{self.pick.choice(WRONG_NAMES)}:4")
        elif kind == 6:
            words[place] = f"{self.pick.choice(WRONG_NAMES)}:{nodes}"
        elif kind == 7:
            words[place] = f"{name}:{self.pick.choice(WRONG_NODES)}"
        elif kind == 8:
            words += [f"newcomer-{number}:1" for number in range(len(words), MOST_SITES + 1)]
        else:
            words[place] = name
        return words
