"""Scenes of sites that retire what is settled: what is refused and why, what others hear of it, and room for new jobs."""
import json

from tests.site.played import TWO

MOST_JOBS, MOST_RANGES = 10_000, 1_000


def ids_told(sites, site):
    """The identifiers of the jobs that a site knows."""
    return [json.loads(line)["id"] for line in sites.at(site, ["jobs"]).splitlines()]


def tell(sites, one, other):
    """One site hears of another."""
    return sites.at(other, ["take"], sites.at(one, ["ship", other]).encode())


def served(sites, site, lines):
    """The answers of a site to lines that are piped into `serve`."""
    return sites.run("serve", site, text="".join(f"{line}\n" for line in lines).encode())[1].split("\n\n")[:-1]


def ask(tally, sites, site, line, answer, errors=""):
    """Compares what is answered to a line, and what is said of it where that isn't done."""
    wanted = (int(bool(errors)), f"{answer}\n", f"nettlebeam: {errors}\n" if errors else "")
    tally.same(f"{site} {line}", sites.run("at", site, *line.split()), wanted)


def is_unsettled(tally, sites, line, why):
    """Sees that argonne doesn't retire a range, and why."""
    ask(tally, sites, "argonne", line, "refused 17", f"refused 17 (NotSettled): {why}")


def end_most(sites):
    """Of ten jobs at argonne eight finish, job 4 runs, and job 5 waits."""
    lines = ["ann qsub"] * 10
    for job in (1, 2, 3, 6, 7, 8, 9, 10):
        lines += [f"grant {job} argonne", f"begin {job} 0", f"finish {job} 60 0"]
    served(sites, "argonne", lines[:10])
    early = sites.at("argonne", ["ship", "lemont"]).encode()
    served(sites, "argonne", [*lines[10:], "grant 4 argonne", "begin 4 60"])
    return early


def retiring(tally, sites):
    """Jobs that are finished are retired, and those around them stay; no site that has heard of it tells of them."""
    sites.make(TWO)
    sites.at("lemont", ["take"], end_most(sites))
    before = sites.at("argonne", ["ship", "lemont"]).encode()
    tally.same("both have all ten", (len(ids_told(sites, "argonne")), len(ids_told(sites, "lemont"))), (10, 10))
    journal = sites.journal("argonne")
    is_unsettled(tally, sites, "retire 1 10", "4.argonne has begun at argonne, and is not finished")
    is_unsettled(tally, sites, "retire 5 10", "5.argonne can still begin")
    is_unsettled(tally, sites, "retire 0 3", "the range begins at 0, and the identifiers of argonne begin at 1")
    is_unsettled(tally, sites, "retire 3 2", "the range is empty: its end, 2, is below its start, 3")
    is_unsettled(tally, sites, "retire 6 37", "the range ends at 37, and the identifiers of argonne end at 36")
    is_unsettled(tally, sites, "retire 1 18446744073709551615", "the range ends at 18446744073709551615, and the identifiers of argonne end at 36")
    for line in ("retire", "retire 1", "retire 1 2 3", "retire 1.argonne 3", "retire 1 x", "retire 1 18446744073709551616"):
        tally.same(f"no line: {line}", sites.run("at", "argonne", *line.split())[:2], (1, "cannot be read\n"))
    tally.same("the journal behind refusals", sites.journal("argonne"), journal)
    ask(tally, sites, "argonne", "retire 0001 3", "done")
    ask(tally, sites, "argonne", "retire 6 10", "done")
    tally.same("argonne tells two", ids_told(sites, "argonne"), ["4.argonne", "5.argonne"])
    ask(tally, sites, "argonne", "ann qdel 1", "refused 1", "refused 1 (UnknownJob): 1.argonne is no job that argonne knows")
    tally.same("why", sites.at("argonne", ["why", "1", "0"]), "unknown\n")
    # before lemont hears of it
    ask(tally, sites, "lemont", "ann qalter -p 5 6.argonne", "done")
    tally.same("one packet", tell(sites, "argonne", "lemont"), "taken\n")
    tally.same("lemont tells two", ids_told(sites, "lemont"), ["4.argonne", "5.argonne"])
    tally.same("a packet from before", sites.at("lemont", ["take"], before), "known\n")
    tally.same("brings none back", ids_told(sites, "lemont"), ["4.argonne", "5.argonne"])
    unknown = "refused 1 (UnknownJob): 6.argonne is no job that lemont knows"
    ask(tally, sites, "lemont", "ann qalter -p 5 6.argonne", "refused 1", unknown)
    tally.same("qstat is as of an unknown job", sites.run("at", "lemont", "ann", "qstat", "1.argonne"), (0, "", ""))
    tally.same("what lemont did is taken", tell(sites, "lemont", "argonne"), "taken\n")
    tally.same("both have seen the same", sites.seen("argonne"), sites.seen("lemont"))
    tally.same("and list the same", sites.at("argonne", ["jobs"]), sites.at("lemont", ["jobs"]))
    stay_when_compacted(tally, sites)


def stay_when_compacted(tally, sites):
    """A journal that is compacted says what is retired, though it has no line of it."""
    served(sites, "argonne", [f"ann qalter -p {number} 5" for number in range(100)])
    held, packet = sites.at("argonne", ["jobs"]), sites.at("argonne", ["ship", "lemont"])
    for site in ("argonne", "lemont"):
        status, output, errors = sites.run("compact", site)
        tally.same(f"{site} is compacted: {output!r}", (status, output.startswith("compacted: "), errors), (0, True, ""))
    tally.same("argonne tells the same", sites.at("argonne", ["jobs"]), held)
    tally.same("and ships the same", sites.at("argonne", ["ship", "lemont"]), packet)
    ask(tally, sites, "lemont", "ann qdel 1.argonne", "refused 1", "refused 1 (UnknownJob): 1.argonne is no job that lemont knows")


def retiring_declined(tally, sites):
    """A job that was deleted while another site has its grant is retired once that site has declined it. A reservation is once
    it is cancelled."""
    sites.make(TWO)
    served(sites, "argonne", ["ann qsub", "grant 1 lemont", "oz/operator reserve argonne 5 9 1"])
    tell(sites, "argonne", "lemont")
    is_unsettled(tally, sites, "retire 1 1", "1.argonne can still begin")
    ask(tally, sites, "argonne", "ann qdel 1", "done")
    is_unsettled(tally, sites, "retire 1 1", "1.argonne is deleted, but lemont still has its grant")
    tell(sites, "argonne", "lemont")
    ask(tally, sites, "lemont", "decline 1.argonne", "done")
    is_unsettled(tally, sites, "retire 1 1", "1.argonne is deleted, but lemont still has its grant")
    tally.same("a packet", tell(sites, "lemont", "argonne"), "taken\n")
    is_unsettled(tally, sites, "retire 1 3", "3.argonne is a reservation that is not cancelled")
    ask(tally, sites, "argonne", "retire 1 1", "done")
    ask(tally, sites, "argonne", "oz/operator cancel 3", "done")
    ask(tally, sites, "argonne", "retire 2 3", "done")
    tally.same("nothing is known any more", (sites.at("argonne", ["jobs"]), sites.at("argonne", ["reservations"])), ("", ""))
    tell(sites, "argonne", "lemont")
    tally.same("nor at lemont", (sites.at("lemont", ["jobs"]), sites.at("lemont", ["reservations"])), ("", ""))


def retiring_all(tally, sites):
    """A full site retires what is settled, and then takes as many jobs as before."""
    sites.make(TWO)
    tally.same("so many jobs", len(served(sites, "argonne", ["ann qsub"] * MOST_JOBS)), MOST_JOBS)
    tell(sites, "argonne", "lemont")
    deleted = served(sites, "lemont", [f"ann qdel {number}.argonne" for number in range(1, MOST_JOBS + 1)])
    tally.same("all are deleted", set(deleted), {"done"})
    tell(sites, "lemont", "argonne")
    full = "refused 14 (SiteFull): argonne has as many jobs as may be submitted there"
    ask(tally, sites, "argonne", "ann qsub", "refused 14", full)
    is_unsettled(tally, sites, "retire 1 20000", "the range ends at 20000, and the identifiers of argonne end at 10000")
    ask(tally, sites, "argonne", f"retire 1 {MOST_JOBS}", "done")
    again = served(sites, "argonne", ["ann qsub"] * MOST_JOBS)
    tally.same("as many again", (len(again), {name.partition(".")[2] for name in again}), (MOST_JOBS, {"argonne"}))
    ask(tally, sites, "argonne", "ann qsub", "refused 14", full)
    tally.same("lemont hears of both", (tell(sites, "argonne", "lemont"), ids_told(sites, "lemont")), ("taken\n", ids_told(sites, "argonne")))


def retiring_apart(tally, sites):
    """A site has 1,000 ranges at most of which none touches another."""
    sites.make(TWO)
    odd = range(1, 2 * MOST_RANGES + 2, 2)
    served(sites, "argonne", ["ann qsub"] * odd[-1])
    served(sites, "argonne", [f"ann qdel {number}" for number in odd])
    answers = served(sites, "argonne", [f"retire {number} {number}" for number in odd])
    tally.same("the last is one too many", answers, ["done"] * MOST_RANGES + ["refused 14"])
    last = f"retire {odd[-1]} {odd[-1]}"
    why = f"argonne would have more than {MOST_RANGES} ranges of retired identifiers: retire more at once, up to a range that is retired"
    ask(tally, sites, "argonne", last, "refused 14", f"refused 14 (SiteFull): {why}")
    ask(tally, sites, "argonne", "retire 1 1", "done")
    is_unsettled(tally, sites, "retire 1 3", "2.argonne can still begin")
    ask(tally, sites, "argonne", "ann qdel 2", "done")
    ask(tally, sites, "argonne", "retire 2 2", "done")
    ask(tally, sites, "argonne", last, "done")
    tally.same("lemont hears of all ranges", (tell(sites, "argonne", "lemont"), ids_told(sites, "lemont")), ("taken\n", ids_told(sites, "argonne")))


SCENES = {it.__name__: it for it in (retiring, retiring_declined, retiring_all, retiring_apart)}
