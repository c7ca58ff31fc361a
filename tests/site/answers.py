"""Scenes of worked rows at sites by themselves: answers, statuses, words, utilities, packets of strangers."""
import glob
import io
import os
import shutil
import subprocess

from tests.playing import TOP
from tests.site.played import TWO, Sites, frame, read_frame

LISTED = "1.argonne          STDIN            ann              Q      0        1      3600 -\n"


def played(sites, ask, script):
    """What sites answer to the lines of a script."""
    answers, packets = [], []
    for line in script.splitlines():
        words = line.split()
        if not words or words[0].startswith("#"):
            continue
        if words[0] == "roster":
            sites.make(words[1:])
        elif words[0] == "equal":
            sites.close()
            answers.append("equal\n" if sites.seen(words[1]) == sites.seen(words[2]) else "different\n")
        elif words[1] == "ship":
            packets.append(ask(words[0], words[1:]))
            answers.append(f"packet {len(packets)}\n")
        elif words[1] == "take":
            answers.append(ask(words[0], ["take"], packets[int(words[2]) - 1].encode()))
        else:
            answers.append(ask(words[0], words[1:]))
    sites.close()
    return "".join(answers)


def scripts(tally, sites):
    """Each script of examples/ and examples/rows/, by `at` and by `serve`."""
    for path in sorted(glob.glob(f"{TOP}/examples/*.script") + glob.glob(f"{TOP}/examples/rows/*.script")):
        with open(path) as script, open(path[: -len("script")] + "out") as out:
            text, wanted = script.read(), out.read()
        name = os.path.basename(path)
        for way in ("at", "serve"):
            folder = f"{sites.folder}/{name}.{way}"
            os.mkdir(folder)
            played_by = Sites(tally, sites.program, folder)
            tally.same(f"{name} by {way}", played(played_by, getattr(played_by, way), text), wanted)


def one_site(tally, sites):
    """One site: its journal, its answers, its statuses."""
    tally.same("init", sites.run("init", "argonne", "argonne", *TWO), (0, "", ""))
    tally.same("qsub", sites.run("at", "argonne", "ann", "qsub"), (0, "1.argonne\n", ""))
    # the digests are by sha256sum, of the digest before and the text, the first of sixteen zeros
    journal = b"+ 5a80759d9c1f0435 nettlebeam 3 argonne argonne:8 lemont:4\n+ 0927f5cb1bbaad3b ann qsub\n-"
    tally.same("the journal", sites.journal("argonne"), journal)
    tally.same("the journal's mode", os.stat(f"{sites.folder}/argonne/journal").st_mode & 0o777, 0o600)
    tally.same("qstat", sites.run("at", "argonne", "ann", "qstat"), (0, LISTED, ""))
    status, output, errors = sites.run("at", "argonne", "ann", "qalter", "-p", "5", "9")
    tally.same("refused", (status, output), (1, "refused 1\n"))
    tally.same("refused, in words", errors.startswith("nettlebeam: refused 1"), True)
    tally.same("the journal behind a refusal", sites.journal("argonne"), journal)
    for words, output in ([["ann", "qmove", "1"], "usage 1\n"], [["ann", "qsub", "-h "], "cannot be read\n"], [["equal", "a", "b"], "usage 1\n"]):
        status, found, errors = sites.run("at", "argonne", *words)
        tally.same(f"{words}", (status, found, errors.count("\n")), (1, output, 1))
    tally.same("a comment", sites.run("at", "argonne", "#"), (0, "", ""))
    tally.same("check", sites.run("check", "argonne"), (0, "entries 2, seen argonne 1 lemont 0, jobs 1, unfinished bytes 0\n", ""))


def words(tally, sites):
    """What is said on standard error of refusals and misuses, with what was asked of what; by `serve` the same, in frames."""
    sites.make(TWO)
    asked = []

    def says(words, status, errors):
        found = sites.run("at", "argonne", *words.split())
        tally.same(f"words of {words}", (found[0], found[2]), (status, f"nettlebeam: {errors}\n" if errors else ""))
        asked.append((words, found[1], errors, status))

    for words in ["ann qsub", "bob qsub -l nodes=6", "bob qsub", "ann qsub -l sites=lemont", "ann qsub -l nodes=6"]:
        says(words, 0, "")
    says("ann qalter -p 5 9", 1, "refused 1 (UnknownJob): 9.argonne is no job that argonne knows")
    says("ann qalter -p 5 3", 1, "refused 2 (NotPermitted): ann may not alter 3.argonne, whose owner is bob")
    says("ann qhold -h us 1", 1, "refused 2 (NotPermitted): ann may not hold 1.argonne (kinds us), whose owner is ann")
    says("oz/operator qrls -h s 1", 1, "refused 2 (NotPermitted): oz/operator may not release 1.argonne (kinds s), whose owner is ann")
    says("ann qdel 1 3", 1, "refused 2 (NotPermitted): ann may not delete 3.argonne, whose owner is bob")
    says("ann qhold 1", 1, "refused 3 (Gone): 1.argonne is deleted")
    says("ann reserve lemont 50 60 4", 1, "refused 2 (NotPermitted): ann may not reserve nodes: operators and administrators may")
    says("ann cancel 1", 1, "refused 2 (NotPermitted): ann may not cancel 1.argonne: operators and administrators may")
    says("grant 2 argonne", 0, "")
    says("bob qalter -p 5 2", 1, "refused 4 (Granted): 2.argonne is granted to argonne")
    says("grant 2 lemont", 1, "refused 8 (TakenBy): 2.argonne is granted to argonne")
    says("grant 4 argonne", 1, "refused 7 (NotEligible): 4.argonne may not run at argonne")
    says("begin 3 0", 1, "refused 9 (NotGranted): 3.argonne is not granted to argonne")
    says("finish 2 50 3", 1, "refused 11 (NotBegun): 2.argonne has not begun")
    says("begin 2 0", 0, "")
    says("handback 2", 1, "refused 10 (Begun): 2.argonne has begun at argonne")
    says("decline 2", 1, "refused 10 (Begun): 2.argonne has begun at argonne")
    says("grant 5 argonne", 0, "")
    says("begin 5 10", 0, "5.argonne has begun, and argonne is beyond its nodes: running jobs and reservations use 12 of 8")
    says("finish 2 50 3", 0, "")
    says("oz/operator qdel 2", 1, "refused 3 (Gone): 2.argonne is finished, with status 3")
    says("decline 2", 1, "refused 3 (Gone): 2.argonne is finished, with status 3")
    says("decline 1", 1, "refused 9 (NotGranted): 1.argonne is not granted to argonne")
    says("bob qhold 3", 0, "")
    says("grant 3 argonne", 1, "refused 6 (Held): 3.argonne is held (kinds u)")
    says("oz/operator reserve argonne 60 50 8", 1, "refused 12 (BadWindow): the reservation's end, 50, is not above its start, 60")
    says("oz/operator reserve argonne 50 60 0", 1, "refused 12 (BadWindow): 0 is no number of nodes from 1 to 1000000")
    says("oz/operator cancel 77", 1, "refused 13 (UnknownReservation): 77.argonne is no reservation that argonne knows, or is cancelled")
    says("retire 0 2", 1, "refused 17 (NotSettled): the range begins at 0, and the identifiers of argonne begin at 1")
    says("retire 1 3", 1, "refused 17 (NotSettled): 3.argonne can still begin")
    says("retire 1 2", 0, "")
    says("decline 2", 1, "refused 1 (UnknownJob): 2.argonne is no job that argonne knows")
    says("ann qmove 1", 1, "usage 1 (UnknownUtility): qmove is no utility: there are qsub, qalter, qhold, qrls, qdel and qstat")
    says("ann qsub -h -z 1", 1, "usage 2 (UnknownOption): qsub has no option -z")
    says("ann qsub -N a -l", 1, "usage 3 (MissingArgument): -l lacks its argument")
    says("ann qsub -l nodes=2,walltime=2h", 1, "usage 4 (BadValue): walltime=2h is no number of seconds from 1 to 10000000")
    says("ann qsub -hlnodes=0", 1, "usage 4 (BadValue): nodes=0 is no number of nodes from 1 to 1000000")
    says("ann qsub -l ncpus=2", 1, "usage 4 (BadValue): ncpus is no resource: there are nodes, walltime and sites")
    says("ann qalter -p 2000 3", 1, "usage 4 (BadValue): 2000 is no priority from -1024 to 1023")
    says("ann qhold -h x 3", 1, "usage 4 (BadValue): x is no list of holds: there are u, o and s")
    says("ann qsub -N 1a", 1, "usage 4 (BadValue): 1a is no name: a letter and up to 14 letters, digits, ., - and _")
    says("ann qdel 3 x", 1, "usage 5 (BadIdentifier): x is no identifier of a job, as 3 or 3.argonne")
    says("ann qdel 3 1.fermi", 1, "usage 6 (UnknownSite): 1.fermi names a site that the roster has not")
    says("ann qdel", 1, "usage 7 (MissingOperand): qdel names no job")
    asked.append(("\x07", "cannot be read\n", "cannot be read: the line has no form that this site knows", 1))
    lines = "".join(f"{line}\n" for line, *_ in asked).encode()
    sites.run("init", "served", "argonne", *TWO)
    found = sites.run("serve", "served", "--frames", text=lines)
    tally.same("all of these at once, in frames", found, (0, "".join(frame(status, answer, words) for _, answer, words, status in asked), ""))
    tally.same("their journal", sites.journal("served"), sites.journal("argonne"))
    sites.run("init", "untold", "argonne", *TWO)
    tally.same("and in lines", sites.run("serve", "untold", text=lines), (0, "".join(f"{answer}\n" for _, answer, *_ in asked), ""))
    sites.at("lemont", ["take"], sites.at("argonne", ["ship", "lemont"]).encode())
    found = sites.run("at", "lemont", "grant", "3.argonne", "lemont")
    tally.same("words of another site's grant", found, (1, "refused 5\n", "nettlebeam: refused 5 (NotOrigin): 3.argonne was submitted at argonne, which alone grants it\n"))


def utilities(tally, sites):
    """The six utilities as users call them."""
    sites.make(TWO)
    shutil.copytree(f"{TOP}/bin", f"{sites.folder}/bin")
    os.symlink(f"{TOP}/service", f"{sites.folder}/service")
    os.symlink(sites.program, f"{sites.folder}/bin/nettlebeam")
    environment = {**os.environ, "NETTLEBEAM_DIR": f"{sites.folder}/argonne"}

    def calls(words, status, output, errors, **more):
        utility, *others = words.split()
        done = subprocess.run([f"{sites.folder}/bin/{utility}", *others], capture_output=True, text=True, env={**environment, **more})
        tally.same(f"{words}, {more}", (done.returncode, done.stdout, done.stderr), (status, output, errors))

    calls("qsub -N render", 0, "1.argonne\n", "")
    calls("qalter -p 7 1", 0, "done\n", "")
    calls("qhold 1", 0, "done\n", "")
    calls("qhold -h s 1", 0, "done\n", "", NETTLEBEAM_ROLE="admin")
    user = subprocess.run(["id", "-un"], capture_output=True, text=True).stdout.strip()
    calls("qrls -h s 1", 1, "refused 2\n", f"nettlebeam: refused 2 (NotPermitted): {user}/operator may not release 1.argonne (kinds s), whose owner is {user}\n", NETTLEBEAM_ROLE="operator")
    calls("qstat 1", 0, f"{'1.argonne':18} {'render':16} {user:16} H      7        1      3600 -\n", "")
    calls("qdel 9", 1, "refused 1\n", "nettlebeam: refused 1 (UnknownJob): 9.argonne is no job that argonne knows\n")
    calls("qdel", 1, "usage 7\n", "nettlebeam: usage 7 (MissingOperand): qdel names no job\n")
    calls("qdel 1", 0, "done\n", "")
    calls("qstat", 2, "", "qstat: NETTLEBEAM_ROLE is neither operator nor admin: root\n", NETTLEBEAM_ROLE="root")
    calls("qstat", 3, "", f"nettlebeam: {sites.folder}/none: no site is there; nettlebeam init makes one\n", NETTLEBEAM_DIR=f"{sites.folder}/none")


def strangers(tally, sites):
    """Packets that are not taken."""
    three, others = ["argonne:8", "lemont:4", "batavia:2"], ["argonne:8", "lemont:4", "fermi:2", "sparks:1"]
    sites.make(three)
    sites.at("argonne", ["ann", "qsub"])
    first = sites.at("argonne", ["ship", "lemont"]).encode()
    sites.at("lemont", ["take"], first)
    sites.at("lemont", ["ann", "qsub"])
    sites.at("argonne", ["take"], sites.at("lemont", ["ship", "argonne"]).encode())
    sites.at("argonne", ["ann", "qsub"])
    # it was made for lemont, and leaves out the first job, which batavia lacks
    for_lemont = sites.at("argonne", ["ship", "lemont"]).encode()
    status, output, errors = sites.run("at", "batavia", "take", text=for_lemont)
    tally.same("gap", (status, output, errors.startswith("nettlebeam: gap")), (1, "gap argonne\n", True))
    sites.run("init", "again", "argonne", *three)
    status, output, errors = sites.run("at", "again", "take", text=sites.at("lemont", ["ship", "argonne"]).encode())
    tally.same("forgotten", (status, output, errors.startswith("nettlebeam: forgotten")), (1, "forgotten\n", True))
    sites.run("init", "sparks", "sparks", *others)
    sites.at("sparks", ["ann", "qsub"])
    status, output, errors = sites.run("at", "argonne", "take", text=sites.at("sparks", ["ship", "argonne"]).encode())
    tally.same("foreign", (status, output, errors.startswith("nettlebeam: foreign")), (1, "foreign\n", True))
    # who hands a packet in is its sender
    handed = sites.at("sparks", ["ship", "lemont"]), sites.at("argonne", ["ship", "lemont"]), sites.at("lemont", ["ship", "argonne"])
    for site, name, packet, status, output, words in (
        ("lemont", "fermi", handed[1], 1, "foreign\n", "foreign: "),
        ("lemont", "batavia", handed[1], 1, "not from batavia\n", "not from batavia: "),
        ("lemont", "argonne", handed[1], 0, "taken\n", ""),
        ("argonne", "batavia", handed[2], 1, "not from batavia\n", "not from batavia: "),
        ("argonne", "lemont", handed[2], 0, "known\n", ""),
        ("argonne", "batavia", handed[0], 1, "not from batavia\n", "not from batavia: "),
        ("argonne", "lemont", "{}\n", 1, "unread 3 whole 0\n", "unread 3 whole 0: "),
    ):
        before = sites.journal(site)
        line = f"take from {name} {packet}".encode()
        told = read_frame(io.BytesIO(sites.run("serve", "--frames", site, text=line)[1].encode()))
        tally.same(f"take from {name} at {site}", (told[:2], told[2].startswith(words)), ((status, output), True))
        tally.same(f"and what is kept of it", sites.journal(site) != before, status == 0)
        for words_of_line, text in ((("take",), f"from {name} {packet}"), (("take", "from", name), packet)):
            asked = sites.run("at", site, *words_of_line, text=text.encode())
            tally.same(f"{' '.join(words_of_line)} {name} at {site}, by at", (asked[0], asked[1] in (output, "known\n")), (status, True))
    status, found, _ = sites.run("at", "argonne", "take", "from", "le mont", text=handed[2].encode())
    tally.same("take from what is no word", (status, found), (1, "cannot be read\n"))
    for text, output in ([b"{}", "unread 3 whole 0\n"], [b"", "unread 1\n"], [b'{"format":4}\n', "unread 2 4\n"], [first + b"\n", "cannot be read\n"]):
        status, found, errors = sites.run("at", "argonne", "take", text=text)
        tally.same(f"take of {text[:20]}", (status, found, errors.count("\n")), (1, output, 1))


SCENES = {it.__name__: it for it in (scripts, one_site, words, utilities, strangers)}
