"""Scenes of sites by themselves on a disk: faults, `init`, streams, tails, full disks, many lines, kills."""
import os
import random
import subprocess
import time

from tests.playing import limited
from tests.site.disk_journals import SmallDisk, journal_of, read_journal
from tests.site.played import TWO, frame, read_frame


def faults(tally, sites):
    """Statuses 2 and 3, and their words."""
    place = f"{sites.folder}/argonne"

    def fails(what, status, part, *words, **how):
        found = sites.run(*words, **how)
        tally.same(what, (found[0], found[1], part in found[2], found[2].startswith("nettlebeam: ") or status == 2), (status, "", True, True))

    fails("no site", 3, "no site is there", "at", "argonne", "ann", "qstat")
    fails("no roster", 2, "the words name no roster", "init", "argonne", "argonne", "argonne:0")
    fails("another site", 2, "the words name no roster", "init", "argonne", "fermi", *TWO)
    fails("no word", 2, "Usage", "at", "argonne")
    fails("no command", 2, "Usage", "begin")
    sites.make(TWO[:1])
    fails("made twice", 3, "", "init", "argonne", "argonne", "argonne:8")
    os.mkdir(f"{sites.folder}/full")
    open(f"{sites.folder}/full/file", "w").close()
    fails("not empty", 3, "full: not empty", "init", "full", "argonne", "argonne:8")
    os.mkdir(f"{sites.folder}/begun")
    with open(f"{sites.folder}/begun/journal", "wb") as file:
        file.write(b"- half a head")
    fails("cut short", 3, "no entry is there", "at", "begun", "ann", "qsub")
    tally.same("made again", sites.run("init", "begun", "argonne", "argonne:8")[:2], (0, ""))
    with open(f"{place}/journal", "ab") as file:
        file.write(b" 0123 ann q")
    status, output, errors = sites.run("at", "argonne", "ann", "qsub")
    tally.same("a group that was cut", (status, output, "11 bytes" in errors and "journal.cut-1" in errors), (0, "1.argonne\n", True))
    with open(f"{place}/journal.cut-1", "rb") as file:
        tally.same("what was cut", file.read(), b" 0123 ann q")
    fails("a full disk", 3, "journal: ", "at", "argonne", "ann", "qsub", "-N", "n" * 15, "-l", "nodes=2,walltime=100", "-A", "a" * 15, "-p", "1000", preexec_fn=limited(FSIZE=120))
    tally.same("behind a full disk", sites.run("at", "argonne", "ann", "qsub")[:2], (0, "2.argonne\n"))
    journal = sites.journal("argonne")
    with open(f"{place}/journal", "wb") as file:
        file.write(journal.replace(b"ann qsub", b"bob qsub", 1))
    fails("damage", 3, "argonne/journal, line 2: damaged", "at", "argonne", "ann", "qsub")
    fails("damage, checked", 3, "argonne/journal, line 2: damaged", "check", "argonne")


def init(tally, sites):
    """The directory that is made, and what an `init` that was cut short has left."""
    status, *_ = sites.run("init", "argonne", "argonne", *TWO, preexec_fn=lambda: os.umask(0o002))
    tally.same("the directory's mode", (status, os.stat(f"{sites.folder}/argonne").st_mode & 0o777), (0, 0o700))
    os.mkdir(f"{sites.folder}/other")
    with open(f"{sites.folder}/other/journal", "wb") as file:
        file.write(b"- f935701589470944 nettlebeam 1 argonne argonne:8 lemont:4 batavia:")
    status, output, errors = sites.run("init", "other", "argonne", "argonne:8")
    tally.same("made in other words", (status, output, "66 bytes" in errors and "journal.cut-1" in errors), (0, "", True))
    with open(f"{sites.folder}/other/journal.cut-1", "rb") as file:
        tally.same("what was cut of a header", file.read(), b" f935701589470944 nettlebeam 1 argonne argonne:8 lemont:4 batavia:")
    tally.same("its first line", sites.run("at", "other", "ann", "qsub"), (0, "1.argonne\n", ""))
    sites.run("serve", "argonne", text=b"ann qsub\n" * 20)
    closed = b"-" + sites.journal("argonne")[1:]
    with open(f"{sites.folder}/argonne/journal", "wb") as file:
        file.write(closed)
    status, output, errors = sites.run("init", "argonne", "argonne", *TWO)
    tally.same("made over a long journal", (status, output, "a site is there already" in errors), (3, "", True))
    tally.same("the long journal", (sites.journal("argonne"), os.listdir(f"{sites.folder}/argonne")), (closed, ["journal"]))


def streams(tally, sites):
    """Standard streams that are closed, slow, full or cut."""
    sites.make(TWO)
    for number, closed in enumerate(("0<&-", "1>&-", "2>&-", "0<&- 1>&- 2>&-")):
        # the second job is another user's, so that there are words beside what is kept
        sites.run("serve", "argonne", text=b"ann qsub\nbob qsub\n")
        line = f"ann qdel {4 * number + 1} {4 * number + 2}"
        subprocess.run(["sh", "-c", f'exec "$0" at argonne {line} {closed}', sites.program], capture_output=True, cwd=sites.folder, check=False)
        entries = sites.journal("argonne").count(b"\n+ ") + 1
        tally.same(f"the journal behind {closed}", (sites.run("check", "argonne")[0], entries), (0, 4 + 4 * number))
        sites.run("at", "argonne", "ann", "qsub")
    with subprocess.Popen([sites.program, "at", "lemont", "take"], stdin=subprocess.PIPE, stdout=subprocess.PIPE, cwd=sites.folder) as slow:
        time.sleep(0.3)
        start = time.time()
        tally.same("beside a slow input", (sites.run("at", "lemont", "ann", "qstat")[0], time.time() - start < 5), (0, True))
        tally.same("the slow input", slow.communicate(sites.at("argonne", ["ship", "lemont"]).encode())[0], b"taken\n")
    with open("/dev/full", "w", encoding="ascii") as full:
        done = subprocess.run([sites.program, "serve", "lemont"], input=b"ann qsub\n", stdout=full, stderr=subprocess.PIPE, cwd=sites.folder, check=False)
    tally.same("answers that can't be written", (done.returncode, b"standard output: " in done.stderr, b"is kept" in done.stderr), (3, True, True))
    sites.run("init", "again", "argonne", *TWO)
    found = sites.run("serve", "again", "--frames", text=b"ann qsub\nann qdel 1")
    told = frame(1, "cannot be read\n", "cannot be read: the line has no form that this site knows")
    tally.same("a line that was cut", found, (0, frame(0, "1.argonne\n") + told, ""))
    tally.same("what it would have deleted", sites.at("again", ["why", "1", "0"]), "starts\n")


def tails(tally, sites):
    """What was left behind the gate twice, each of which is kept; and once without room for it, of which no part is."""
    sites.make(TWO[:1])
    for number, tail in ((1, b" 0123 ann q"), (2, b" 4567 bob")):
        with open(f"{sites.folder}/argonne/journal", "ab") as file:
            file.write(tail)
        tally.same(f"check of tail {number}", sites.run("check", "argonne")[1].split(", ")[-1], f"unfinished bytes {len(tail)}\n")
        tally.same(f"opened behind tail {number}", sites.run("at", "argonne", "ann", "qsub")[:2], (0, f"{number}.argonne\n"))
        with open(f"{sites.folder}/argonne/journal.cut-{number}", "rb") as file:
            tally.same(f"tail {number}", file.read(), tail)
    tail = b" 89ab " + 3_000 * b"x"
    with open(f"{sites.folder}/argonne/journal", "ab") as file:
        file.write(tail)
    for words, status in ((["ann", "qstat"], 0), (["ann", "qsub"], 3)) * 2:
        found = sites.run("at", "argonne", *words, preexec_fn=limited(FSIZE=1_000))
        tally.same(f"{words[1]} without room for the tail: {found[2]!r}", found[0], status)
    kept = sorted(name for name in os.listdir(f"{sites.folder}/argonne") if name.startswith("journal.cut-"))
    tally.same("no part of it is kept", (kept, sites.journal("argonne").endswith(tail)), (["journal.cut-1", "journal.cut-2"], True))
    tally.same("with room", sites.run("at", "argonne", "ann", "qsub")[:2], (0, "3.argonne\n"))
    with open(f"{sites.folder}/argonne/journal.cut-3", "rb") as file:
        tally.same("the tail", file.read(), tail)


def unkept_entries(tally, sites):
    """An entry that the site wouldn't keep there, with its right digest, is told by its line, and nothing is answered or changed.
    A journal of format 1 opens and goes on."""
    sites.make(TWO)
    sites.run("serve", "argonne", text=b"ann qsub\nann qsub -l nodes=2\n")
    header, *lines = read_journal(sites.journal("argonne"))[0]
    os.mkdir(f"{sites.folder}/other")
    for line in (b"this is no line at all", b"retire qsub -l nodes=2", b"ann qstat", b"ann qdel 9", b"", b"roster argonne:8 lemont:4", b"take {}"):
        for place in range(3):
            journal = journal_of([header, *lines[:place], line, *lines[place:]])
            with open(f"{sites.folder}/other/journal", "wb") as file:
                file.write(journal)
            for words in (["check", "other"], ["at", "other", "ann", "qsub"], ["compact", "other"]):
                status, output, errors = sites.run(*words)
                told = f"other/journal, line {place + 2}: it isn't done as it was when it was kept" in errors
                tally.same(f"{line!r} at {place}: {words[0]}: {errors!r}", (status, output, told, sites.journal("other") == journal), (3, "", True, True))
    with open(f"{sites.folder}/other/journal", "wb") as file:
        file.write(journal_of([header.replace(b" 3 ", b" 1 ", 1), *lines]))
    tally.same("a journal of format 1", (sites.seen("other"), sites.at("other", ["ann", "qsub"])), (sites.seen("argonne"), "3.argonne\n"))


def tails_of_serve(tally, sites):
    """What a write that failed in its middle left behind the gate is kept, also by a `serve` that goes on."""
    sites.make(TWO[:1])
    line = b"ann qsub -N a-job-of-15-let -A account-of-15-l\n"
    status, output, errors = sites.run("serve", "argonne", text=line * 100, preexec_fn=limited(FSIZE=2000))
    tally.same(f"none of a group is kept: {errors!r}", (status, output), (0, "not kept\n\n" * 100))
    with open(f"{sites.folder}/argonne/journal.cut-1", "rb") as file:
        cut = file.read()
    tally.same("what was cut of it", (len(cut) + len(sites.journal("argonne")), cut[18:].startswith(line)), (2000, True))
    tally.true("and said", f"{len(cut)} bytes that were never answered are cut, and kept in journal.cut-1" in errors)
    tally.same("the site goes on", sites.run("at", "argonne", "ann", "qsub")[:2], (0, "1.argonne\n"))


def rotted_gate(tally, sites):
    """A disk that fails a write and then gives a byte of the journal wrong, without room for a copy: nothing that was
    answered is cut."""
    shim = f"{sites.folder}/rot_gate.so"
    source = os.path.join(os.path.dirname(os.path.abspath(__file__)), "rot_gate.c")
    compiler = [os.environ.get("CC", "cc"), "-O2", "-shared", "-fPIC", "-o", shim, source, "-ldl"]
    tally.same("the shim is compiled", subprocess.run(compiler, check=False).returncode, 0)
    sites.make(TWO)
    sites.run("serve", "argonne", text=b"ann qsub\n" * 8)
    journal = sites.journal("argonne")
    status, output, errors = sites.run("serve", "argonne", text=b"ann qsub\n", env={**os.environ, "LD_PRELOAD": shim})
    tally.same("the line that wasn't kept", output, "not kept\n\n")
    tally.same(f"the program ends: {errors!r}", (status, "No space left on device" in errors), (3, True))
    tally.same("the journal", sites.journal("argonne"), journal)
    tally.same("goes on", sites.run("at", "argonne", "ann", "qsub"), (0, "9.argonne\n", ""))


def full_disk(tally, sites):
    """A disk without room: what keeps nothing is answered, and `serve` goes on."""
    try:
        disk = SmallDisk(f"{sites.folder}/disk")
    except OSError as fault:
        tally.fail(f"not tried, since {fault}")
        return
    try:
        sites.run("init", "disk/argonne", "argonne", *TWO)
        answers = []
        with subprocess.Popen([sites.program, "serve", "--frames", "disk/argonne"], stdin=subprocess.PIPE, stdout=subprocess.PIPE, stderr=subprocess.PIPE, cwd=sites.folder) as serve:

            def ask(line):
                serve.stdin.write(line + b"\n")
                serve.stdin.flush()
                answers.append(read_frame(serve.stdout))
                return answers[-1][1]

            disk.fill(0)
            count = 0
            while ask(b"ann qsub") == f"{count + 1}.argonne\n" and count < 1_000:
                count += 1
            words = "No space left on device (os error 28); neither this line is done nor another that came with it"
            tally.same("a line that isn't kept", answers[-1], (3, "not kept\n", f"not kept: {words}"))
            tally.same("a listing beside it", ask(b"ann qstat").count("\n"), count)
            tally.same("and another line that isn't kept", ask(b"ann qsub").split("\n")[0], "not kept")
            disk.empty()
            tally.same("a line once there is room", ask(b"ann qsub"), f"{count + 1}.argonne\n")
            serve.stdin.close()
            tally.same("serve on a full disk", (serve.wait(), serve.stderr.read().decode().count("they are answered `not kept`")), (0, 2))
        entries = sites.journal("disk/argonne").count(b"\n+ ") + 1
        tally.same("its journal", (sites.run("check", "disk/argonne")[0], entries), (0, count + 2))
        with open(f"{sites.folder}/disk/argonne/journal", "ab") as file:
            file.write(b" 0123 ann q")
        disk.fill(0)
        status, output, _ = sites.run("at", "disk/argonne", "ann", "qstat")
        tally.same("a listing where a tail can't be kept", (status, output.count("\n")), (0, count + 1))
        tally.same("what would be kept there", sites.run("at", "disk/argonne", "ann", "qsub")[:2], (3, ""))
        tally.same("the tail", sites.journal("disk/argonne")[-11:], b" 0123 ann q")
        disk.empty()
        tally.same("once there is room", sites.run("at", "disk/argonne", "ann", "qsub")[:2], (0, f"{count + 2}.argonne\n"))
    finally:
        disk.unmount()


def large_packet(tally, sites):
    """A packet of more bytes than another line may have, which a site gets that was never heard; and one that is too long."""
    roster = [f"site{number}:8" for number in range(16)]
    names = [entry.split(":")[0] for entry in roster]
    for name in names:
        sites.run("init", name, name, *roster)
    line = b"ann-a-long-name qsub -h -N a-job-of-15-let -A account-of-15-l -p 1000 -l nodes=1000000,walltime=10000000,sites=" + b"+".join(name.encode() for name in names)
    letters = []
    for name in names[1:-1]:
        sites.run("serve", name, text=(line + b"\n") * 10_000)
        letters.append(b"take " + sites.run("at", name, "ship", names[0])[1].encode())
    answers = sites.run("serve", names[0], text=b"".join(letters) + f"ship {names[-1]}\n".encode())[1].split("\n\n")
    tally.same("packets of 14 sites", answers[:14], ["taken"] * 14)
    packet = answers[14].encode()
    tally.same("a packet of over 67,108,864 bytes", len(packet) > 67_108_864, True)
    tally.same("taken by at", sites.run("at", names[-1], "take", text=packet)[:2], (0, "taken\n"))
    tally.same("taken by serve", sites.run("serve", names[-1], text=b"take " + packet + b"\n"), (0, "known\n\n", ""))
    tally.same("what it knows then", sites.run("check", names[-1])[1].split(", ")[-2], "jobs 140000")
    with open(f"{sites.folder}/long", "wb") as file:
        file.truncate(1_073_741_820)
    with open(f"{sites.folder}/long", "rb") as file:
        done = subprocess.run([sites.program, "at", names[-1], "take"], stdin=file, capture_output=True, cwd=sites.folder, check=False)
    tally.same("a packet that is too long", (done.returncode, done.stdout), (1, b"cannot be read\n"))


def at_once(tally, sites):
    """Two processes at the same moment, and a lock that is held."""
    sites.make(TWO)
    names = []
    for _ in range(200):
        both = [subprocess.Popen([sites.program, "at", "argonne", "ann", "qsub"], stdout=subprocess.PIPE, cwd=sites.folder) for _ in range(2)]
        names += [it.communicate()[0].decode() for it in both]
    tally.same("two at once, 200 times", sorted(names), sorted(f"{k}.argonne\n" for k in range(1, 401)))
    sites.serve("lemont", ["ann", "qstat"])
    start = time.time()
    status, output, errors = sites.run("at", "lemont", "ann", "qstat")
    tally.same("in use", (status, output, "in use by another process" in errors, 9 < time.time() - start < 30), (3, "", True, True))
    sites.close()


def long_lines(tally, sites):
    """Lines of the most bytes that a line may have, and of more."""
    sites.make(TWO[:1])
    for count, answer in ((67_108_864, "\n"), (67_108_865, "cannot be read\n\n"), (67_300_000, "cannot be read\n\n")):
        found = sites.run("serve", "argonne", text=b" " * count + b"\nann qstat\n")
        tally.same(f"a line of {count} bytes", found, (0, answer + "\n", ""))


def many(tally, sites):
    """10,000 lines at once, and kills at random moments."""
    sites.make(TWO)
    status, output, _ = sites.run("serve", "argonne", text=b"ann qsub\n" * 10_000)
    tally.same("10,000 lines", (status, output), (0, "".join(f"{k}.argonne\n\n" for k in range(1, 10_001))))
    pick = random.Random(1)
    for k in range(100):
        serve = subprocess.Popen([sites.program, "serve", "lemont"], stdin=subprocess.PIPE, stdout=subprocess.PIPE, cwd=sites.folder)
        os.set_blocking(serve.stdin.fileno(), False)
        os.write(serve.stdin.fileno(), b"ann qsub\n" * 1000)
        time.sleep(pick.random() * 0.02)
        serve.kill()
        answered = [it for it in serve.stdout.read().decode().split("\n\n")[:-1] if it.endswith(".lemont")]
        serve.wait()
        kept = sites.journal("lemont").count(b" ann qsub\n")
        if answered and int(answered[-1].split(".")[0]) > kept:
            tally.same(f"kill {k}", answered[-1], f"at most {kept}.lemont")
    tally.same("check behind 100 kills", sites.run("check", "lemont")[0], 0)


SCENES = {it.__name__: it for it in (faults, init, streams, tails, unkept_entries, tails_of_serve, rotted_gate, full_disk, long_lines, large_packet, at_once, many)}
