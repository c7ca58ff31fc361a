"""Scenes of journals that are compacted: what stands for the same site, what goes on, and what keeps it from being done."""
import json
import os
import pwd
import re
import shutil
import subprocess
import time

from tests.playing import limited
from tests.site.disk_journals import Damaged, SmallDisk, journal_of, read_journal
from tests.site.played import TWO, Sites, frame

THREE = ["argonne:8", "lemont:4", "batavia:2"]
DONE = re.compile(r"compacted: ([0-9]+) bytes before, ([0-9]+) now\n")
NOT_SHORTER = re.compile(r"not compacted: ([0-9]+) bytes, ([0-9]+) if it were\n")
ALTERATIONS = b"".join(b"ann qalter -p %d 1\n" % (k % 1000) for k in range(400))
AT_ARGONNE = b"ann qsub\nann qsub -l nodes=2 -A chem\nbob qsub -h\nann qsub\noz/operator reserve argonne 50 60 8\ngrant 2 argonne\nbegin 2 0\ngrant 4 argonne\nbegin 4 5\nfinish 4 9 7\n"
AT_LEMONT = b"cy qsub -N far\ncy qsub -l sites=argonne\ncy qhold 2\noz/operator reserve lemont 70 80 1\n"
ZEROS = [0] * 16


def told_of(sites, site):
    """All that a site tells of what it holds, and the packets that it would ship."""
    looks = ["jobs", "seen", "ann qstat -f", "reservations", "machine 55", "plan 55", "chart 0", "ship argonne", "ship lemont"]
    return [sites.at(site, line.split()) for line in looks]


def compacted(tally, sites, site, what, *options):
    """Has a journal compacted, which has to be shorter then, and gives how many bytes it has."""
    before = len(sites.journal(site))
    status, output, errors = sites.run("compact", *options, site)
    match = DONE.fullmatch(output)
    tally.same(f"{what}: {output!r} {errors!r}", (status, bool(match), errors), (0, True, ""))
    after = len(sites.journal(site))
    if match:
        tally.same(f"{what}: its bytes", (int(match[1]), int(match[2])), (before, after))
    tally.true(f"{what}: it is shorter", after < before)
    return after


def refused(tally, sites, what, site, part=": not compacted: ", *options, **how):
    """Sees that a compaction isn't done, and why, and that nothing has changed."""
    path = f"{sites.folder}/{site}/journal"
    before, held = sites.journal(site), os.lstat(path)
    status, output, errors = sites.run("compact", *options, site, **how)
    tally.same(f"{what}: {errors!r}", (status, output, errors.startswith("nettlebeam: ") and part in errors, errors.count("\n")), (3, "", True, 1))
    tally.same(f"{what}: the journal", (sites.journal(site), os.lstat(path).st_ino), (before, held.st_ino))


def busy(sites, roster=THREE):
    """Sites that have heard of each other: holds, grants, a job that runs, one that is done, reservations."""
    for entry in roster:
        sites.run("init", entry.split(":")[0], entry.split(":")[0], *roster)
    sites.run("serve", "argonne", text=AT_ARGONNE)
    sites.run("serve", "lemont", text=AT_LEMONT)
    for one, other in (("lemont", "argonne"), ("argonne", "lemont"), ("lemont", "argonne")):
        sites.at(other, ["take"], sites.at(one, ["ship", other]).encode())
    sites.run("serve", "argonne", text=ALTERATIONS)


def compact(tally, sites):
    """A journal that is compacted stands for the same site, goes on, and is compacted again."""
    busy(sites)
    held, seen = told_of(sites, "argonne"), sites.seen("argonne")
    late = sites.at("lemont", ["ship", "argonne"]).encode()
    compacted(tally, sites, "argonne", "the first")
    journal = sites.journal("argonne")
    entries, tail = read_journal(journal)
    tally.same("its first entry", entries[0], b"nettlebeam 4 " + " ".join(["argonne", *THREE]).encode())
    packet, heard = json.loads(entries[1]), json.loads(entries[3][len("take ") :])
    tally.same("its second is a packet of its own that needs nothing", (packet["sender"], packet["need"]), (0, ZEROS))
    tally.same("and has all jobs and reservations", (len(packet["jobs"]), len(packet["reservations"])), (6, 2))
    wanted = (5, b"", b"take ", b"", 1, [], [], heard["reached"], b"")
    tally.same("then what was heard of lemont", (len(entries), entries[2], entries[3][:5], entries[4], heard["sender"], heard["jobs"], heard["reservations"], heard["need"], tail), wanted)
    told = "entries 5 (compacted), seen " + seen.split("seen ")[1] + ", jobs 6, unfinished bytes 0\n"
    tally.same("check", sites.run("check", "argonne"), (0, told, ""))
    tally.same("what it tells", told_of(sites, "argonne"), held)
    tally.same("which changed nothing", sites.journal("argonne"), journal)
    status, output, errors = sites.run("compact", "argonne")
    size = str(len(journal))
    tally.same("at once again", (status, NOT_SHORTER.fullmatch(output).groups(), errors, sites.journal("argonne")), (0, (size, size), "", journal))
    tally.same("an old packet", sites.at("argonne", ["take"], late), "known\n")
    count = int(seen.split("argonne ")[1].split(" ")[0])
    tally.same("its next job, by serve", sites.run("serve", "argonne", text=b"ann qsub\n"), (0, f"{count + 1}.argonne\n\n", ""))
    tally.same("and by at", sites.at("argonne", ["ann", "qsub"]), f"{count + 2}.argonne\n")
    tally.same("the entries go on", (read_journal(sites.journal("argonne"))[0][:5], len(read_journal(sites.journal("argonne"))[0])), (entries, 8))
    tally.same("a hold that lemont releases", [sites.at("lemont", ["cy", "qrls", "2"]), sites.at("argonne", ["take"], sites.at("lemont", ["ship", "argonne"]).encode())], ["done\n", "taken\n"])
    tally.same("lemont takes its packet", sites.at("lemont", ["take"], sites.at("argonne", ["ship", "lemont"]).encode()), "taken\n")
    tally.same("both tell the same jobs", sites.at("lemont", ["jobs"]), sites.at("argonne", ["jobs"]))
    sites.run("serve", "argonne", text=ALTERATIONS)
    held = told_of(sites, "argonne")
    compacted(tally, sites, "argonne", "the second")
    tally.same("what it tells then", told_of(sites, "argonne"), held)
    compacted(tally, sites, "lemont", "another site's") if len(sites.journal("lemont")) > 5000 else None
    tally.same("batavia, which has heard of nobody", sites.at("batavia", ["take"], sites.at("argonne", ["ship", "batavia"]).encode()), "taken\n")


def young(tally, sites):
    """A young journal would be longer; then nothing is done. Words that ask nothing, and directories without a site."""
    sites.make(TWO)
    sites.at("argonne", ["ann", "qsub"])
    journal = sites.journal("argonne")
    status, output, errors = sites.run("compact", "argonne")
    match = NOT_SHORTER.fullmatch(output)
    tally.same(f"a young journal: {output!r}", (status, bool(match), errors, sites.journal("argonne")), (0, True, "", journal))
    if match:
        tally.true("it tells its bytes", int(match[1]) == len(journal) <= int(match[2]))
    tally.same("at never compacts", sites.run("serve", "argonne", text=ALTERATIONS)[0] or sites.at("argonne", ["ann", "qsub"]), "402.argonne\n")
    tally.same("so it begins as before", sites.journal("argonne")[: len(journal) - 1], journal[:-1])
    for words in (["compact"], ["compact", "--keep"], ["compact", "--keep", "x"], ["compact", "--frames", "argonne"], ["check", "--keep", "x", "argonne"], ["compact", "argonne", "lemont"]):
        tally.same(f"{words}", sites.run(*words)[:2], (2, ""))
    status, output, errors = sites.run("compact", "nowhere")
    tally.same("no site", (status, output, errors), (3, "", "nettlebeam: nowhere: no site is there; nettlebeam init makes one\n"))
    with open(f"{sites.folder}/lemont/journal", "wb") as file:
        file.write(journal.replace(b"ann qsub", b"bob qsub"))
    status, output, errors = sites.run("compact", "lemont")
    tally.same("a damaged journal", (status, output, "lemont/journal, line 2: damaged" in errors), (3, "", True))
    with open(f"{sites.folder}/argonne/journal", "ab") as file:
        file.write(b" 0123 ann q")
    status, output, errors = sites.run("compact", "argonne")
    tally.same("behind a crash", (status, output.startswith("compacted: "), "11 bytes" in errors and "journal.cut-1" in errors), (0, True, True))
    with open(f"{sites.folder}/argonne/journal.cut-1", "rb") as file:
        tally.same("what was cut", file.read(), b" 0123 ann q")


def keeping(tally, sites):
    """The old journal is kept in a file that isn't there yet."""
    busy(sites)
    journal, seen = sites.journal("argonne"), sites.seen("argonne")
    compacted(tally, sites, "argonne", "with --keep", "--keep", "old")
    kept = f"{sites.folder}/old"
    with open(kept, "rb") as file:
        tally.same("the old journal", file.read(), journal)
    tally.same("is for its owner alone", os.stat(kept).st_mode & 0o777, 0o600)
    os.mkdir(f"{sites.folder}/kept")
    shutil.copy(kept, f"{sites.folder}/kept/journal")
    tally.same("it opens, and has as much", (sites.seen("kept"), sites.run("check", "kept")[1].split(",")[0]), (seen, f"entries {journal.count(bytes([10]))}"))
    sites.run("serve", "argonne", text=ALTERATIONS)
    refused(tally, sites, "a file that is there", "argonne", "nettlebeam: old: ", "--keep", "old")
    with open(kept, "rb") as file:
        tally.same("which stays as it was", file.read(), journal)
    refused(tally, sites, "a folder that isn't there", "argonne", "nettlebeam: none/old: ", "--keep", "none/old")
    refused(tally, sites, "a disk without room for it", "argonne", "nettlebeam: older: ", "--keep", "older", preexec_fn=limited(FSIZE=1000))
    tally.true("which leaves no file", not os.path.exists(f"{sites.folder}/older"))
    refused(tally, sites, "the name of a new journal", "argonne", "nettlebeam: argonne/journal.new: ", "--keep", "argonne/journal.new")
    tally.true("which isn't made", not os.path.exists(f"{sites.folder}/argonne/journal.new"))
    os.rename(f"{sites.folder}/argonne/journal", f"{sites.folder}/elsewhere")
    os.symlink(f"{sites.folder}/elsewhere", f"{sites.folder}/argonne/journal")
    refused(tally, sites, "a copy of a journal that stays", "argonne", ": not compacted: ", "--keep", "older")
    tally.true("which doesn't stay", not os.path.exists(f"{sites.folder}/older"))


def obstacles(tally, sites):
    """Where no second file can be made the journal stays, and the site goes on."""
    busy(sites)
    sites.run("serve", "lemont", text=b"cy qalter -p 3 1\n" * 400)
    held, path = told_of(sites, "argonne"), f"{sites.folder}/argonne/journal"
    refused(tally, sites, "a file may have 500 bytes", "argonne", preexec_fn=limited(FSIZE=500))
    if os.path.exists(f"{path}.new"):
        os.remove(f"{path}.new")
    os.mkdir(f"{path}.new")
    refused(tally, sites, "a folder of the new file's name", "argonne")
    os.rmdir(f"{path}.new")
    os.rename(path, f"{sites.folder}/elsewhere")
    os.symlink(f"{sites.folder}/elsewhere", path)
    refused(tally, sites, "a symbolic link", "argonne")
    tally.true("which stays one", os.path.islink(path))
    tally.same("and is used", told_of(sites, "argonne"), held)
    serve = sites.run("serve", "argonne", text=long_lines())
    tally.same("serve there answers all", (serve[0], serve[1].count("\n\n")), (0, LONG))
    tally.same(f"and tells once that it isn't compacted: {serve[2]!r}", (serve[2].count("not compacted: "), serve[2].count("\n")), (1, 1))
    os.remove(path)
    os.rename(f"{sites.folder}/elsewhere", path)
    os.chmod(f"{sites.folder}/lemont/journal", 0o640)
    compacted(tally, sites, "lemont", "a file that a group may read")
    tally.same("its mode stays", os.stat(f"{sites.folder}/lemont/journal").st_mode & 0o7777, 0o640)


def left_by_a_crash(tally, sites):
    """What a crash has left of a compaction is removed by the next one."""
    busy(sites)
    path = f"{sites.folder}/argonne/journal"
    compacted(tally, sites, "argonne", "the first")
    new = sites.journal("argonne")
    sectors = bytes(512) + new[512:]
    for number, stale in enumerate((b"", b"+ ", new[:40], new[:700], new, sectors, bytes(3_000_000), new.replace(b"nettlebeam 4", b"nettlebeam 2", 1))):
        with open(f"{path}.new", "wb") as file:
            file.write(stale)
        tally.same("what a crash has left says nothing", sites.run("check", "argonne")[0], 0)
        sites.run("serve", "--keep-history", "argonne", text=ALTERATIONS)
        compacted(tally, sites, "argonne", f"over what a crash has left, {number}")
        tally.same("and is gone then", sorted(os.listdir(f"{sites.folder}/argonne")), ["journal"])


def others_files(tally, sites):
    """Another file that has the name of a new journal stays, and the journal isn't compacted: it isn't a file, it doesn't begin
    as a journal of this site, or it is another user's. `serve` says so once, and goes on."""
    busy(sites)
    path = f"{sites.folder}/argonne/journal.new"
    part = "argonne/journal: not compacted: journal.new is there, and no compaction of this site has left it; nothing is changed"
    lemont = sites.journal("lemont")

    def stays(what, *options):
        refused(tally, sites, what, "argonne", part, *options)
        tally.true(f"{what} is there", os.path.lexists(path))

    for what, other in (("a text", b"another file\n"), ("half a line", b"+ half of a new journal"), ("a word", b"-"), ("random bytes", os.urandom(3_000_000)), ("another site's journal", lemont), ("a site of a longer name", lemont.replace(b" lemont ", b" argonne2 ", 1))):
        with open(path, "wb") as file:
            file.write(other)
        stays(what)
        stays(f"{what}, and a copy", "--keep", "old")
        tally.true("of which there is none", not os.path.exists(f"{sites.folder}/old"))
        with open(path, "rb") as file:
            tally.same(f"{what} is as it was", file.read(), other)
    found = sites.run("serve", "argonne", text=long_lines())
    tally.same("serve answers all", (found[0], found[1].count("\n\n")), (0, LONG))
    tally.same(f"and tells it once: {found[2]!r}", (found[2].count(part), found[2].count("\n")), (1, 1))
    os.remove(path)
    os.mkdir(path)
    stays("a folder")
    os.rmdir(path)
    with open(f"{sites.folder}/precious", "wb") as file:
        file.write(b"")
    os.symlink(f"{sites.folder}/precious", path)
    stays("a symbolic link")
    os.remove(path)
    with open(path, "wb") as file:
        file.write(sites.journal("argonne").replace(b"nettlebeam 3", b"nettlebeam 4", 1)[:100])
    if not os.getuid():
        os.chown(path, 12345, 12345)
        stays("another user's file")
        os.chown(path, 0, 0)
    compacted(tally, sites, "argonne", "over this site's own")


def renames_that_fail(tally, sites):
    """Where the new journal can't get the name, `serve` says so, and answers all. The name is a mount point here."""
    sites.make(TWO)
    path = f"{sites.folder}/argonne/journal"
    if subprocess.run(["mount", "--bind", path, path], stderr=subprocess.DEVNULL, check=False).returncode:
        tally.fail("this needs root, since a file is mounted")
        return
    try:
        status, output, errors = sites.run("serve", "argonne", text=long_lines())
        tally.same("all is answered", (status, output.count("\n\n")), (0, LONG))
        tally.same(f"and told once: {errors!r}", (errors.count("both stand for the same site"), errors.count("\n")), (1, 1))
    finally:
        subprocess.run(["umount", path], check=False)
    tally.same("its entries", len(read_journal(sites.journal("argonne"))[0]), LONG + 1)
    compacted(tally, sites, "argonne", "once it can")


def other_owners(tally, sites):
    """A journal of another user stays that user's."""
    if os.getuid():
        tally.fail("this needs root, since other users are played by setpriv")
        return
    busy(sites)
    nobody, path = pwd.getpwnam("nobody"), f"{sites.folder}/argonne/journal"
    os.chown(path, nobody.pw_uid, nobody.pw_gid)
    before, held = sites.journal("argonne"), told_of(sites, "argonne")
    status, output, _ = sites.run("compact", "argonne")
    tally.same(f"by root: {output!r}", (status, sites.journal("argonne") == before), (3, True) if status else (0, False))
    tally.same("its owner", (os.stat(path).st_uid, os.stat(path).st_gid), (nobody.pw_uid, nobody.pw_gid))
    tally.same("what it holds", told_of(sites, "argonne"), held)
    for name in (sites.folder, f"{sites.folder}/argonne"):
        os.chmod(name, 0o755)
    sites.run("serve", "argonne", text=ALTERATIONS)
    place = f"{sites.folder}/program"
    shutil.copy(sites.program, place)
    os.chmod(place, 0o755)
    as_nobody = Sites(tally, "setpriv", sites.folder)
    before = sites.journal("argonne")
    words = [f"--reuid={nobody.pw_uid}", f"--regid={nobody.pw_gid}", "--clear-groups", place, "compact", "argonne"]
    status, output, errors = as_nobody.run(*words)
    tally.same(f"without leave to make a file: {errors!r}", (status, output, ": not compacted: " in errors), (3, "", True))
    tally.same("the journal", sites.journal("argonne"), before)


def compact_full(tally, sites):
    """A disk without room for a second file."""
    disk = SmallDisk(f"{sites.folder}/disk")
    try:
        sites.run("init", "disk/argonne", "argonne", *TWO)
        sites.run("serve", "disk/argonne", text=b"ann qsub\n" + 10 * ALTERATIONS)
        held = told_of(sites, "disk/argonne")
        disk.fill(0)
        refused(tally, sites, "a full disk", "disk/argonne")
        refused(tally, sites, "a full disk, kept there", "disk/argonne", "nettlebeam: disk/old: ", "--keep", "disk/old")
        tally.same("what it holds", told_of(sites, "disk/argonne"), held)
        disk.empty()
        compacted(tally, sites, "disk/argonne", "once there is room", "--keep", "older")
        tally.same("what it holds then", told_of(sites, "disk/argonne"), held)
    finally:
        disk.unmount()


LONG = 15_000  # lines, of which each but the first few adds over 75 bytes to a journal


def long_lines():
    """Lines that alter one of three jobs, so that a journal grows beyond a mebibyte and is much longer than what it holds."""
    return b"ann qsub\n" * 3 + b"".join(b"ann qalter -N a-job-of-15-let -A account-of-15-l -p %d 1\n" % (k % 1000) for k in range(LONG - 3))


def serve_compacts(tally, sites):
    """`serve` compacts by itself where the journal is long, and never with --keep-history; its answers are the same."""
    for name in ("short", "kept", "told"):
        sites.run("init", name, "argonne", *TWO)
    found = {name: sites.run("serve", *options, name, text=long_lines()) for name, options in (("short", []), ("kept", ["--keep-history"]), ("told", ["--keep-history", "--frames"]))}
    tally.same("status and words", [(it[0], it[2]) for it in found.values()], [(0, "")] * 3)
    tally.same("the answers without a pause", found["kept"][1], found["short"][1])
    answers = found["kept"][1].split("\n\n")[:-1]
    tally.true("frames have the same answers", found["told"][1] == "".join(frame(int(it.startswith("refused")), it + "\n") for it in answers))
    tally.same("the history", sites.journal("kept").count(b"\n"), LONG + 1)
    entries = read_journal(sites.journal("short"))[0]
    tally.same("the compacted one", (entries[0].split()[1], 0 < len(sites.journal("short")) < 1_300_000), (b"4", True))
    tally.same("both hold the same", told_of(sites, "short"), told_of(sites, "kept"))
    sites.run("serve", "short", text=b"ann qsub\n")
    tally.same("a short one is left", read_journal(sites.journal("short"))[0][: len(entries)], entries)
    sites.run("serve", "kept", text=b"ann qsub\n")
    tally.same("a long one is compacted by the next serve", read_journal(sites.journal("kept"))[0][0].split()[1], b"4")
    tally.same("both hold the same again", told_of(sites, "kept"), told_of(sites, "short"))


def compact_at_once(tally, sites, rounds=40):
    """Others wait for the directory while its journal is replaced under them; none of them is lost."""
    sites.make(TWO)
    names, where = [], {"stdout": subprocess.PIPE, "stderr": subprocess.PIPE, "cwd": sites.folder}
    done = 0
    for number in range(rounds):
        sites.run("serve", "--keep-history", "argonne", text=ALTERATIONS)
        holder = subprocess.Popen([sites.program, "serve", "argonne"], stdin=subprocess.PIPE, **where)
        holder.stdin.write(b"ann qsub\n")
        holder.stdin.flush()
        names.append(holder.stdout.readline().decode())
        waiting = [subprocess.Popen([sites.program, *words], **where) for words in (["compact", "argonne"], ["at", "argonne", "ann", "qsub"], ["at", "argonne", "ann", "qsub"], ["compact", "argonne"])]
        time.sleep(0.02 * (number % 4))
        holder.communicate()
        ends = [it.communicate() for it in waiting]
        tally.same(f"round {number}: {ends}", [it.returncode for it in waiting], [0] * 4)
        names += [ends[1][0].decode(), ends[2][0].decode()]
        done += sum(ends[it][0].startswith(b"compacted") for it in (0, 3))
    tally.same("each has a name of its own", len({*names}), 3 * rounds)
    known = [json.loads(line)["id"] for line in sites.at("argonne", ["jobs"]).splitlines()]
    tally.same("and is there", sorted(known), sorted(name.strip() for name in names))
    # but in the first round, whose alterations are of no job
    tally.true(f"journals were compacted: {done}", done >= rounds - 1)
    sites.serve("argonne", ["ann", "qstat", "1"])
    start = time.time()
    status, output, errors = sites.run("compact", "argonne")
    tally.same("in use", (status, output, "in use by another process" in errors, 9 < time.time() - start < 30), (3, "", True, True))
    sites.close()


def unknown_texts(tally, sites):
    """A second entry that no site wrote, with its right digest, is damage at line 2."""
    busy(sites, TWO)
    compacted(tally, sites, "argonne", "it")
    entries = read_journal(sites.journal("argonne"))[0]
    text = json.loads(entries[1])

    def changed(**members):
        return json.dumps({**text, **members}, separators=(",", ":")).encode()

    os.mkdir(f"{sites.folder}/other")

    def opens(what, wanted, *lines):
        with open(f"{sites.folder}/other/journal", "wb") as file:
            file.write(journal_of([entries[0], *lines]))
        for words in (["check", "other"], ["at", "other", "ann", "qstat"], ["compact", "other"]):
            status, output, errors = sites.run(*words)
            found = (status, output) if wanted == 3 else status
            tally.same(f"{what}: {words[0]}: {errors!r}", found, (3, "") if wanted == 3 else wanted)
            if wanted == 3:
                tally.true(f"{what}: {words[0]} tells the line: {errors!r}", "other/journal, line 2: damaged: it isn't what the site knew" in errors)

    opens("as it was", 0, *entries[1:])
    opens("no second entry", 3)
    opens("another site's packet", 3, changed(sender=1))
    opens("a packet that needs something", 3, changed(need=[1] + ZEROS[1:]))
    opens("a packet of a site beyond the roster", 3, changed(reached=text["reached"][:2] + [5] + ZEROS[3:]))
    opens("a format that there isn't", 3, changed(format=3))
    opens("a part of the text", 3, entries[1][:-1])
    opens("the line of a user", 3, b"ann qsub", *entries[1:])
    opens("what was heard", 3, *entries[2:])
    opens("an object", 3, b"{}")
    opens("nothing", 3, b"")
    with open(f"{sites.folder}/other/journal", "wb") as file:
        file.write(journal_of([entries[0].replace(b" 4 ", b" 5 ", 1), *entries[1:]]))
    status, output, errors = sites.run("check", "other")
    tally.same(f"a later format: {errors!r}", (status, output, "other/journal, line 1: it doesn't name a site" in errors), (3, "", True))


def heard_texts(tally, sites):
    """An entry of a compacted journal that isn't what the site had heard, with its right digest, is damage at its line. A
    journal of format 2 has what was heard of some sites alone, and is opened and written anew."""
    busy(sites)
    sites.at("argonne", ["take"], sites.at("batavia", ["ship", "argonne"]).encode())
    held = told_of(sites, "argonne")
    compacted(tally, sites, "argonne", "it")
    entries = read_journal(sites.journal("argonne"))[0]
    tally.same("what was heard", [entry[:5] for entry in entries[2:]], [b"", b"take ", b""])
    heard = json.loads(entries[3][5:])
    other = b"take " + json.dumps({**heard, "sender": 2}, separators=(",", ":")).encode()
    more = b"take " + json.dumps({**heard, "reached": [count + (site == 1) for site, count in enumerate(heard["reached"])]}, separators=(",", ":")).encode()
    os.mkdir(f"{sites.folder}/other")

    def opens(what, line, *lines):
        with open(f"{sites.folder}/other/journal", "wb") as file:
            file.write(journal_of([*entries[:2], *lines]))
        for words in (["check", "other"], ["at", "other", "ann", "qstat"], ["compact", "other"]):
            status, output, errors = sites.run(*words)
            tally.same(f"{what}: {words[0]}: {errors!r}", (status, line == 0 or output == ""), (3 if line else 0, True))
            if line:
                tally.true(f"{what}: {words[0]} tells the line: {errors!r}", f"other/journal, line {line}: damaged: it isn't what the site had heard" in errors)

    opens("as it was", 0, *entries[2:])
    opens("an object", 4, entries[2], b"take {}", entries[4])
    opens("a packet of another sender", 4, entries[2], other, entries[4])
    opens("in the place of another's", 3, entries[3], entries[2], entries[4])
    opens("more than was heard", 4, entries[2], more, entries[4])
    opens("a user's line", 4, entries[2], b"ann qsub", entries[4])
    opens("nothing behind it", 4, entries[2])
    opens("at the place behind its own", 5, entries[2], entries[2], entries[3])
    opens("a line behind what was known", 3, b"ann qsub", *entries[2:])
    os.mkdir(f"{sites.folder}/older")
    with open(f"{sites.folder}/older/journal", "wb") as file:
        file.write(journal_of([entries[0].replace(b" 4 ", b" 2 ", 1), entries[1], entries[3]]))
    tally.same("in format 2 it tells the same", told_of(sites, "older"), held)
    sites.run("serve", "--keep-history", "older", text=b"ann qsub\n" + ALTERATIONS)
    compacted(tally, sites, "older", "a journal of format 2")
    tally.same("which is of format 4 then", read_journal(sites.journal("older"))[0][0].split()[1], b"4")


def places_of(journal, step=29):
    """The places of a compacted journal that are tried: of each line the gate, the digest and the end, of the long line each
    so many bytes of the text, and of the others all."""
    places, start = set(), 0
    for line in journal.split(b"\n"):
        end = start + len(line)
        places |= {*range(start, min(start + 21, end + 1)), *range(start, end, step if len(line) > 300 else 1), end - 1, end}
        start = end + 1
    return sorted(it for it in places if it < len(journal))


def compact_damage(tally, sites):
    """A compacted journal cut at each place, and with each byte changed: what is opened is a prefix of its entries where a gate
    stands closed behind them, else the damage is told by its line."""
    busy(sites, TWO)
    compacted(tally, sites, "argonne", "it")
    sites.run("serve", "argonne", text=b"ann qsub\nann qhold 1\n")
    journal = sites.journal("argonne")
    whole = read_journal(journal)[0]
    os.mkdir(f"{sites.folder}/other")
    wrong, tried = [], 0
    for place in places_of(journal):
        byte = journal[place : place + 1]
        for new in {b"", b"-", b"+", bytes([byte[0] ^ 1]), b"\n"} - {byte}:
            file = journal[:place] + (new + journal[place + 1 :] if new else b"")
            with open(f"{sites.folder}/other/journal", "wb") as other:
                other.write(file)
            tried += 1
            fault = damage_of(file, whole, *sites.run("check", "other"))
            wrong += [f"byte {place}, {byte!r} made {new!r}: {fault}"] if fault else []
    tally.same(f"{tried} damaged journals", wrong[:5], [])


def damage_of(file, whole, status, output, errors):
    """What is wrong with how a damaged journal was told; nothing where nothing is."""
    try:
        entries, tail = read_journal(file)
    except Damaged as damage:
        return "" if (status, output) == (3, "") and f"journal, line {damage.line}: damaged" in errors else (damage.line, output, errors)
    if entries != whole[: len(entries)]:
        return f"an entry that wasn't there: {entries[-1]!r}"
    if len(entries) < 2 + len(TWO):
        told = ("", "line 2: damaged: it isn't what the site knew", "line 3: damaged: it isn't what the site had heard", "line 4: damaged: it isn't what the site had heard")[len(entries)]
        return "" if (status, output) == (3, "") and told in errors else (len(entries), output, errors)
    right = output.startswith(f"entries {len(entries)} (compacted), ") and output.endswith(f", unfinished bytes {len(tail)}\n")
    return "" if status == 0 and right else (len(entries), output, errors)


SCENES = {it.__name__: it for it in (compact, young, keeping, obstacles, left_by_a_crash, others_files, renames_that_fail, other_owners, compact_full, serve_compacts, compact_at_once, unknown_texts, heard_texts, compact_damage)}
