"""Scenes of the listings that PBS has: their layouts, which jobs they have, and how programs read them."""
import json
import os
import re
import subprocess
import time

from tests.playing import TOP
from tests.service.pbs import work_in
from tests.service.scenes import ME, OPERATOR, OTHER, as_user, is_root
from tests.service.sites import until
from tests.service.waits import qsub

HEAD = (
    "\nargonne: \n"
    "                                                            Req'd  Req'd   Elap\n"
    "Job ID          Username Queue    Jobname    SessID NDS TSK Memory Time  S Time\n"
    "--------------- -------- -------- ---------- ------ --- --- ------ ----- - -----\n"
)
PLAIN_HEAD = (
    "Job id            Name             User              Time Use S Queue\n"
    "----------------  ---------------- ----------------  -------- - -----\n"
)


def read_full(text):
    """The full listing as a program reads it: a dictionary of each job's attributes."""
    jobs, job = {}, None
    for line in text.replace("\n\t", "").splitlines():
        if line.startswith("Job Id: "):
            job = jobs[line[len("Job Id: ") :]] = {}
        elif line.startswith("    "):
            name, _, value = line.strip().partition(" = ")
            job[name] = value
    return jobs


def listings(tally, federation):
    """`qstat -a` and its kin, jobs that are gone, and the statuses of PBS."""
    (site,) = federation.make("argonne:4")
    folder = work_in(federation)
    running = qsub(site, folder, "-N", "longer_than_ten", "-l", "nodes=2:ppn=3,walltime=02:00:00,mem=4gb", script="sleep 300\n")
    until(lambda: site.jobs(running)[running]["begun"], 20, "it runs")
    waits = qsub(site, folder, "-l", "nodes=4", "-N", "big")
    held = qsub(site, folder, "-h", "-N", "held")
    timed = qsub(site, folder, "-a", "203001010000", "-N", "timed")
    behind = qsub(site, folder, "-W", f"depend=afterany:{waits}", "-N", "behind")
    ended = qsub(site, folder, "-N", "ended", script="exit 5\n")
    site.finished(ended)

    def listed(*words):
        status, output, errors = site.utility("qstat", *words)
        tally.same(f"qstat {words} says nothing", (status, errors), (0, ""))
        return output

    def names(*words):
        return re.findall(r"^([0-9]+\.argonne)", listed(*words), re.MULTILINE)

    user = f"{ME:<8.8}"
    lines = listed("-a").replace(re.search(r"longer_th\* +([0-9]+)", listed("-a")).group(1).rjust(6), "SESSID", 1).splitlines()
    tally.true("the head", listed("-a").startswith(HEAD))
    tally.same("a job that runs", re.sub("00:0[0-9]$", "00:00", lines[5]), f"{running:<15} {user} batch    longer_th* SESSID   2   6    4gb 02:00 R 00:00")
    tally.same("one that waits", lines[6], f"{waits:<15} {user} batch    big            --   4   4     -- 01:00 Q    --")
    tally.same("one with a hold", lines[7], f"{held:<15} {user} batch    held           --   1   1     -- 01:00 H    --")
    tally.same("one that waits for its time", lines[8], f"{timed:<15} {user} batch    timed          --   1   1     -- 01:00 W    --")
    everything = [running, waits, held, timed, behind]
    for words, wanted in (
        (("-a",), everything),
        (("-i",), everything[1:]),
        (("-r",), [running]),
        (("-H",), [ended]),
        (("-ax",), [*everything, ended]),
        (("-x",), [*everything, ended]),
        (("-u", ME), everything),
        (("-u", "ann,bob"), []),
        (("-a", running, held), [running, held]),
        (("-x", ended), [ended]),
        ((ended, "-x"), [ended]),
        (("batch",), everything),
        (("@argonne",), everything),
        (("-a", "batch@argonne"), everything),
        (("-n",), everything),
        (("-n", "-1"), everything),
        (("-aw",), everything),
        (("-T",), everything),
        (("-t",), everything),
    ):
        tally.same(f"qstat {words}", names(*words), wanted)
    tally.true("the default one", listed("-x").startswith(PLAIN_HEAD))
    tally.true("with the time that was used", re.search(rf"^{ended} +ended +{ME} +00:00:0[0-9] F batch$", listed("-x"), re.MULTILINE))
    comments = listed("-s")
    for said in ("Job run at ", "Not Running: ", "Job held: u", "Job waits until ", f"Job held: waits for afterany:{waits}"):
        tally.true(f"-s says {said}", f"   {said}" in comments)
    tally.true("-n has hosts", re.search(r"\n   \S+/0\*3\+\S+/0\*3\n", listed("-n")))
    tally.true("-n -1 on the same line", re.search(r" R 00:0[0-9] \S+/0\*3", listed("-n1")))
    tally.true("-T when it is planned to begin", re.search(rf"^{waits} .* Q [0-9:]{{5}}$", listed("-T"), re.MULTILINE))
    wide = listed("-aw").splitlines()
    tally.same("-w is wide", [len(it) for it in wide[4].split()], [30, 15, 15, 15, 8, 4, 5, 6, 5, 1, 5])
    tally.true("and cuts less", " longer_than_ten " in wide[5])
    for words, status, said in (
        (("-a", ended), 35, f"qstat: {ended} Job has finished, use -x or -H to obtain historical job information\n"),
        (("-a", "900.argonne"), 153, "qstat: Unknown Job Id 900.argonne\n"),
        (("-x", "900"), 153, "qstat: Unknown Job Id 900.argonne\n"),
        (("-a", "900[]"), 153, "qstat: Unknown Job Id 900[].argonne\n"),
        (("-a", "workq"), 170, "qstat: Unknown queue destination workq\n"),
    ):
        tally.same(f"qstat {words}", site.utility("qstat", *words), (status, "", said))
    tally.same("one of two is known", site.utility("qstat", "-a", "900", running)[1].count("\n"), 6)
    for words in (("-Y",), ("-u",), ("-F", "xml", "-f"), ("-F",)):
        tally.same(f"qstat {words} is refused", site.utility("qstat", *words)[:2], (2, ""))
    tally.same("POSIX's own is the site's", site.utility("qstat")[1], site.said("qstat"))
    tally.same("and the full one", site.utility("qstat", "-f", running)[1], site.said("qstat", "-f", running))
    tally.same("and of one that is gone", site.utility("qstat", ended)[1], site.said("qstat", ended))
    site.ask("qdel", running)


def words_anywhere(tally, federation):
    """`qstat` of jobs that ended or aren't known by POSIX's own options; options behind operands; what a complaint names."""
    (site,) = federation.make("argonne:4")
    folder = work_in(federation)
    ended, held = qsub(site, folder, script="exit 5\n"), qsub(site, folder, "-h")
    number, array = ended.split(".")[0], qsub(site, folder, "-J", "1-3", script="sleep $PBS_ARRAY_INDEX\n")
    site.finished(ended)
    gone = f"{ended} Job has finished, use -x or -H to obtain historical job information"
    unknown, own = "qstat: Unknown Job Id 900.argonne", site.said("qstat", held)
    for words, wanted in (
        ((ended,), (35, "", f"qstat: {gone}\n")),
        ((number,), (35, "", f"qstat: {gone}\n")),
        (("-f", number), (35, "", f"qstat: {gone}\n")),
        ((number, "-f"), (35, "", f"qstat: {gone}\n")),
        (("900",), (153, "", f"{unknown}\n")),
        (("-f", "900"), (153, "", f"{unknown}\n")),
        (("900[]", held), (153, own, "qstat: Unknown Job Id 900[].argonne\n")),
        ((held, "900", ended), (153, own, f"{unknown}\nqstat: {gone}\n")),
        ((held, ended), (35, own, f"qstat: {gone}\n")),
        ((held,), (0, own, "")),
        ((held, held), (0, site.said("qstat", held, held), "")),
        ((held, "-f"), (0, site.said("qstat", "-f", held), "")),
        (("-f", "--", held), (0, site.said("qstat", "-f", held), "")),
    ):
        tally.same(f"qstat {words}", site.utility("qstat", *words), wanted)
    loop = f"while {TOP}/bin/qstat '{array}' > /dev/null; do sleep 0.2; done; {TOP}/bin/qstat '{array.replace('[]', '[1-2]')}'; echo $?"
    environment = {**os.environ, "NETTLEBEAM_SOCKET": site.socket}
    done = subprocess.run(["sh", "-c", loop], capture_output=True, text=True, check=False, timeout=60, env=environment)
    tally.same("a loop until it has ended ends", (done.stdout, done.stderr.count("has finished")), ("35\n", 2))
    altered = (held, "-N", "later", "-l", "nodes=3", "-o", "there.out", "-l", "walltime=2:00", "-h")
    tally.same("qalter has no -h", site.utility("qalter", *altered, cwd=folder), (1, "", "qalter: usage 2 (UnknownOption): qalter has no option -h\n"))
    tally.same("qalter", site.utility("qalter", *altered[:-1], cwd=folder), (0, "done\n", ""))
    told = site.jobs(held)[held]
    tally.same("with both lists", [told[key] for key in ("name", "nodes", "limit")], ["later", 3, 120])
    tally.true("and the path", f":{folder}/there.out\n" in site.utility("qstat", "-fxw", held)[1])
    tally.same("qhold", (site.utility("qhold", held, "-h", "u")[:2], site.jobs(held)[held]["holds"]), ((0, "done\n"), ["u"]))
    status, output, errors = site.utility("qdel", held, "900", "-W", "force")
    tally.same("qdel", (status, output), (1, "done\nrefused 1\n"))
    tally.true("what of it is without effect is said", errors.startswith("qdel: -W force is without effect here\n"))
    with open(f"{folder}/late.sh", "w", encoding="ascii") as file:
        file.write("#PBS -l nodes=2 -l walltime=9:00\nexit 0\n")
    status, output, errors = site.utility("qsub", "-h", "-l", "nodes=3", "-l", "walltime=5:00", "late.sh", "-N", "behind", cwd=folder)
    told = site.jobs(output.strip())[output.strip()]
    tally.same("qsub's lists are joined", (status, [told[key] for key in ("name", "nodes", "limit")]), (0, ["late.sh", 3, 300]))
    tally.same("what stands behind a script is said to be passed over", errors, "qsub: -N is passed over, since a script is given no words\n")
    for utility, words, option in (
        ("qsub", ("-p", "x"), "the options are -p x\n"),
        ("qsub", ("-N", "5x"), "the options are -N 5x\n"),
        ("qsub", ("-A", "a b"), "the options are -A a b\n"),
        ("qsub", ("-l", "color=red"), "the options are -l color=red\n"),
        ("qsub", ("-j", "x"), "-j x: "),
        ("qsub", ("-J", "5-1"), "-J 5-1: "),
        ("qsub", ("-W", "depend=on:3"), "-W depend=on:3: "),
        ("qsub", ("-W", "depend=afterok:900"), "the options are -W depend=afterok:900\n"),
        ("qselect", ("-s", "Z"), "-s Z "),
        ("qsub", ("-l", "nodes=2:ppn=x"), "-l nodes: ppn=x "),
        ("qalter", ("-p", "x", output.strip()), "the options are -p x\n"),
        ("qhold", ("-h", "z", output.strip()), "the options are -h z\n"),
        ("qstat", ("-Y",), "there is no option -Y "),
    ):
        told = site.utility(utility, *words, given="true\n", cwd=folder)
        tally.same(f"{utility} {words} is named: {told[2]!r}", (bool(told[0]), f"{utility}: {option}" in told[2]), (True, True))


def full_listings(tally, federation):
    """`qstat -f` with `-x` and `-F json`, of jobs that wait, run and have ended; queues and the server."""
    (site,) = federation.make("argonne:4", operators=OPERATOR, jobs="hosts = h1 h2 h3 h4")
    folder = work_in(federation)
    words = ("-v", "SECRET=s3cret,B=a\\,b", "-o", "o.txt", "-A", "chem", "-p", "5", "-N", "named", "-j", "oe", "-l", "nodes=2:ppn=2,mem=1gb")
    job = qsub(site, folder, *words, script="exit 5\n")
    site.finished(job)
    status, text, errors = site.utility("qstat", "-xf", job)
    tally.same("of a job that ended", (status, errors), (0, ""))
    tally.true("no line is longer than 80", max(len(it.expandtabs()) for it in text.splitlines()) <= 86)
    told = read_full(text)[job]
    for name, wanted in (
        ("Job_Name", "named"),
        ("job_state", "F"),
        ("Exit_status", "5"),
        ("queue", "batch"),
        ("server", "argonne"),
        ("Account_Name", "chem"),
        ("Priority", "5"),
        ("exec_host", "h1/0*2+h2/0*2"),
        ("Join_Path", "oe"),
        ("Hold_Types", "n"),
        ("Resource_List.walltime", "01:00:00"),
        ("Resource_List.nodes", "2:ppn=2"),
        ("Resource_List.nodect", "2"),
        ("Resource_List.mem", "1gb"),
    ):
        tally.same(f"its {name}", told.get(name), wanted)
    tally.true("its output", told["Output_Path"].endswith(f":{folder}/o.txt"))
    tally.true("its errors", told["Error_Path"].endswith(f":{folder}/named.e{job.split('.')[0]}"))
    tally.true("the time that it used", re.match(r"00:00:0[0-9]\Z", told["resources_used.walltime"]))
    for name in ("ctime", "qtime", "etime", "stime", "mtime"):
        tally.true(f"its {name}", abs(time.mktime(time.strptime(told[name])) - time.time()) < 60)
    tally.true("its variables", "SECRET=s3cret" in told["Variable_List"] and "B=a\\,b" in told["Variable_List"])
    whole = json.loads(site.utility("qstat", "-x", "-f", "-F", "json", job)[1])
    tally.same("as JSON", (whole["pbs_server"], list(whole["Jobs"])), ("argonne", [job]))
    found = whole["Jobs"][job]
    tally.same("with numbers", (found["Exit_status"], found["Priority"], found["Resource_List"]["nodect"]), (5, 5, 2))
    tally.same("and variables as they are", (found["Variable_List"]["B"], found["Variable_List"]["PBS_O_WORKDIR"]), ("a,b", folder))
    tally.same("of none", list(json.loads(site.utility("qstat", "-f", "-F", "json")[1])), ["timestamp", "pbs_version", "pbs_server"])
    fields = site.utility("qstat", "-x", "-f", "-F", "dsv", job)[1].split("|")
    later = qsub(site, folder, "-h")
    states = re.findall(r"^(?:Job Id: |    job_state = )(.*)$", site.utility("qstat", "-f", "@argonne")[1], re.MULTILINE)
    tally.same("as Nextflow asks it", states, [later, "H"])
    states = re.findall(r"^(?:Job Id: |    job_state = )(.*)$", site.utility("qstat", "-f", "-1")[1], re.MULTILINE)
    tally.same("and in another way", states, [later, "H"])
    site.ask("qdel", later)
    tally.same("as fields", (fields[0], "Exit_status=5" in fields), (f"Job Id: {job}", True))
    if is_root(tally):
        tally.true("another user doesn't see variables", "s3cret" not in site.utility("qstat", "-xf", job, before=as_user(OTHER))[1])
        operator = {"before": as_user(OPERATOR), "environment": {"NETTLEBEAM_ROLE": "operator"}}
        tally.true("an operator does", "s3cret" in site.utility("qstat", "-xf", job, **operator)[1])
    waits = qsub(site, folder, "-h")
    told = read_full(site.utility("qstat", "-f", "-x", waits)[1])[waits]
    tally.same("one that waits", (told["job_state"], told["Hold_Types"], "exec_host" in told, "Exit_status" in told), ("H", "u", False, False))
    tally.same("-Q", site.utility("qstat", "-Q")[1].splitlines()[2], "batch                0     1 yes yes     0     0     1     0     0     0 Exec")
    tally.same("-B", site.utility("qstat", "-B")[1].splitlines()[2], "argonne              0     1     0     0     1     0     0     0 Active")
    tally.true("-q", re.search(r"^batch +-- +-- +-- +-- +0 +1 +-- +E R$", site.utility("qstat", "-q")[1], re.MULTILINE))
    tally.true("-Qf", "    state_count = Transit:0 Queued:0 Held:1 " in site.utility("qstat", "-Qf")[1])
    tally.true("-Bf", "    server_state = Active\n" in site.utility("qstat", "-Bf")[1])
    site.kill(15)
    with open(site.config, encoding="ascii") as file:
        text = file.read()
    with open(site.config, "w", encoding="ascii") as file:
        file.write(f"{text}\n[house]\nevery = 1\nretire = 0.5\nkeep = 0.5\n")
    site.start()
    site.wait_ready()
    until(lambda: job not in site.jobs(), 30, "it is retired")
    told = read_full(site.utility("qstat", "-xf", job)[1])[job]
    tally.same("a retired one is told by the accounting", (told["Exit_status"], told["job_state"], told["Job_Name"]), ("5", "F", "named"))


SCENES = {it.__name__: it for it in (listings, words_anywhere, full_listings)}
