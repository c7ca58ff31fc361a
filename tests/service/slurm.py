"""Scenes of what those use who come from Slurm: sbatch, squeue, scancel and sinfo."""
import json
import os
import re
import shutil
import time

from tests.service.node_accounts import has_program
from tests.service.pbs import text_of, work_in
from tests.service.scenes import ME
from tests.service.sites import until

SCRIPT = """\
#!/bin/bash
# a comment
#SBATCH --job-name=tasks   # its name
#SBATCH -n 6 -N 2
#SBATCH --time=1-02:03
#SBATCH --mem=4G
#SBATCH -o out-%x-%j.txt

echo "$SLURM_JOB_ID $SLURM_JOB_NAME $SLURM_NTASKS $SLURM_JOB_NUM_NODES $SLURM_CPUS_PER_TASK" | sed 's/^[0-9]*//'
wc -l < $PBS_NODEFILE
#SBATCH -J behind-the-head
echo error >&2
"""
NUMBER = re.compile(r"Submitted batch job ([0-9]+)\.argonne\n\Z")


def parsable(site, folder, *words, **how):
    """Submits by sbatch; the identifier."""
    status, output, errors = site.utility("sbatch", "--parsable", *words, cwd=folder, **how)
    if status:
        raise ValueError(errors)
    return output.strip()


def slurm(tally, federation):
    """What sbatch, squeue, scancel and sinfo do, and what they say that they don't."""
    (site,) = federation.make("argonne:4", "lemont:4", jobs="hosts = h1 h2 h3 h4")[:1]
    folder = work_in(federation)
    with open(f"{folder}/tasks.sh", "w", encoding="ascii") as file:
        file.write(SCRIPT)
    status, output, errors = site.utility("sbatch", "-p", "argonne", "tasks.sh", cwd=folder)
    tally.same("sbatch of a script", (status, bool(NUMBER.match(output)), "--mem" in errors), (0, True, True))
    number = NUMBER.match(output).group(1)
    told = site.jobs(number)[f"{number}.argonne"]
    tally.same("what it asks for", [told[key] for key in ("name", "nodes", "limit", "sites")], ["tasks", 2, 93780, ["argonne"]])
    site.finished(f"{number}.argonne")
    wanted = " tasks 6 2 1\n6\nerror\n"
    tally.same("what it was told, and output and errors in one file", text_of(folder, f"out-tasks-{number}.txt"), wanted)
    job = parsable(site, folder, "-M", "argonne", "-A", "chem", "-c", "3", "--wrap", 'echo "$OMP_NUM_THREADS $MINE"; echo e >&2', "-e", "e.%j", environment={"MINE": "x"})
    site.finished(job)
    number = job.split(".")[0]
    tally.same("--wrap, its threads and its environment", text_of(folder, f"slurm-{number}.out"), "3 x\n")
    tally.same("-e", text_of(folder, f"e.{number}"), "e\n")
    tally.same("-A", site.jobs(job)[job]["account"], "chem")
    array = parsable(site, folder, "-p", "argonne", "-a", "1-5:2", "--wrap", "echo $SLURM_ARRAY_TASK_ID; exit $((SLURM_ARRAY_TASK_ID / 5))")
    behind = parsable(site, folder, "-p", "argonne", "-d", f"afterany:{array}", "--wrap", "exit 0")
    strict = parsable(site, folder, "-p", "argonne", "-d", f"afterok:{array}_3", "--wrap", "exit 0")
    never = parsable(site, folder, "-p", "argonne", "--dependency=afterok:" + array, "--wrap", "exit 0")
    tally.same("what waits for an array", (site.finished(behind), site.finished(strict)), (0, 0))
    number = array.split(".")[0]
    tally.same("its outputs", [text_of(folder, f"slurm-{number}_{index}.out") for index in (1, 3, 5)], ["1\n", "3\n", "5\n"])
    until(lambda: site.jobs(never)[never]["deleted"], 20, "what waits for all its members to end well is deleted")
    tally.same("-W", site.utility("sbatch", "-W", "-p", "argonne", "--wrap", "exit 6", cwd=folder)[0], 6)
    tally.same("--export=NONE", site.finished(parsable(site, folder, "-p", "argonne", "--export=NONE", "--wrap", 'test -z "$MINE"', environment={"MINE": "x"})), 0)
    with_words(tally, site, folder)
    queued(tally, site, folder)
    for words in (("-Y",), ("--foo=1",), ("-n", "x"), ("-t", "1:2:3:4"), ("-t", "999999"), ("-a", "5-1"), ("-o", "a-%N"), ("-d", "aftercorr:1"), ("--mail-type=X",), ("-d", "afterok:x")):
        status, output, errors = site.utility("sbatch", *words, "--wrap", "true", cwd=folder)
        tally.same(f"sbatch {words} is refused, and named", (status, output, words[-1].lstrip("-").partition("=")[0].partition(":")[0] in errors), (2, "", True))
    tally.same("no script beside --wrap", site.utility("sbatch", "--wrap", "true", "tasks.sh", cwd=folder)[:2], (2, ""))
    status, output, errors = site.utility("sbatch", "-p", "debug", "--wrap", "true", cwd=folder)
    tally.same("no partition", (status, output, errors), (1, "", "sbatch: --partition debug: there is no queue and no site of this name; there are batch, argonne, lemont\n"))


def with_words(tally, site, folder):
    """A script is called with words, and a singleton waits for the jobs of its name."""
    with open(f"{folder}/words.sh", "w", encoding="ascii") as file:
        file.write("#!/bin/sh\n#SBATCH -p argonne -o words.txt\necho $# \"$2\"; sleep 2\n")
    first = parsable(site, folder, "-J", "single", "words.sh", "-x", "it's  $HOME")
    second = parsable(site, folder, "-p", "argonne", "-J", "single", "-d", "singleton", "--wrap", "true")
    other = parsable(site, folder, "-p", "argonne", "-J", "another", "-d", "singleton", "--wrap", "true")
    tally.same("a singleton waits", site.jobs(second)[second]["holds"], ["s"])
    tally.same("and one of another name doesn't", site.jobs(other)[other]["holds"], [])
    tally.same("all end", [site.finished(job) for job in (first, second, other)], [0, 0, 0])
    tally.same("the script's words", text_of(folder, "words.txt"), "2 it's  $HOME\n")
    began, ended = site.jobs(second)[second]["begun"]["moment"], site.jobs(first)[first]["finished"]["moment"]
    tally.true("the singleton began when the first had ended", began >= ended)
    later = parsable(site, folder, "-p", "argonne", "-b", "now+2seconds", "--wrap", "true")
    tally.same("--begin", (site.jobs(later)[later]["holds"], site.finished(later)), (["s"], 0))


def queued(tally, site, folder):
    """squeue, scancel and sinfo of a queue."""
    runs = parsable(site, folder, "-p", "argonne", "-N", "3", "-J", "runs", "--wrap", "sleep 300")
    until(lambda: site.jobs(runs)[runs]["begun"], 20, "it runs")
    waits = parsable(site, folder, "-p", "argonne", "-N", "4", "-J", "waits", "-t", "90", "--wrap", "true")
    held = parsable(site, folder, "-H", "-J", "held", "-a", "1-2", "--wrap", "true")
    behind = parsable(site, folder, "-d", f"afterany:{held}", "-J", "behind", "--wrap", "true")
    number = held.split(".")[0]

    def told(*words):
        status, output, errors = site.utility("squeue", *words)
        tally.same(f"squeue {words}", (status, errors), (0, ""))
        return output

    lines = told().splitlines()
    tally.same("the head", lines[0], "             JOBID PARTITION     NAME     USER ST       TIME  NODES NODELIST(REASON)")
    tally.same("what runs", re.sub("0:[0-9]{2}", "0:00", lines[1]), f"{runs:>18}     batch     runs {ME:>8.8}  R       0:00      3 h1,h2,h3")
    form = [line.split() for line in told("-h", "-o", "%i %t %r %l %D").splitlines()]
    tally.same("in another form, without a head", [line for line in form if line[0] != runs], [
        [waits, "PD", "Resources", "1:30:00", "4"],
        *([f"{number}_{index}.argonne", "PD", "JobHeldUser", "1:00:00", "1"] for index in (1, 2)),
        [behind, "PD", "Dependency", "1:00:00", "1"],
    ])
    for words, wanted in (
        (("-j", f"{runs},{waits}"), [runs, waits]),
        (("-j", f"{held}_2"), [f"{number}_2.argonne"]),
        (("-j", f"{number}[1].argonne"), [f"{number}_1.argonne"]),
        (("-j", number), [f"{number}_1.argonne", f"{number}_2.argonne"]),
        (("-u", ME, "-t", "R"), [runs]),
        (("-u", "nobody"), []),
        (("--me", "-n", "waits"), [waits]),
        (("-t", "PENDING", "-n", "held,waits"), [waits, f"{number}_1.argonne", f"{number}_2.argonne"]),
    ):
        tally.same(f"squeue {words} chooses", told("-ho", "%i", *words).split(), wanted)
    tally.same("of one that isn't known", site.utility("squeue", "-j", "900")[:2], (2, ""))
    nodes = site.utility("sinfo")[1].splitlines()
    tally.same("sinfo", [line.split() for line in nodes[1:]], [["batch*", "up", "infinite", "3", "alloc", "h1,h2,h3"], ["batch*", "up", "infinite", "1", "idle", "h4"]])
    tally.same("sinfo -hN", [line.split()[::3] for line in site.utility("sinfo", "-hN")[1].splitlines()], [[f"h{it}", "idle" if it == 4 else "alloc"] for it in (1, 2, 3, 4)])
    tally.same("a member is cancelled", site.utility("scancel", f"{held}_1"), (0, "", ""))
    tally.same("and no other", told("-ho", "%i", "-j", held).split(), [f"{number}_2.argonne"])
    tally.same("all of an array is", (site.utility("scancel", held), told("-ho", "%i", "-j", held)), ((0, "", ""), ""))
    tally.same("one that ended is listed no more", told("-h", "-j", held), "")
    tally.same("all of a user are", site.utility("scancel", "-u", ME, runs, waits), (0, "", ""))
    until(lambda: not told("-h", "-t", "R"), 20, "nothing runs")
    for words in ((), ("900",), ("-Y",), ("x",)):
        tally.same(f"scancel {words} is refused", site.utility("scancel", *words)[:2], (2, ""))
    began = time.monotonic()
    until(lambda: not told("-h", "-n", "behind"), 30, "what waited has run")
    tally.true("and soon", time.monotonic() - began < 30)


def slurm_listings(tally, federation):
    """`squeue` in other forms, `sacct`, `scontrol`, `tracejob`, more of `pbsnodes` and `qselect`; and what isn't there."""
    (site,) = federation.make("argonne:4", jobs="hosts = h1 h2 h3 h4")
    folder = work_in(federation)
    failed = parsable(site, folder, "-J", "failed", "-A", "2026-chem", "--wrap", "exit 3")
    site.finished(failed)
    runs = parsable(site, folder, "-J", "runs", "--wrap", "sleep 300")
    until(lambda: site.jobs(runs)[runs]["begun"], 20, "it runs")
    waits = parsable(site, folder, "-J", "waits", "-N", "4", "-t", "90", "--wrap", "true")
    array = parsable(site, folder, "-H", "-a", "1-2", "--wrap", "true")
    later = parsable(site, folder, "-b", "2030-01-01", "--wrap", "true")
    number = array.split(".")[0]

    def told(*words, status=0):
        found = site.utility(*words)
        tally.same(f"{words} is done: {found[2]!r}", found[0], status)
        return found[1]

    names = [waits, *(f"{number}_{index}.argonne" for index in (1, 2)), later]
    started = [line.split() for line in told("squeue", "--start", "-h").splitlines()]
    tally.same("squeue --start", [line[0] for line in started], names)
    tally.true("the moment of the plan", re.match(r"20[0-9-]{8}T[0-9:]{8}\Z", started[0][5]) and started[1][5] == "N/A")
    form = told("squeue", "-O", "JobID:12,Name:.8,StateCompact:3,TimeLimit", "-j", waits).splitlines()
    tally.same("squeue -O", form, ["JOBID           NAMEST TIME_LIMIT", f"{waits:<12}   waitsPD 1:30:00"])
    rows = {job["job_id"]: job for job in json.loads(told("squeue", "--json"))["jobs"]}
    tally.same("squeue --json", [list(rows), rows[waits]["node_count"], rows[runs]["job_state"]], [[runs, *names], 4, "RUNNING"])
    fields = told("sacct", "-j", f"{failed},{runs}", "--format=JobID,JobName,Account,State,ExitCode", "-P").splitlines()
    tally.same("sacct -P", fields, ["JobID|JobName|Account|State|ExitCode", f"{failed}|failed|2026-chem|FAILED|3:0", f"{runs}|runs||RUNNING|0:0"])
    tally.same("sacct of a state", told("sacct", "-nX", "-s", "FAILED", "-o", "JobID").split(), [failed])
    tally.same("of another user", told("sacct", "-n", "-u", "nobody"), "")
    tally.same("of yesterday", told("sacct", "-n", "-E", "2020-01-01", "-s", "FAILED", "-S", "2019-01-01"), "")
    tally.same("of no field", site.utility("sacct", "-o", "Nothing")[0], 2)
    shown = told("scontrol", "show", "job", failed)
    tally.same("scontrol show job", [it in shown for it in (f"JobId={failed} ", "JobState=FAILED", "ExitCode=3:0", "Account=2026-chem")], [True] * 4)
    tally.true("scontrol show node", "NodeName=h1 " in told("scontrol", "show", "node", "h1"))
    tally.true("scontrol show partition", "PartitionName=batch\n" in told("scontrol", "show", "partition=batch"))
    told("scontrol", "hold", waits)
    tally.same("scontrol hold", site.jobs(waits)[waits]["holds"], ["u"])
    told("scontrol", "release", waits)
    tally.same("scontrol release", site.jobs(waits)[waits]["holds"], [])
    trace = told("tracejob", failed)
    tally.same("tracejob", [it in trace for it in (f"Job: {failed}\n", "Job Queued at request of", "Job Run at argonne on h1/0", "Exit_status=3")], [True] * 4)
    tally.same("of one that isn't known", site.utility("tracejob", "900")[:2], (153, ""))
    tally.same("qselect -s W", told("qselect", "-s", "W").split(), [later])
    tally.same("qselect of all letters", len(told("qselect", "-s", "BEFHMQRSTUWX").split()), 5)
    tally.same("pbsnodes -l free", [line.split() for line in told("pbsnodes", "-l", "free").splitlines()], [[f"h{it}", "free"] for it in (2, 3, 4)])
    tally.same("pbsnodes -aSj", told("pbsnodes", "-aSj").splitlines()[3].split()[:3], ["h1", "job-exclusive", "1"])
    for utility, said in (("srun", "sbatch"), ("salloc", "sbatch")):
        found = site.utility(utility, "hostname")
        tally.same(f"{utility} is refused", (found[:2], said in found[2]), ((1, ""), True))
    tally.same("qsub -I", site.utility("qsub", "-I")[:2], (2, ""))


TOLD = """\
JOBID JOB_ID NNODES JOB_NUM_NODES JOB_NODELIST NODELIST NTASKS NPROCS NTASKS_PER_NODE TASKS_PER_NODE JOB_CPUS_PER_NODE JOB_PARTITION SUBMIT_DIR \
SUBMIT_HOST JOB_NAME PROCID ARRAY_JOB_ID ARRAY_TASK_ID ARRAY_TASK_MIN ARRAY_TASK_MAX ARRAY_TASK_COUNT"""
SHOW = "".join(f'echo "{name} ${{SLURM_{name}-none}}"\n' for name in TOLD.split()) + 'echo "NODENAME ${SLURMD_NODENAME-none}"\n'
# where MPIs start processes; the hosts of the scene can't be reached, so one only says where, and the other is given this host
MPIS = {
    "mpirun.openmpi": ("mpirun.openmpi --do-not-launch --display-map true 2> /dev/null | grep 'Data for node'", ["h1 3", "h2 3"]),
    "mpiexec.hydra": ("mpiexec.hydra -hosts $(hostname) -n 1 true", []),
}


def told_by(tally, site, folder, *words, **how):
    """What a job that sbatch submits is told."""
    job = parsable(site, folder, *words, "--wrap", SHOW, **how)
    number = job.partition(".")[0]
    tally.same(f"{words}: its status", site.finished(job if "-a" not in words else f"{int(number) + 1}.argonne"), 0)
    name = f"slurm-{number}_4.out" if "-a" in words else f"slurm-{number}.out"
    return number, dict(line.split(" ", 1) for line in text_of(folder, name).splitlines())


def slurm_variables(tally, federation):
    """The variables of Slurm in a job of sbatch, and MPIs there, which start processes on all of its hosts without Slurm."""
    (site,) = federation.make("argonne:4", jobs="hosts = h1 h2 h3 h4")
    folder = work_in(federation)
    number, told = told_by(tally, site, folder, "-n", "6", "-N", "2", "-J", "six")
    own = {"JOBID": number, "JOB_ID": number, "NNODES": "2", "JOB_NUM_NODES": "2", "JOB_NODELIST": "h1,h2", "NODELIST": "h1,h2", "NODENAME": "h1"}
    own.update(NTASKS="6", NPROCS="6", NTASKS_PER_NODE="3", TASKS_PER_NODE="3(x2)", JOB_CPUS_PER_NODE="3(x2)", JOB_PARTITION="batch", PROCID="0")
    own.update(SUBMIT_DIR=folder, SUBMIT_HOST=os.uname().nodename, JOB_NAME="six")
    tally.same("a job", told, {**own, **{name: "none" for name in TOLD.split() if name.startswith("ARRAY")}})
    number, told = told_by(tally, site, folder, "-a", "2-8:2")
    tally.same("a member of an array", {name: it for name, it in told.items() if name.startswith("ARRAY") or name == "JOB_ID"}, {
        "JOB_ID": str(int(number) + 1), "ARRAY_JOB_ID": number, "ARRAY_TASK_ID": "4", "ARRAY_TASK_MIN": "2", "ARRAY_TASK_MAX": "8", "ARRAY_TASK_COUNT": "4",
    })
    plain = site.utility("qsub", given="env\n", cwd=folder)[1].strip()
    tally.same("a job of qsub", (site.finished(plain), "SLURM" in text_of(folder, f"STDIN.o{plain.split('.')[0]}")), (0, False))
    lines = site.utility("qsub", "-v", "HYDRA_HOST_FILE=x,OMPI_MCA_plm=rsh", given='cmp "$HYDRA_HOST_FILE" "$PBS_NODEFILE" && echo $OMPI_MCA_plm $HYDRA_RMK\n', cwd=folder)[1].strip()
    tally.same("its host file, and the user's own way", (site.finished(lines), text_of(folder, f"STDIN.o{lines.split('.')[0]}")), (0, "rsh user\n"))
    as_root = {"OMPI_ALLOW_RUN_AS_ROOT": "1", "OMPI_ALLOW_RUN_AS_ROOT_CONFIRM": "1", "PATH": os.environ["PATH"]}
    for program, (text, wanted) in MPIS.items():
        if not has_program(tally, "slurm_variables", shutil.which(program), program, "NETTLEBEAM_NEEDS_MPI"):
            continue
        job = parsable(site, folder, "-n", "6", "-N", "2", "--wrap", text, environment=as_root)
        tally.same(f"{program} runs", site.finished(job), 0)
        found = re.findall(r"Data for node: (\S+)\s+Num slots: ([0-9]+)", text_of(folder, f"slurm-{job.split('.')[0]}.out"))
        tally.same(f"{program} has all hosts", [" ".join(pair) for pair in found], wanted)


SCENES = {"slurm": slurm, "slurm_listings": slurm_listings, "slurm_variables": slurm_variables}
