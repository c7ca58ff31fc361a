"""Scenes of PBS's options and directives: each does what the table of options says, or says that it doesn't."""
import os
import re
import time

from tests.service.scenes import ME, read
from tests.service.sites import SERVICE, until

MAIL = """\
#!/bin/sh
cat > {folder}/mail.$$.new && mv {folder}/mail.$$.new {folder}/mail.$$
"""
NUMBER = re.compile(r"([0-9]+)\.argonne\n\Z")


def work_in(federation):
    """A folder to work in."""
    folder = f"{federation.folder}/work"
    os.makedirs(folder, exist_ok=True)
    return folder


def submitted(tally, site, folder, script, *words, said="", environment=None):
    """Submits by the utility, and waits for the end: the identifier and the status."""
    status, output, errors = site.utility("qsub", *words, given=script, cwd=folder, environment=environment or {})
    tally.same(f"qsub {words} is taken", (status, said in errors), (0, True))
    if status:
        print(errors)
        return "", None
    return output.strip(), site.finished(output.strip())


def text_of(folder, name):
    """What a file has that a job wrote; nothing where it isn't there."""
    path = f"{folder}/{name}"
    return read(path) if os.path.exists(path) else None


def pbs_nodes(tally, federation):
    """`-l nodes=..:ppn=..`, `-l select=..`, walltimes, and what is without effect."""
    (site,) = federation.make("argonne:8", jobs="hosts = h1 h2 h3 h4 h5 h6 h7 h8")
    folder = work_in(federation)
    script = 'cat "$PBS_NODEFILE" | tr "\\n" " "; echo "$PBS_NP $PBS_NUM_NODES $PBS_NUM_PPN $NCPUS $PBS_TASKNUM ${OMP_NUM_THREADS:-none}"\n'
    for words, hosts, told in (
        ("nodes=2:ppn=3", "h1 h1 h1 h2 h2 h2", "6 2 3 3 1 1"),
        ("nodes=1:ppn=2+2:ppn=1", "h1 h1 h2 h3", "4 3 2 2 1 1"),
        ("select=2:ncpus=8:mpiprocs=4:mem=4gb", "h1 h1 h1 h1 h2 h2 h2 h2", "8 2 4 8 1 2"),
        ("select=1:ncpus=4:mpiprocs=2+1:ncpus=4", "h1 h1 h2", "3 2 2 4 1 2"),
        ("select=2:ncpus=8", "h1 h2", "2 2 1 8 1 8"),
        ("nodes=3", "h1 h2 h3", "3 3 1 1 1 none"),
        ("ncpus=6", "h1", "1 1 1 6 1 6"),
    ):
        job, status = submitted(tally, site, folder, script, "-l", words)
        tally.same(f"{words}: its status", status, 0)
        found = text_of(folder, f"STDIN.o{job.split('.')[0]}") or ""
        tally.same(f"{words}: its hosts and numbers", found.strip(), f"{hosts} {told}")
    for words, seconds in (("30", 30), ("01:30", 90), ("1:00:00", 3600), ("01:02:03:04", 93784)):
        job, _ = submitted(tally, site, folder, "true\n", "-l", f"walltime={words}")
        tally.same(f"walltime={words}", site.jobs(job)[job]["limit"], seconds)
    idle = "nodes=1:ppn=2:bigmem,mem=4gb,vmem=4gb,pmem=1gb,pvmem=1gb,cput=10,file=1gb,place=scatter"
    status, output, errors = site.utility("qsub", "-l", idle, given="true\n", cwd=folder)
    tally.same("what has no effect is taken", (status, errors.count("\n")), (0, 1))
    tally.same("and said", [name for name in ("the property bigmem", "mem", "vmem", "pmem", "pvmem", "cput", "file", "place") if name not in errors], [])
    for words in ("nodes=0:ppn=0", "nodes=:ppn=2", "color=red", "nodes=2:ppn=x"):
        tally.same(f"{words} is refused", site.utility("qsub", "-l", words, given="true\n", cwd=folder)[0] in (1, 2), True)


def pbs_files(tally, federation):
    """`-o`, `-e`, `-j`, `-k`: where the output goes."""
    (site,) = federation.make("argonne:8")
    folder = work_in(federation)
    os.makedirs(f"{folder}/logs")
    script = "echo out; echo err >&2\n"

    def found(words, *names):
        job, status = submitted(tally, site, folder, script, *words)
        tally.same(f"{words}: its status", status, 0)
        number = job.split(".")[0]
        return [text_of(folder, name.replace("@", number)) for name in names]

    tally.same("-o and -e", found(("-o", "a.out", "-e", "b.err"), "a.out", "b.err"), ["out\n", "err\n"])
    tally.same("with a host", found((f"-o{'host'}:{folder}/c.out", "-e", "host:d.err"), "c.out", "d.err"), ["out\n", "err\n"])
    tally.same("a folder", found(("-o", "logs", "-e", "logs/"), "logs/STDIN.o@", "logs/STDIN.e@"), ["out\n", "err\n"])
    tally.same("-j oe", found(("-j", "oe"), "STDIN.o@", "STDIN.e@"), ["out\nerr\n", None])
    tally.same("-j eo", found(("-j", "eo"), "STDIN.o@", "STDIN.e@"), [None, "out\nerr\n"])
    tally.same("-j n", found(("-j", "n"), "STDIN.o@", "STDIN.e@"), ["out\n", "err\n"])
    tally.same("-j oe with -o", found(("-j", "oe", "-o", "j.out"), "j.out", "STDIN.e@"), ["out\nerr\n", None])
    tally.same("a name with the job's", found(("-o", "x.$PBS_JOBID.out"), "x.@.argonne.out"), ["out\n"])
    tally.same("a folder that isn't there", found(("-o", "none/there.out"), "STDIN.o@", "STDIN.e@")[0], "out\n")
    tally.same("-k n", found(("-k", "n"), "STDIN.o@"), ["out\n"])
    job, _ = submitted(tally, site, folder, script, "-k", "oe", "-N", "kept")
    for kind, wanted in (("o", "out\n"), ("e", "err\n")):
        path = os.path.expanduser(f"~/kept.{kind}{job.split('.')[0]}")
        tally.same(f"-k {kind}", text_of(os.path.dirname(path), os.path.basename(path)), wanted)
        if os.path.exists(path):
            os.remove(path)
    for words in (("-j", "x"), ("-k", "z"), ("-o", "host:"), ("-j",)):
        tally.same(f"{words} is refused", site.utility("qsub", *words, given="true\n", cwd=folder)[0], 2)
    os.makedirs(f"{folder}/there")
    place = "pwd; echo $# $1\n"
    there = f"{folder}/there\n"
    tally.same("-d", found(("-d", "there"), "STDIN.o@"), ["out\n"])
    job, _ = submitted(tally, site, folder, place, "-w", "there", "-F", "'a  b' c")
    tally.same("-w and -F", text_of(folder, f"there/STDIN.o{job.split('.')[0]}"), f"{there}2 a b\n")
    job, _ = submitted(tally, site, folder, place, "-d", "there", "-o", "d.out")
    tally.same("-d with -o", text_of(folder, "d.out"), f"{there}0\n")
    job, _ = submitted(tally, site, folder, place, "-d", "there", "-k", "o", "-N", "kept")
    path = os.path.expanduser(f"~/kept.o{job.split('.')[0]}")
    tally.same("-d with -k", text_of(os.path.dirname(path), os.path.basename(path)), f"{there}0\n")
    if os.path.exists(path):
        os.remove(path)
    again = site.utility("qsub", "-N", "sent", "-o", "m.out", "-j", "oe", given="echo one; sleep 2\n", cwd=folder)[1].strip()
    until(lambda: text_of(folder, "m.out"), 20, "it writes")
    tally.same("qmsg to both", site.utility("qmsg", "-EO", "hello", again)[0], 0)
    site.finished(again)
    tally.same("is written once, where they are one", text_of(folder, "m.out"), "one\nhello\n")
    long_name = "a_name_of_more_than_fifteen_letters"
    job, _ = submitted(tally, site, folder, script, "-N", long_name, said="first 15")
    tally.same("a long name stands before the output", text_of(folder, f"{long_name}.o{job.split('.')[0]}"), "out\n")


def pbs_variables(tally, federation):
    """`-v`, `-V`, `-S` and what the job is told."""
    (site,) = federation.make("argonne:8")
    folder = work_in(federation)
    mine = {"MINE": "my own", "BASH_FUNC_greet%%": "() { echo greeted; }", "TMPDIR": federation.folder, "IFS": "x", "PBS_JOBID": "9.other"}

    def told(words, script, environment=None):
        job, status = submitted(tally, site, folder, script, *words, environment=environment or mine)
        tally.same(f"{words}: its status", status, 0)
        return text_of(folder, f"STDIN.o{job.split('.')[0]}")

    show = 'echo "$A|$B|$MINE|$PBS_JOBID"\n'
    number = lambda text: re.sub(r"[0-9]+\.argonne", "ID", text or "")  # noqa: E731
    tally.same("-v with values", number(told(("-v", "A=1,B=x y"), show)), "1|x y||ID\n")
    tally.same("-v with quotes", number(told(("-v", "A='1,2',B=a\\,b"), show)), "1,2|a,b||ID\n")
    tally.same("-v of the environment", number(told(("-v", "MINE,A=2"), show)), "2||my own|ID\n")
    tally.same("-V", number(told(("-V",), show)), "||my own|ID\n")
    tally.same("-V and -v", number(told(("-V", "-v", "MINE=other"), show)), "||other|ID\n")
    tally.same("functions of bash", told(("-V", "-S", "/bin/bash"), "greet\n"), "greeted\n")
    tally.true("the job's own TMPDIR", federation.folder + "\n" != told(("-V",), 'echo "$TMPDIR"\n'))
    tally.true("is removed, and no other", os.path.isdir(federation.folder))
    tally.same("a variable with anything", told(("-V",), 'printf %s "$MINE"\n', {"MINE": "a'b\"c\n$(id)`id`\\"}), "a'b\"c\n$(id)`id`\\")
    tally.same("-S", told(("-S", "/bin/bash"), 'echo "${BASH_VERSION:+bash}"\n'), "bash\n")
    tally.same("-S of another host", told(("-S", "/bin/bash@elsewhere,/bin/sh"), 'echo "$0" | grep -c script\n'), "1\n")
    tally.same("no GPU", told((), 'wc -l < "$PBS_GPUFILE"\n'), "0\n")
    names = "PBS_ENVIRONMENT PBS_JOBNAME PBS_QUEUE PBS_O_QUEUE PBS_O_HOST PBS_O_LOGNAME PBS_O_WORKDIR PBS_JOBDIR PBS_TASKNUM NCPUS"
    lines = (told((), "env\n") or "").splitlines()
    tally.same("what it is told", [name for name in names.split() if not any(it.startswith(f"{name}=") for it in lines)], [])
    large = {f"LARGE{number}": "x" * 100_000 for number in range(9)}
    tally.same("nearly a megabyte", told(("-V",), 'echo "${#LARGE1} ${#LARGE8}"\n', large), "100000 100000\n")
    larger = {f"LARGE{number}": "x" * 100_000 for number in range(11)}
    tally.same("more is refused", site.utility("qsub", "-V", given="true\n", cwd=folder, environment=larger)[0], 2)
    tally.true("-v of what isn't there is said", "NONE" in site.utility("qsub", "-v", "NONE", given="true\n", cwd=folder)[2])
    for words in (("-v", "=1"), ("-S", "bash"), ("-v",)):
        tally.same(f"{words} is refused", site.utility("qsub", *words, given="true\n", cwd=folder)[0], 2)


def pbs_others(tally, federation):
    """`-q`, `-z`, `-W block`, `-A`, `-P`, `-r`, `-c`, `-u`, other `-W`, `--`, and what is refused."""
    (site,) = federation.make("argonne:8", "lemont:4")[:1]
    folder = work_in(federation)

    def job_of(*words, given="true\n"):
        status, output, errors = site.utility("qsub", *words, given=given, cwd=folder)
        tally.same(f"qsub {words}", (status, bool(NUMBER.match(output))), (0, True))
        return site.jobs(output.strip())[output.strip()], errors.replace("qsub: it may run at argonne, lemont\n", "")

    tally.same("-q batch", job_of("-q", "batch")[0]["sites"], ["argonne", "lemont"])
    for words in (("-q", "lemont"), ("-q", "@lemont"), ("-q", "batch@lemont"), ("-l", "sites=argonne", "-q", "lemont")):
        tally.same(f"{words}", job_of("-h", *words)[0]["sites"], ["lemont"])
    none = site.utility("qsub", "-q", "workq", "-l", "nodes=2", given="true\n", cwd=folder)
    said = "qsub: -q workq: there is no queue and no site of this name; there are batch, argonne, lemont\n"
    tally.same("-q of no site", none, (1, "", said))
    tally.same("the last -q counts", job_of("-q", "lemont", "-q", "batch")[0]["sites"], ["argonne", "lemont"])
    for words in (("-A", "chem"), ("-P", "chem")):
        tally.same(f"{words}", job_of(*words)[0]["account"], "chem")
    account = "2026-chem:grants/a-name-of-up-to-sixty-three-characters"
    told, errors = job_of("-h", "-A", account)
    tally.same("an account of another form", (told["account"], account in errors, errors.count("\n")), ("", True, 1))
    shown = lambda: re.findall(r"    Account_Name = (.*)\n", site.utility("qstat", "-f", "-x", told["id"])[1])  # noqa: E731
    tally.same("qstat -f shows it", shown(), [account])
    tally.same("qselect finds it", site.utility("qselect", "-A", account), (0, f"{told['id']}\n", ""))
    tally.same("qalter -A", (site.utility("qalter", "-A", "7up", told["id"])[0], shown()), (0, ["7up"]))
    tally.same("and with one of the site's form", (site.utility("qalter", "-A", "math", told["id"]), shown()), ((0, "done\n", ""), ["math"]))
    tally.same("one that is longer is refused", site.utility("qsub", "-A", "x" * 64, given="true\n", cwd=folder)[0], 1)
    for words, said in (
        (("-r", "n"), ""),
        (("-r", "y"), "no job begins twice"),
        (("-c", "n"), ""),
        (("-c", "s"), "checkpoints"),
        (("-u", ME), ""),
        (("-u", "somebody"), "-u somebody"),
        (("-W", "group_list=x,sandbox=PRIVATE"), "-W group_list"),
        (("-W", "umask=027"), ""),
        (("-m", "n", "-M", "a@b"), ""),
        (("-m", "abe"), "mail is without effect"),
    ):
        errors = job_of(*words)[1]
        tally.same(f"{words} says", (bool(errors), said in errors), (bool(said), True))
    tally.same("-z", site.utility("qsub", "-z", given="true\n", cwd=folder)[:2], (0, ""))
    for words in (("-I",), ("-X",), ("-m", "q"), ("-r", "x"), ("-a", "9"), ("-W", "depend=on:3"), ("-W", "x"), ("-J", "5-1"), ("-J", "1-20000")):
        tally.same(f"{words} is refused", site.utility("qsub", *words, given="true\n", cwd=folder)[:2], (2, ""))
    tally.same("an unknown one is the site's", site.utility("qsub", "-Y", given="true\n", cwd=folder)[:2], (1, "usage 2\n"))
    plain = {"environment": {"NETTLEBEAM_ANSWERS": ""}, "cwd": folder}
    unknown = (1, "", "qsub: usage 2 (UnknownOption): qsub has no option -Y\n")
    tally.same("its argument isn't read as a script", site.utility("qsub", "-Y", "there", **plain), unknown)
    tally.same("what the site refuses is on standard error alone", site.utility("qsub", "-p", "x", given="true\n", **plain)[:2], (1, ""))
    held = site.utility("qsub", "-h", given="true\n", **plain)[1].strip()
    tally.same("qalter writes nothing", site.utility("qalter", "-p", "-1", held, **plain), (0, "", ""))
    tally.same("nor does qhold", site.utility("qhold", held, **plain), (0, "", ""))
    tally.same("nor qrls", site.utility("qrls", held, "-h", "u", **plain), (0, "", ""))
    held = site.utility("qsub", "-h", given="true\n", **plain)[1].strip()
    status, output, errors = site.utility("qdel", "900", held, "901", **plain)
    tally.same("nor qdel, which says of each job why it isn't done", (status, output, "900.argonne" in errors, "number 3 of 3 jobs: refused 1" in errors, "number 2" in errors), (1, "", True, True, False))
    version = "pbs_version = 19.0.0 (Nettlebeam 1.0.0)\n"
    began = time.monotonic()
    status, output, _ = site.utility("qsub", "-W", "block=true", "-l", "sites=argonne", given="sleep 1; exit 7\n", cwd=folder)
    tally.same("-W block ends with the job's status", (status, bool(NUMBER.match(output))), (7, True))
    tally.true("when it has ended", time.monotonic() - began >= 1)
    status, output, _ = site.utility("qsub", "-l", "sites=argonne", "--", "/bin/sh", "-c", 'echo "a  b" "$0"', "it's", cwd=folder)
    tally.same("-- PROGRAM", (status, site.finished(output.strip())), (0, 0))
    tally.same("with its words as they are", text_of(folder, f"STDIN.o{output.split('.')[0]}"), "a  b it's\n")
    for name in ("qsub", "qstat", "qalter", "qdel"):
        tally.same(f"{name} --version", site.utility(name, "--version"), (0, version, ""))
        tally.true(f"{name} --help", site.utility(name, "--help")[1].startswith(f"usage: {name} "))


def pbs_directives(tally, federation):
    """Directives: all options, quotes, and what isn't known refused by its line."""
    (site,) = federation.make("argonne:8")
    folder = work_in(federation)

    def of_file(text, *words):
        with open(f"{folder}/script.sh", "w", encoding="utf-8") as file:
            file.write(text)
        return site.utility("qsub", *words, "script.sh", cwd=folder)

    script = (
        "#!/bin/bash\n\n# a comment\n#PBS -N named   # the name\n#PBS -l nodes=2:ppn=2,walltime=00:10:00\n#PBS -j oe\n"
        "#PBS -o \"the out.txt\"\n#PBS -v A=1,B='x y'\n#PBS -v \"C=a 'b'\"\n#PBS -m n\n\n: begins\n#PBS -N other\necho \"$A|$B|$C|$PBS_JOBNAME\"; wc -l < $PBS_NODEFILE\n"
    )
    status, output, errors = of_file(script)
    tally.same("a script with directives", (status, errors), (0, ""))
    tally.same("its status", site.finished(output.strip()), 0)
    tally.same("what it was told", text_of(folder, "the out.txt"), "1|x y|a b|named\n4\n")
    tally.same("its name and limit", [site.jobs(output.strip())[output.strip()][key] for key in ("name", "limit", "nodes")], ["named", 600, 2])
    tally.same("the command line goes before", of_file("#PBS -N a\ntrue\n", "-N", "b")[0], 0)
    tally.true("and names it", any(job["name"] == "b" for job in site.jobs().values()))
    for line in ("-Y", "-N", "--name x", "nodes=2", "-l", '-N "x'):
        status, output, errors = of_file(f"#!/bin/sh\n#\n#PBS {line}\ntrue\n")
        tally.same(f"#PBS {line} is refused by its line", (status, output, "line 3: " in errors), (2, "", True))
    tally.same("-C", of_file("#QQ -N cc\n#PBS -Y\ntrue\n", "-C", "#QQ")[0], 0)
    tally.same("-C of nothing", of_file("#PBS -Y\ntrue\n", "-C", "")[0], 0)
    tally.same("PBS_DPREFIX", site.utility("qsub", "script.sh", cwd=folder, environment={"PBS_DPREFIX": "#OTHER"})[0], 0)


def pbs_mail(tally, federation):
    """`-m` and `-M`: mail when a job begins, ends, is deleted or lost; each once."""
    path = f"{federation.folder}/sendmail"
    with open(path, "w", encoding="ascii") as file:
        file.write(MAIL.format(folder=federation.folder))
    os.chmod(path, 0o755)
    (site,) = federation.make("argonne:8", jobs=f"mail = {path}")
    folder = work_in(federation)

    def mails():
        names = [name for name in os.listdir(federation.folder) if name.startswith("mail.") and not name.endswith("new")]
        return sorted(read(f"{federation.folder}/{name}") for name in names)

    job, _ = submitted(tally, site, folder, "exit 3\n", "-m", "abe", "-M", "ann@there,bob", "-N", "mailed")
    until(lambda: len(mails()) == 2, 20, "two mails")
    tally.same("to whom", [mail.splitlines()[0] for mail in mails()], ["To: ann@there, bob"] * 2)
    tally.same("of what", all(f"PBS Job Id: {job}\nJob Name:   mailed\n" in mail for mail in mails()), True)
    tally.same("when", sum("Begun execution" in it for it in mails()) + sum("Exit_status=3" in it for it in mails()), 2)
    status, held, _ = site.utility("qsub", "-h", "-m", "a", given="true\n", cwd=folder)
    site.utility("qdel", held.strip())
    until(lambda: len(mails()) == 3, 20, "a third")
    tally.same("of the deleted one", sum("deleted before it began" in it and f"To: {ME}" in it for it in mails()), 1)
    submitted(tally, site, folder, "true\n", "-m", "n", "-M", "ann")
    told = site.utility("qsub", "-J", "1-3", "-m", "e", given="true\n", cwd=folder)
    tally.same("an array sends none", (told[0], "for each member" in told[2]), (0, True))
    submitted(tally, site, folder, "true\n", "-m", "b")
    until(lambda: len(mails()) == 4, 20, "a fourth")
    status, slow, _ = site.utility("qsub", "-m", "e", given="sleep 2\n", cwd=folder)
    until(lambda: site.jobs(slow.strip())[slow.strip()]["begun"], 20, "it runs")
    site.kill()
    site.start()
    site.wait_ready()
    site.finished(slow.strip())
    until(lambda: len(mails()) == 5, 20, "a fifth, though the service was killed")
    until(lambda: not os.listdir(f"{site.home}/spool/mail"), 20, "all mail is sent")
    tally.same("no more", len(mails()), 5)
    site.utility("qsub", "-J", "1-3", "-m", "ej", given="true\n", cwd=folder)
    until(lambda: len(mails()) == 8, 30, "one for each member")
    tally.same("by its index", len(re.findall(r"^PBS Job Id: [0-9]+\[[123]\]\.argonne$", "".join(mails()), re.MULTILINE)), 3)


SCENES = {it.__name__: it for it in (pbs_nodes, pbs_files, pbs_variables, pbs_others, pbs_directives, pbs_mail)}
__all__ = ["SCENES", "SERVICE", "submitted", "text_of", "work_in"]
