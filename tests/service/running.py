"""Scenes of the utilities around a job's one start: qselect, qsig, qmsg, qmove, qrerun."""
import os
import pwd
import time

from tests.service.moments import PORT, read_page
from tests.service.scenes import ME, OPERATOR, OTHER, as_user, is_root, read
from tests.service.sites import until

TRAPPING = "trap 'echo usr1 >> {0}' USR1\ntrap 'echo term >> {0}; exit 9' TERM\necho began > {0}\nwhile :; do sleep 0.1; done\n"


def signals(tally, federation):
    """`qsig` sends signals to jobs that run here, for their owners and for operators."""
    federation.has_links = True
    argonne, lemont = federation.make("argonne:2", "lemont:2", operators=OPERATOR)
    heard = f"{federation.folder}/heard"
    job = argonne.submit(TRAPPING.format(heard), "-l", "sites=argonne")
    until(lambda: os.path.exists(heard), 20, "the job runs")
    for words in (("-s", "USR1"), ("-s", "SIGUSR1"), ("-sUSR1",), ("-s", "10"), ("-s", "usr1")):
        before = read(heard).count("usr1")
        tally.same(f"qsig {words}", argonne.utility("qsig", *words, job), (0, "done\n", ""))
        until(lambda before=before: read(heard).count("usr1") > before, 10, "the job hears it")
    tally.same("the null signal", argonne.utility("qsig", "-s", "0", job)[:2], (0, "done\n"))
    if is_root(tally):
        tally.same("another user", argonne.utility("qsig", job, before=as_user(OTHER))[:2], (1, "refused 2\n"))
        operator = {"before": as_user(OPERATOR), "environment": {"NETTLEBEAM_ROLE": "operator"}}
        tally.same("an operator", argonne.utility("qsig", "-s", "USR1", job, **operator)[:2], (0, "done\n"))
        nobody = {"before": as_user(OTHER), "environment": {"NETTLEBEAM_ROLE": "operator"}}
        tally.same("another user takes no role", argonne.utility("qsig", job, **nobody)[:2], (2, ""))
    held = argonne.submit("true\n", "-h")
    until(lambda: job in lemont.jobs() and lemont.jobs(job)[job]["begun"], 20, "lemont knows that the job runs")
    tally.same("one that hasn't begun", argonne.utility("qsig", held)[:2], (1, "refused 11\n"))
    tally.same("one of another site", lemont.utility("qsig", job)[:2], (1, "refused 9\n"))
    tally.true("which is told", "runs at argonne" in lemont.utility("qsig", job)[2])
    tally.same("one of no site", argonne.utility("qsig", "1.nowhere")[:2], (1, "refused 1\n"))
    tally.same("several", argonne.utility("qsig", "-s", "0", "900", job, held)[:2], (1, "refused 1\ndone\nrefused 11\n"))
    for words in (("-s", "NONE", job), ("-s", "65", job), ("-s", "9" * 5000, job), ("-s",), (), ("-x", job), ("not-a-job",)):
        tally.same(f"qsig {words} can't be asked", argonne.utility("qsig", *words)[:2], (2, ""))
    before = read(heard).count("term")
    tally.same("without -s it is TERM", argonne.utility("qsig", job)[:2], (0, "done\n"))
    tally.same("which the script makes a status of", argonne.finished(job), 9)
    tally.same("once", read(heard).count("term") - before, 1)
    tally.same("one that is gone", argonne.utility("qsig", job)[:2], (1, "refused 3\n"))
    asleep = argonne.submit("exec sleep 300\n", "-l", "sites=argonne")
    until(lambda: argonne.jobs(asleep)[asleep]["begun"], 20, "another runs")
    until(lambda: asleep in lemont.jobs() and lemont.jobs(asleep)[asleep]["begun"], 20, "lemont knows of it")
    federation.cut("lemont", "argonne")
    tally.same("it is deleted where its site doesn't hear it", lemont.utility("qdel", asleep)[:2], (0, "done\n"))
    begun = lemont.jobs(asleep)[asleep]["begun"]
    told = f"begun at argonne since {begun['moment']} on 1 nodes until {begun['end']}, deleted\n"
    tally.same("why tells where it runs", lemont.utility("qask", "why", asleep, "0")[1], told)
    until(lambda: argonne.utility("qsig", "-s", "KILL", asleep)[0] == 0, 10, "it is killed")
    tally.same("with the status of that", argonne.finished(asleep), 137)


def messages(tally, federation):
    """`qmsg` writes into the files of jobs that run here, as their owners."""
    (site,) = federation.make("argonne:2", operators=OPERATOR)
    folder = f"{federation.folder}/its"
    os.mkdir(folder)
    job = site.submit("echo one; echo bad >&2; sleep 3; echo two; echo worse >&2\n", "-N", "told", folder=folder)
    out, err = (f"{folder}/told.{kind}{job.split('.')[0]}" for kind in "oe")
    until(lambda: os.path.exists(err) and read(err), 20, "the job runs")
    tally.same("to the errors", site.utility("qmsg", "the machine stops at noon", job), (0, "done\n", ""))
    tally.same("to the output", site.utility("qmsg", "-O", "$(id) `id` 'x'", job), (0, "done\n", ""))
    tally.same("to both", site.utility("qmsg", "-EO", "a\nb", job), (0, "done\n", ""))
    tally.same("its end", site.finished(job), 0)
    tally.same("the output has it between the script's lines", read(out), "one\n$(id) `id` 'x'\na\nb\ntwo\n")
    tally.same("so have the errors", read(err), "bad\nthe machine stops at noon\na\nb\nworse\n")
    tally.same("to one that is gone", site.utility("qmsg", "x", job)[:2], (1, "refused 3\n"))
    for words in (("x",), ("", job), ("-Z", "x", job), ()):
        tally.same(f"qmsg {words} can't be asked", site.utility("qmsg", *words)[:2], (2, ""))
    if is_root(tally):
        again = site.submit("sleep 2\n", folder=folder)
        until(lambda: site.jobs(again)[again]["begun"], 20, "another runs")
        tally.same("another user may not", site.utility("qmsg", "x", again, before=as_user(OTHER))[:2], (1, "refused 2\n"))


def choices(tally, federation):
    """`qselect` selects by values, `qmove` changes the sites, `qrerun` is refused in its own words."""
    (site,) = federation.make("argonne:8", "lemont:4", jobs="run = no")[:1]
    given = (("-N", "a", "-p", "5"), ("-l", "nodes=4,walltime=7200"), ("-h", "-A", "chem"), ("-l", "sites=lemont", "-p", "-7"), ("-N", "a", "-h"))
    jobs = [site.submit("true\n", *words) for words in given]
    site.ask("qhold", "-h", "o", jobs[4], role=None)
    gone = site.submit("true\n")
    site.ask("qdel", gone)

    def selected(*words):
        status, output, errors = site.utility("qselect", *words)
        return [jobs.index(name) for name in output.split()] if status == 0 and not errors else (status, output)

    for words, wanted in (
        ((), [0, 1, 2, 3, 4]),
        (("-N", "a"), [0, 4]),
        (("-A", "chem"), [2]),
        (("-h", "u"), [2, 4]),
        (("-h", "n"), [0, 1, 3]),
        (("-s", "Q"), [0, 1, 3]),
        (("-s", "HR"), [2, 4]),
        (("-p", "5"), [0]),
        (("-p", ".lt.0"), [3]),
        (("-p.ge.0", "-s", "Q"), [0, 1]),
        (("-l", "nodes.gt.1"), [1]),
        (("-l", "walltime=2:00:00"), [1]),
        (("-l", "walltime.lt.2:00:00,nodes=1"), [0, 2, 3, 4]),
        (("-l", "sites=lemont"), [3]),
        (("-l", "sites.ne.lemont"), [0, 1, 2, 4]),
        (("-q", "argonne"), [0, 1, 2, 4]),
        (("-u", ME), [0, 1, 2, 3, 4]),
        (("-u", "ann,bob"), []),
    ):
        tally.same(f"qselect {words}", selected(*words), wanted)
    for words in (("-p", "x"), ("-l", "nodes"), ("-l", "color=5"), ("-s", "Z"), ("-h", ""), ("-a", "0"), ("-N",), ("x",)):
        tally.same(f"qselect {words} can't be asked", site.utility("qselect", *words)[:2], (2, ""))
    tally.same("qmove", site.utility("qmove", "lemont", jobs[0]), (0, "done\n", ""))
    tally.same("is an alteration of the sites", site.jobs(jobs[0])[jobs[0]]["sites"], ["lemont"])
    tally.same("to several", site.utility("qmove", "@lemont+argonne", jobs[0])[:2], (0, "done\n"))
    tally.same("which all stand there", site.jobs(jobs[0])[jobs[0]]["sites"], ["argonne", "lemont"])
    tally.same("of a job that isn't known", site.utility("qmove", "lemont", "900")[:2], (1, "refused 1\n"))
    tally.same("to no site", site.utility("qmove", "rome", jobs[0])[:2], (1, "usage 6\n"))
    for words in (("lemont",), (), ("a b", jobs[0]), ("-x", "lemont", jobs[0])):
        tally.same(f"qmove {words} can't be asked", site.utility("qmove", *words)[:2], (2, ""))
    status, output, errors = site.utility("qrerun", jobs[0], jobs[1])
    tally.same("qrerun", (status, output, errors.count("no job begins twice"), errors.count("qrerun: ")), (1, "", 2, 2))
    tally.same("of no job", site.utility("qrerun")[:2], (2, ""))
    time.sleep(0.1)
    tally.same("nothing else was changed", [job["letter"] for job in site.jobs().values()], ["Q", "Q", "H", "Q", "H", None])


def unheard(tally, federation):
    """Who deletes or holds a job of a site that can't be reached is told so, and so is who asks why."""
    federation.has_links = True
    argonne, lemont = federation.make("argonne:1", "lemont:1", jobs="run = no", pages={"lemont": PORT})
    held, deleted, heard = (argonne.submit("true\n") for _ in range(3))
    until(lambda: heard in lemont.jobs(), 20, "lemont knows of them")
    tally.same("where it is reached nothing is told", lemont.utility("qhold", heard), (0, "done\n", ""))
    until(lambda: argonne.jobs(heard)[heard]["holds"], 20, "it hears of it")
    until(lambda: lemont.utility("qask", "why", heard, "0")[2] == "", 20, "lemont is told that it has")
    federation.cut("lemont", "argonne")
    lemont.submit("true\n")
    until(lambda: "argonne: " in lemont.logged(), 20, "it isn't reached")
    for utility, job in (("qhold", held), ("qdel", deleted)):
        told = f"{job}: its origin argonne hasn't heard of it yet, so that it may still run there\n"
        tally.same(utility, lemont.utility(utility, job), (0, "done\n", f"{utility}: {told}"))
        tally.same("why", lemont.utility("qask", "why", job, "0")[2], f"qask: {told}")
        tally.true("its page", "hasn&#x27;t heard of it yet" in read_page(f"/jobs/{job}")[1])
    tally.true("the page of the queue", "hasn&#x27;t heard of it yet" in read_page("/")[1])
    tally.same("of one that it has heard of nothing is told", lemont.utility("qask", "why", heard, "0")[2], "")
    lemont.kill()
    lemont.start()
    lemont.wait_ready()
    tally.true("a restart keeps it", "hasn't heard" in lemont.utility("qask", "why", held, "0")[2])
    federation.join("lemont", "argonne")
    until(lambda: lemont.utility("qask", "why", held, "0")[2] == "", 30, "it is heard")
    tally.same("then the job is held there", argonne.jobs(held)[held]["holds"], ["u"])


# what an owner's profile may do, and what stands in the job's file of errors then
PROFILES = {
    "echo noise; echo more >&2; FROM=profile; PATH=/opt/own:$PATH; export FROM PATH; umask 0; cd /; greet() { echo greeted; }; export -f greet": "",
    "exit 3": "ended with status 3 before the script",
    "exec true": "ended with status 0 before the script",
    "exec false": "ended with status 1 before the script",
    "PATH=/nowhere": "",
    "exec 7>&- 8>&- 1>&- 2>&-": "before the script",
    "trap 'exit 9' EXIT; readonly PATH": "",
    "set -eu; TMPDIR=/nowhere; IFS=/": "",
    "if": "",
}
SHOWN = 'echo "${FROM:-none} $(umask) $PWD ${PATH%%:*} ${MINE:-none}"; [ -d "$TMPDIR" ]; ls -A "$TMPDIR"; type greet > /dev/null 2>&1 && greet; exit 5\n'


def profiles(tally, federation):
    """Scripts run behind a login shell of their owner; whatever a profile does, each runs once, and its output has nothing of it."""
    folder = f"{federation.folder}/its"
    os.mkdir(folder)
    (site,) = federation.make("argonne:4", jobs=f"start = env HOME={folder} TMPDIR={folder}\nleast_uid = 0\nlogin = yes")

    def profile(text):
        with open(f"{folder}/.bash_profile", "w", encoding="ascii") as file:
            file.write(f"{text}\n")

    def ran(script, *words, utility="qsub", said="", **how):
        job = site.utility(utility, *words, given=f"{script}\necho once >> {folder}/ran\n".replace("exit 5\n\necho", "echo") + "exit 5\n", cwd=folder, **how)[1].split()[-1]
        tally.same(f"{words}: its status", site.finished(job), 5)
        number = job.split(".")[0]
        errors = read(f"{folder}/STDIN.e{number}") if utility == "qsub" else ""
        tally.same(f"{words}: its errors: {errors}", (said in errors, bool(errors)), (True, bool(said)))
        tally.same(f"{words}: it ran once", read(f"{folder}/ran"), "once\n")
        os.remove(f"{folder}/ran")
        return read(f"{folder}/STDIN.o{number}" if utility == "qsub" else f"{folder}/slurm-{number}.out")

    sets, bash = next(iter(PROFILES)), "#!/bin/bash\n"
    profile(sets)
    own = f"profile 0027 {folder} /opt/own none\ngreeted\n"
    umask = {"before": ["sh", "-c", 'umask 027; exec "$@"', "sh"]}
    tally.same("#!/bin/bash", ran(bash + SHOWN, **umask), own)
    tally.same("#!/usr/bin/env bash", ran("#!/usr/bin/env bash\n" + SHOWN, **umask), own)
    tally.same("-S", ran(SHOWN, "-S", "/bin/bash", **umask), own)
    if pwd.getpwuid(os.getuid()).pw_shell == "/bin/bash":
        tally.same("the owner's shell", ran(SHOWN, **umask), own)
        tally.same("of another program", ran(f"#!/usr/bin/env -S sh\n{SHOWN}", **umask).split()[0], "profile")
    given = {"environment": {"FROM": "here", "MINE": "m", "PATH": f"/other:{os.environ['PATH']}"}, **umask}
    tally.same("-V goes before", ran(bash + SHOWN, "-V", **given), f"here 0027 {folder} /other m\ngreeted\n")
    tally.same("so does -v", ran(bash + SHOWN, "-v", "FROM=v", **given), f"v 0027 {folder} /opt/own none\ngreeted\n")
    tally.same("sbatch", ran(bash + SHOWN, utility="sbatch", **given), f"here 0027 {folder} /other m\ngreeted\n")
    for text, said in list(PROFILES.items())[1:]:
        profile(text)
        ran(bash + "exit 5\n", "-v", f"AFTER={text}".replace(",", " "), said=said)
    profile("touch began; sleep 60")
    job = site.submit("#!/bin/bash\necho ran > never\n", folder=folder)
    until(lambda: os.path.exists(f"{folder}/began"), 20, "its profile is read")
    time.sleep(1)  # a bash that is just starting a process may take no notice of a signal
    site.ask("qdel", job)
    tally.same("one that is deleted meanwhile doesn't run", (site.finished(job), os.path.exists(f"{folder}/never")), (143, False))


def bare(tally, federation):
    """Without login shells nothing of a profile is read; a shell that is configured runs scripts that name none."""
    folder = f"{federation.folder}/its"
    os.mkdir(folder)
    for name in (".profile", ".bash_profile"):
        with open(f"{folder}/{name}", "w", encoding="ascii") as file:
            file.write("FROM=profile; export FROM\n")
    (site,) = federation.make("argonne:4", jobs=f"start = env HOME={folder}\nleast_uid = 0\nlogin = no\nshell = /bin/sh")
    job = site.submit('echo "${FROM:-none} ${BASH_VERSION:+bash}"; exit 5\n', folder=folder)
    tally.same("it runs", (site.finished(job), read(f"{folder}/STDIN.o{job.split('.')[0]}")), (5, "none \n"))


SCENES = {it.__name__: it for it in (signals, messages, choices, unheard, profiles, bare)}
