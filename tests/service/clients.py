"""Scenes of what PBS users bring: the scripts of examples/pbs, and snakemake."""
import glob
import os
import re
import shutil
import subprocess
import time

from tests.playing import TOP, call
from tests.service.keeping import shim, write
from tests.service.pbs import work_in
from tests.service.scenes import ME, read
from tests.service.sites import until

NAMES = ("qsub", "qstat", "qdel", "qhold", "qrls", "qalter")
WRAPPER = "#!/bin/sh\nNETTLEBEAM_SOCKET={socket} exec {top}/bin/{name} \"$@\"\n"
SNAKEFILE = """\
rule all:
    input: "sum"
rule part:
    output: "part.{n}"
    threads: 4
    resources: time="00:05:00"
    shell: "echo {wildcards.n} > {output}; echo $PBS_NUM_PPN in $PBS_QUEUE >&2"
rule sum:
    input: expand("part.{n}", n=range(1, 30))
    output: "sum"
    resources: time="00:05:00"
    shell: "cat {input} | paste -sd+ | bc > {output}"
"""
STATUS = """\
#!/usr/bin/env python3
import re, subprocess, sys
told = subprocess.run(["qstat", "-f", "-x", sys.argv[1]], capture_output=True, text=True).stdout
state = re.search("^    job_state = (.)", told, re.MULTILINE)
ended = re.search("^    Exit_status = ([0-9]+)", told, re.MULTILINE)
if state and state.group(1) == "F":
    print("success" if ended and ended.group(1) == "0" else "failed")
else:
    print("running")
"""
# the program, whose journal may have so many blocks
LIMITED = """#!/bin/bash
trap '' XFSZ
ulimit -f 4
exec {program} "$@"
"""
# a program with a packet of so many bytes, which keeps one that is taken in a file
LONG_BYTES = 200 * 2**20
LONG = """
def hook(line, ask):
    if line.startswith(b"ship "):
        return b"0 %d 0\\n" % ({size} + 1) + b"x" * {size} + b"\\n"
    if line.startswith(b"take "):
        with open(os.path.dirname(sys.argv[0]) + "/taken", "wb") as file:
            file.write(line)
        return b"0 6 0\\ntaken\\n"
    return ask(line)
"""
CLUSTER = "qsub -q batch -l nodes=1:ppn={threads},walltime={resources.time} -j oe -o logs/{rule}.{jobid}.log"


def utilities_for(federation, site):
    """A PATH that has the utilities first, as an installed site has them for all."""
    folder = f"{federation.folder}/bin"
    os.makedirs(folder)
    for name in NAMES:
        with open(f"{folder}/{name}", "w", encoding="ascii") as file:
            file.write(WRAPPER.format(socket=site.socket, top=TOP, name=name))
        os.chmod(f"{folder}/{name}", 0o755)
    return f"{folder}:{os.environ['PATH']}"


def pbs_examples(tally, federation):
    """The scripts of examples/pbs, each submitted as it says, write what is expected."""
    (site,) = federation.make("argonne:8", jobs="hosts = h1 h2 h3 h4 h5 h6 h7 h8")
    folder = work_in(federation)
    shutil.rmtree(folder)
    shutil.copytree(f"{TOP}/examples/pbs", folder)
    path = utilities_for(federation, site)
    scripts = sorted(glob.glob(f"{folder}/*.pbs") + glob.glob(f"{folder}/*.sh"))
    tally.same("there are eleven", len(scripts), 11)
    outputs = {}
    for script in scripts:
        text, name = read(script), os.path.basename(script)
        command, outputs[name] = (re.search(rf"^# {word}: (.*)$", text, re.MULTILINE).group(1) for word in ("Submit", "Output"))
        done = subprocess.run(command, shell=True, cwd=folder, env={**os.environ, "PATH": path}, capture_output=True, text=True, check=False)
        tally.same(f"{command}", done.returncode, 0)
    until(lambda: all(job["letter"] is None for job in site.jobs().values()), 120, "all have run")
    for name, output in outputs.items():
        expected = read(f"{folder}/{name.rpartition('.')[0]}.expected")
        until(lambda output=output: glob.glob(f"{folder}/{output}"), 5, f"{output} is there")
        tally.same(f"what {name} writes", "".join(map(read, sorted(glob.glob(f"{folder}/{output}")))), expected)


def snakemake(tally, federation):
    """Debian's snakemake runs a workflow of thirty jobs, as PBS sites call it."""
    if not shutil.which("snakemake"):
        print("tests/service/rows: snakemake: skipped, since there is no snakemake")
        return
    (site,) = federation.make("argonne:8")
    folder = work_in(federation)
    os.makedirs(f"{folder}/logs")
    path = utilities_for(federation, site)
    for name, text in (("Snakefile", SNAKEFILE), ("status.py", STATUS)):
        with open(f"{folder}/{name}", "w", encoding="ascii") as file:
            file.write(text)
    os.chmod(f"{folder}/status.py", 0o755)
    words = ["snakemake", "--jobs", "30", "--cluster", CLUSTER, "--cluster-status", f"{folder}/status.py"]
    more = ["--max-jobs-per-second", "50", "--max-status-checks-per-second", "20", "--latency-wait", "10"]
    began = time.monotonic()
    environment = {**os.environ, "PATH": path, "HOME": folder}
    done = subprocess.run([*words, *more], cwd=folder, env=environment, capture_output=True, text=True, check=False, timeout=600)
    tally.same("snakemake ends well", done.returncode, 0)
    print("\n".join(f"tests/service/rows: snakemake: {line}" for line in done.stderr.strip().splitlines()[-4 if done.returncode == 0 else -60 :]))
    tally.same("its sum", read(f"{folder}/sum") if os.path.exists(f"{folder}/sum") else done.stderr[-500:], f"{sum(range(1, 30))}\n")
    ended = [job["finished"]["status"] for job in site.jobs().values() if job["finished"]]
    tally.same("its jobs", ended, [0] * 30)
    logs = [read(name) for name in glob.glob(f"{folder}/logs/*.log")]
    tally.same("output and errors of each in one file", (len(logs), sum("4 in batch\n" in log for log in logs)), (30, 29))
    print(f"tests/service/rows: snakemake: 30 jobs in {time.monotonic() - began:.1f} s")


def statuses(tally, federation):
    """Each status of an answer, with its words: by `at` in a directory, and by the service, which asks `serve --frames`."""
    limited, alone = f"{federation.folder}/limited", f"{federation.folder}/alone"
    write(limited, LIMITED.format(program=federation.program).encode())
    os.chmod(limited, 0o755)
    federation.program = limited
    (site,) = federation.make("argonne:4", "lemont:4", jobs="run = no", sites="here")[:1]
    call([limited, "init", alone, "argonne", "argonne:4", "lemont:4"])
    own = ME
    lines = (
        ("qsub -h -N render", 0, "1.argonne\n", ""),
        ("qalter -p 3 1", 0, "done\n", ""),
        ("qstat 1", 0, f"{'1.argonne':18} {'render':16} {own:16} H      3        1      3600 -\n", ""),
        ("qdel 900", 1, "refused 1\n", "refused 1 (UnknownJob): 900.argonne is no job that argonne knows"),
        ("qhold -h s 1", 1, "refused 2\n", f"refused 2 (NotPermitted): {own} may not hold 1.argonne (kinds s), whose owner is {own}"),
        ("qsub -p 5000", 1, "usage 4\n", "usage 4 (BadValue): 5000 is no priority from -1024 to 1023"),
        ("qdel", 1, "usage 7\n", "usage 7 (MissingOperand): qdel names no job"),
    )
    for line, *wanted in lines:
        status, output, errors = call([limited, "at", alone, own, *line.split()])
        tally.same(f"{line} by at", [status, output, errors.partition("nettlebeam: ")[2].strip()], wanted)
        told = site.ask(*line.split())
        tally.same(f"{line} by the service", [told.status, told.answer.decode(), told.words], wanted)
    while call([limited, "at", alone, own, "qsub"])[0] == 0:
        pass  # a line that is shorter than the one for which no room is left then
    for number in range(200):
        site.ask("qalter", "-p", str(number), "1")
    for _ in range(50):
        site.ask("qrls", "1")  # a line that is no longer than that for which no room is to be left
    status, output, errors = call([limited, "at", alone, own, "qdel", "1"])
    tally.same("without room by at", (status, output, "File too large" in errors), (3, "", True))
    told = site.ask("qdel", "1")
    tally.same("without room by the service", (told.status, told.answer, "File too large" in told.words), (3, b"", True))
    kept = call([limited, "at", alone, "jobs"])[1]
    tally.same("nothing of it is kept", ('"deleted":false' in kept, site.jobs()["1.argonne"]["deleted"]), (True, False))
    tally.same("a look is answered all the same", site.ask("qstat").status, 0)


def long_packets(tally, federation):
    """A packet that is long, as where a centre joins, goes out and comes in by the socket, and the daemon holds few copies of it."""
    federation.program = shim(f"{federation.folder}/long", federation.program, LONG.format(size=LONG_BYTES))
    site, other = federation.make("argonne:4", "lemont:4", jobs="run = no")
    told = site.ask("ship", "lemont")
    tally.same("it goes out whole", (told.status, told.answer == b"x" * LONG_BYTES + b"\n"), (0, True))
    tally.same("and comes in", (other.ask("take", body=told.answer).answer, os.path.getsize(f"{federation.folder}/taken")), (b"taken\n", LONG_BYTES + 6))
    for name, daemon in (("ships", site), ("takes", other)):
        most = int(re.search(r"VmHWM:\s*([0-9]+)", read(f"/proc/{daemon.process.pid}/status")).group(1)) * 1024
        print(f"tests/service/rows: long_packets: the daemon that {name} {LONG_BYTES} bytes had {most} at most")
        tally.true(f"the daemon that {name} it has no more than four copies", most < 4 * LONG_BYTES + 64 * 2**20)


SCENES = {it.__name__: it for it in (pbs_examples, snakemake, statuses, long_packets)}
