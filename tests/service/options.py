"""The scene `options`: each option of the qsub of OpenPBS and of Torque, and of Slurm's sbatch, by the table `options.tsv`.

A line of the table is a call and what its answer must be: `done`, which writes a name and no complaint; `said WORDS`, which writes
a name, and these words beside it; `quiet`, which writes nothing; or `refused WORDS`, which writes nothing but these words among
others on standard error.
"""
import io
import os
import shlex
import sys

from tests.service.pbs import work_in
from tests.service.sites import SERVICE

sys.path.insert(0, SERVICE)

from nettlebeam_service.utilities import main as utilities  # noqa: E402

TABLE = os.path.join(os.path.dirname(os.path.abspath(__file__)), "options.tsv")


def called(site, folder, words):
    """What a utility says, called in a process that is forked for it: its status, its output and its words."""
    files = [os.path.join(folder, name) for name in (".given", ".output", ".errors")]
    with open(files[0], "w", encoding="ascii") as file:
        file.write("true\n")
    child = os.fork()
    if not child:
        status = 99
        try:
            os.chdir(folder)
            os.environ.pop("NETTLEBEAM_ANSWERS", None)
            os.environ["NETTLEBEAM_SOCKET"] = site.socket
            modes = (os.O_RDONLY, *2 * (os.O_WRONLY | os.O_CREAT | os.O_TRUNC,))
            for number, (path, mode) in enumerate(zip(files, modes)):
                os.dup2(os.open(path, mode, 0o600), number)
            sys.stdin, sys.stdout, sys.stderr = (io.open(number, "rw"[number > 0], closefd=False) for number in range(3))
            status = utilities.main(words[0], words[1:])
            sys.stdout.flush()
            sys.stderr.flush()
        finally:
            os._exit(status)
    status = os.waitstatus_to_exitcode(os.waitpid(child, 0)[1])
    told = []
    for path in files[1:]:
        with open(path, encoding="utf-8") as file:
            told.append(file.read())
    return (status, *told)


def options(tally, federation):
    """Each call of the table is answered as the table says."""
    (site,) = federation.make("argonne:8", "lemont:4", jobs="run = no", sites="here")[:1]
    folder = work_in(federation)
    os.makedirs(f"{folder}/there")
    with open(f"{folder}/job.sh", "w", encoding="ascii") as file:
        file.write("true\n")
    with open(TABLE, encoding="utf-8") as file:
        lines = [line for line in file.read().splitlines() if line and not line.startswith("#")]
    for line in lines:
        call, mark, wanted = line.partition("\t")
        kind, _, said = wanted.partition(" ")
        if not mark or kind not in ("done", "quiet", "said", "refused") or (kind in ("done", "quiet")) == bool(said):
            tally.fail(f"options.tsv: {line!r} is no call and its answer")
            continue
        status, output, errors = called(site, folder, shlex.split(call))
        if kind in ("done", "quiet"):
            tally.same(call, (status, bool(output), errors), (0, kind == "done", ""))
        else:
            tally.same(f"{call}: {errors!r}", (status == 0, bool(output), said in errors), (*2 * (kind == "said",), True))


SCENES = {"options": options}
