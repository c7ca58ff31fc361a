"""What a job is told for Slurm's scripts, and for MPIs: which hosts it has, and that no queue starts processes on them."""
from __future__ import annotations

import itertools
from typing import Any, Dict, List, Sequence

from ..words.options import Fault
from ..words.ranges import read_range
from ..words.resources import read_chunks, times_of
from .job_files import is_member

# Where an MPI finds the hosts: Open MPI from its versions 1.3 and 5 on, MPICH and what is made of it, Intel's.
HOST_FILES = (
    "OMPI_MCA_orte_default_hostfile",
    "PRTE_MCA_prte_default_hostfile",
    "HYDRA_HOST_FILE",
    "I_MPI_HYDRA_HOST_FILE",
)
# By the variables of a job an MPI takes a queue to be there, and would call `srun` or a server of PBS.
BY_SSH = {
    "OMPI_MCA_plm": "^slurm,tm",
    "OMPI_MCA_ras": "^slurm,tm",
    "PRTE_MCA_plm": "^slurm,tm,pals",
    "PRTE_MCA_ras": "^slurm,tm",
    "HYDRA_BOOTSTRAP": "ssh",
    "HYDRA_LAUNCHER": "ssh",
    "HYDRA_RMK": "user",
    "I_MPI_HYDRA_BOOTSTRAP": "ssh",
}


def each_and_count(numbers: Sequence[int]) -> str:
    """Numbers as Slurm has them: `3(x2),1`."""
    runs = [(number, len(list(same))) for number, same in itertools.groupby(numbers)]
    return ",".join(str(number) if count == 1 else f"{number}(x{count})" for number, count in runs)


def array_exports(facts: Dict[str, Any]) -> Dict[str, str]:
    """The place of an array's member in its array."""
    told = {"SLURM_ARRAY_JOB_ID": str(facts["array_id"]).partition("[")[0], "SLURM_ARRAY_TASK_ID": str(facts["index"])}
    try:
        indices = read_range(str(facts.get("array", "")))[0]
    except Fault:
        return told  # the service of its origin is older, and doesn't tell it
    ends = {"SLURM_ARRAY_TASK_MIN": indices[0], "SLURM_ARRAY_TASK_MAX": indices[-1], "SLURM_ARRAY_TASK_COUNT": len(indices)}
    return {**told, **{name: str(number) for name, number in ends.items()}}


def slurm_exports(job: str, name: str, hosts: Sequence[str], facts: Dict[str, Any]) -> Dict[str, str]:
    """The variables of Slurm, for what sbatch has submitted."""
    tasks, mark, processors = str(facts.get("slurm", "")).partition("x")
    if not mark or not tasks.isdigit() or not processors.isdigit():
        return {}
    times = times_of(read_chunks(str(facts.get("chunks", ""))), len(hosts))
    number, names, count = job.partition(".")[0], ",".join(dict.fromkeys(hosts)), str(len(hosts))
    told = {
        "SLURM_CPUS_PER_TASK": processors,
        "SLURM_JOB_CPUS_PER_NODE": each_and_count([each * int(processors) for each in times]),
        "SLURM_JOB_NAME": name,
        "SLURM_JOB_PARTITION": str(facts.get("queue") or "batch"),
        "SLURM_NTASKS_PER_NODE": str(times[0]),
        "SLURM_SUBMIT_DIR": str(facts.get("folder", "")),
        "SLURM_SUBMIT_HOST": str(facts.get("host", "")),
        "SLURM_TASKS_PER_NODE": each_and_count(times),
        "SLURMD_NODENAME": hosts[0],
    }
    told.update(dict.fromkeys(("SLURM_JOB_ID", "SLURM_JOBID"), number))
    told.update(dict.fromkeys(("SLURM_NTASKS", "SLURM_NPROCS"), tasks))
    told.update(dict.fromkeys(("SLURM_JOB_NUM_NODES", "SLURM_NNODES"), count))
    told.update(dict.fromkeys(("SLURM_JOB_NODELIST", "SLURM_NODELIST"), names))
    told.update(dict.fromkeys(("SLURM_PROCID", "SLURM_LOCALID", "SLURM_NODEID"), "0"))
    return {**told, **array_exports(facts)} if is_member(facts) else told


def mpi_text() -> str:
    """What has an MPI use all hosts of a job. How it reaches them its owner's variables and profile may say otherwise."""
    lines: List[str] = [f"{name}=$PBS_NODEFILE; export {name}" for name in HOST_FILES]
    return "\n".join(lines + [f": ${{{name}={value}}}; export {name}" for name, value in BY_SSH.items()])
