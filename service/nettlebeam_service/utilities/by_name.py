"""What the utilities qsub, qalter, qhold, qrls, qdel and qstat, and Slurm's sbatch, squeue and the like do, by the name that they
are called by.

Each asks the service at the socket NETTLEBEAM_SOCKET; without that the site in the directory NETTLEBEAM_DIR, as the user who is
logged in; without both the only service of this machine. The role is that of NETTLEBEAM_ROLE: `operator` or `admin`, or none."""
from __future__ import annotations

import os
import sys

OF_SITES = ("qsub", "qalter", "qhold", "qrls", "qdel", "qstat")
OF_SLURM = ("sbatch", "squeue", "scancel", "sinfo", "sacct", "scontrol", "srun", "salloc")


def main(name: str, words: list[str], here: str) -> int:
    """Asks the service, or a site's directory by the program in the folder `here`, and gives the status."""
    if name not in OF_SITES + OF_SLURM:
        return stop(name, f"call this as {', '.join(OF_SITES)}, or as {', '.join(OF_SLURM)}")
    is_alone = os.environ.get("NETTLEBEAM_DIR") and not os.environ.get("NETTLEBEAM_SOCKET")
    if is_alone and name in OF_SLURM:
        return stop(name, "it asks a service, and no site in a directory")
    if not is_alone:
        # only what is called is read, since each start pays for it
        from .main import main as ask

        return ask(name, words)
    from .without_service import main as call

    return call(name, words, here)


def stop(name: str, why: str) -> int:
    """Tells why nothing is asked."""
    print(f"{name}: {why}", file=sys.stderr)
    return 2
