"""What the utilities say to `--help`."""
from __future__ import annotations

# that of the OpenPBS whose utilities these follow, for programs that ask it
VERSION = "19.0.0 (Nettlebeam 1.0.0)"
USAGES = {
    "qsub": "[-a date] [-A account] [-C prefix] [-d folder] [-e path] [-F words] [-h] [-j oe|eo|n] [-J X-Y[:step][%most]] [-k o|e|oe|n] [-l list] [-m abe|n]"
    " [-M users] [-N name] [-o path] [-p priority] [-q queue] [-S shell] [-v variables] [-V] [-W depend=..|block=true] [-z]"
    " [script | -- program word ..]",
    "qalter": "[-a date] [-A account] [-e path] [-j oe|eo|n] [-k o|e|oe|n] [-l list] [-m abe|n] [-M users] [-N name] [-o path]"
    " [-p priority] [-S shell] [-v variables] [-V] [-W depend=..] job ..",
    "qhold": "[-h kinds] job ..",
    "qrls": "[-h kinds] job ..",
    "qdel": "job ..",
    "tracejob": "job ..",
    "sacct": "[-a] [-j jobs] [-u users] [-S moment] [-E moment] [-s states] [-o fields] [-n] [-P | -p]",
    "scontrol": "show job|node|partition [name] | hold job .. | release job ..",
    "pbsnodes": "-a [-F json] | -l [state] | -S | -o [-C why] host .. | -r host .. | host ..",
    "sbatch": "[-n tasks] [-N nodes] [-c processors] [--ntasks-per-node=n] [-t time] [-J name] [-o path] [-e path] [-p partition]"
    " [-M sites] [-A account] [-d dependencies] [-a indices] [-D folder] [-H] [-W] [--export=..] [--mail-type=..] [--mail-user=..]"
    " [--parsable] [--wrap=command | script]",
    "squeue": "[-h] [-o format | -O fields | --json] [--start] [-j jobs] [-u users | --me] [-t states] [-n names] [-p partitions]",
    "scancel": "[-u users | --me] [-n names] [-t states] [-s signal] [job ..]",
    "sinfo": "[-h] [-N] [-p partitions]",
    "qstat": "[-f [-x] [-F json]] [-a | -i | -r | -H | -Q | -q | -B] [-n] [-s] [-T] [-1] [-w] [-t] [-x] [-u users] [job ..]",
}


def version_of(is_of_slurm: bool) -> str:
    """What a utility says to `--version`."""
    return f"{'slurm' if is_of_slurm else 'pbs_version ='} {VERSION}\n"


def usage_of(utility: str) -> str:
    """The usage of a utility."""
    return f"usage: {utility} {USAGES.get(utility, 'word ..')}\n"
