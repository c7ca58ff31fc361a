"""Lists of resources as PBS has them: numbers of nodes, chunks of `select`, and what is without effect where nodes are whole."""
from __future__ import annotations

from .options import Fault, seconds_of

TYPE_CHECKING = False
if TYPE_CHECKING:
    from typing import Dict, List, Optional, Sequence, Tuple

WITHOUT_EFFECT = (
    *("ncpus", "mem", "vmem", "pmem", "pvmem", "cput", "pcput", "file"),
    *("place", "nice", "arch", "mpiprocs", "ompthreads"),
)
# what names a node, which a plan doesn't look at
NAMING = ("host", "vnode")
NO_CHOICE = "no job chooses its nodes here: give a number of nodes"
LONGEST_NUMBER = 9
MOST_OF_NODE = 4096
MOST_LINES = 1_000_000


class Chunk:
    """So many nodes, each so many times in the file of nodes, with so many processors, and so many threads for each of its
    processes."""

    def __init__(self, nodes: int, times: int, processors: int, threads: int):
        self.nodes = nodes
        self.times = times
        self.processors = processors
        self.threads = threads

    def text(self) -> str:
        """The chunk as a word of the facts."""
        return f"{self.nodes}x{self.times}x{self.processors}x{self.threads}"


class Resources:
    """What lists of resources say: pairs for the site, the chunks, what was said, and what of it is without effect."""

    def __init__(self) -> None:
        self.pairs: Dict[str, str] = {}
        self.chunks: List[Chunk] = []
        self.said: Dict[str, str] = {}
        self.idle: List[str] = []

    def ignore(self, name: str) -> None:
        """Keeps that a resource is without effect."""
        if name not in self.idle:
            self.idle.append(name)

    def add(self, text: str) -> None:
        """Adds a list; of a resource given twice the last counts."""
        for pair in text.split(","):
            name, mark, value = pair.partition("=")
            if name in NAMING:
                raise Fault(f"-l {pair}: {NO_CHOICE}")
            if name in ("nodes", "select") and mark and not is_number(value):
                self.chunks = [self.chunk(part, name) for part in value.split("+")]
                value = str(sum(chunk.nodes for chunk in self.chunks))
            elif name in ("nodes", "select") and mark:
                self.chunks = []
            elif name in WITHOUT_EFFECT:
                self.said[name] = value
                self.ignore(name)
                continue
            if name in ("nodes", "select"):
                self.said.pop("select" if name == "nodes" else "nodes", None)
                self.said[name] = pair.partition("=")[2]
            self.pairs["nodes" + mark if name == "select" else name + mark] = seconds_of(value) if name == "walltime" else value

    def chunk(self, text: str, resource: str) -> Chunk:
        """One chunk: `2:ppn=8`, `2:ncpus=8:mpiprocs=4`, `ncpus=8`."""
        first, *others = text.partition("#")[0].split(":")  # Torque has `#shared` and the like behind
        if not first:
            raise Fault(f"-l {resource}: {text!r} is no number of nodes")
        if not is_number(first) and "=" in first:
            first, others = "1", [first, *others]
        elif not is_number(first):
            raise Fault(f"-l {resource}={text}: {first} is no number of nodes, and {NO_CHOICE}")
        numbers = {"ppn": 0, "ncpus": 0, "mpiprocs": 0, "ompthreads": 0}
        for other in others:
            name, mark, value = other.partition("=")
            if name in numbers and mark:
                if not is_number(value) or not 0 < int(value) <= MOST_OF_NODE:
                    raise Fault(f"-l {resource}: {other} is no number from 1 to {MOST_OF_NODE}")
                numbers[name] = int(value)
            elif name in NAMING:
                raise Fault(f"-l {resource}={text}: {NO_CHOICE}")
            elif name and mark:
                self.ignore(name)
            else:
                self.ignore(f"the property {name}")
        if numbers["ncpus"]:
            self.ignore("ncpus")
        times = numbers["ppn"] or numbers["mpiprocs"] or 1
        processors = numbers["ncpus"] or times
        threads = numbers["ompthreads"] or max(1, processors // times)
        return Chunk(int(first), times, processors, threads)

    def words(self) -> List[str]:
        """The option for the site."""
        return ["-l", ",".join(name + value for name, value in self.pairs.items())] if self.pairs else []

    def facts(self) -> Dict[str, str]:
        """What the job is told of them."""
        told = {"chunks": "+".join(chunk.text() for chunk in self.chunks)} if self.chunks else {}
        ncpus = self.said.get("ncpus", "")
        if not self.chunks and is_number(ncpus) and int(ncpus):
            told["chunks"] = Chunk(1, 1, int(ncpus), int(ncpus)).text()
        asked = ",".join(f"{name}={value}" for name, value in self.said.items())
        return {**told, "resources": asked} if asked else told


def is_number(text: str) -> bool:
    """Whether a text is a number that isn't too long."""
    return text.isascii() and text.isdigit() and len(text) <= LONGEST_NUMBER


def read_chunks(text: str) -> List[Chunk]:
    """The chunks in a job's facts; none where there is another text."""
    parts = [part.split("x") for part in text.split("+")] if text else []
    if not all(len(part) == 4 and all(map(is_number, part)) for part in parts):
        return []
    chunks = [Chunk(*map(int, part)) for part in parts]
    return chunks if all(0 < chunk.times <= MOST_OF_NODE for chunk in chunks) else []


def times_of(chunks: Sequence[Chunk], nodes: int) -> List[int]:
    """How often each of so many hosts stands in the file of nodes. The number of a job's nodes may have been altered."""
    times: List[int] = []
    for chunk in chunks:
        times += [chunk.times] * min(chunk.nodes, nodes - len(times))
    times += [chunks[-1].times if chunks else 1] * (nodes - len(times))
    return times if sum(times) <= MOST_LINES else [1] * nodes


def counts_of(facts: Dict[str, str], nodes: int) -> Tuple[int, int, int]:
    """How many lines the file of nodes has, how often its first host stands there, and how many processors that is to have."""
    if not facts.get("chunks"):
        return nodes, 1, 1
    chunks = read_chunks(facts["chunks"])
    times = times_of(chunks, nodes)
    return sum(times), times[0] if times else 1, chunks[0].processors if chunks else 1


def without_effect(names: Sequence[str]) -> Optional[str]:
    """The words for what has no effect."""
    return f"without effect, since nodes are whole here: {', '.join(names)}" if names else None
