"""Figures of a site that retires what has ended: what it needs after 10,000, 30,000 and 100,000 jobs, and how long a line takes."""
import os
import subprocess
import threading
import time

FIGURES = (10_000, 30_000, 100_000)  # behind so many jobs the figures are told
STEP = 1_000  # behind so many jobs what has ended is retired
OPEN = 1_000  # so many jobs stand open all the time, or of each hundred jobs one stays open
ROSTER = ["argonne:8", "lemont:4"]
TICKS = os.sysconf("SC_CLK_TCK")


class Serving:
    """One `serve`, which is asked many lines at once."""

    def __init__(self, program, place):
        self.process = subprocess.Popen([program, "serve", "--keep-history", place], stdin=subprocess.PIPE, stdout=subprocess.PIPE)

    def write(self, lines):
        """Writes lines while their answers are read."""
        self.process.stdin.write("".join(f"{line}\n" for line in lines).encode())
        self.process.stdin.flush()

    def ask(self, lines):
        """Asks lines, each of which has to be done. Gives how many bytes answered them."""
        writing = threading.Thread(target=self.write, args=(lines,))
        writing.start()
        size, left = 0, len(lines)
        while left:
            answer = self.process.stdout.readline()
            if not answer or answer.startswith((b"refused", b"usage", b"cannot")):
                raise SystemExit(f"bench/site: serve answered {answer!r}")
            size += len(answer)
            left -= answer == b"\n"
        writing.join()
        return size

    def processor(self):
        """The seconds of the processor that it has used."""
        with open(f"/proc/{self.process.pid}/stat", encoding="ascii") as file:
            words = file.read().rpartition(")")[2].split()
        return (int(words[11]) + int(words[12])) / TICKS

    def memory(self):
        """The bytes of memory that it has now, and those that it had at most."""
        with open(f"/proc/{self.process.pid}/status", encoding="ascii") as file:
            rows = dict(line.split(":", 1) for line in file)
        return tuple(int(rows[name].split()[0]) * 1024 for name in ("VmRSS", "VmHWM"))

    def end(self):
        """Ends it."""
        self.process.stdin.close()
        if self.process.wait():
            raise SystemExit("bench/site: serve failed")


class Jobs:
    """The lines of jobs of one site, whose counters go on by one with each line that is done."""

    def __init__(self, apart):
        self.apart = apart
        self.counter = self.made = 0
        self.retired = 0  # what is retired reaches to this counter, but for the jobs that stay

    def submit(self):
        """The line of a job that stays open."""
        self.counter += 1
        return "ann qsub"

    def whole(self):
        """The lines of a job from its submission to its end."""
        job = self.counter + 1
        self.counter += 4
        return ["ann qsub", f"grant {job} argonne", f"begin {job} 0", f"finish {job} 60 0"]

    def retire(self, last):
        """The line that retires what has ended behind the last range, up to this counter."""
        first, self.retired = self.retired + 1, last
        return f"retire {first} {last}"

    def step(self):
        """The lines of some jobs, and of what is retired then."""
        lines, ends = [], []
        for _ in range(STEP):
            self.made += 1
            if self.apart and self.made % 100 == 0:
                ends.append(self.counter)
                lines.append(self.submit())
            else:
                lines += self.whole()
        if not self.apart:
            ends.append(self.counter)
        for end in ends:
            lines.append(self.retire(end))
            # the job that stays, where one does, comes next
            self.retired += self.apart
        self.counter += len(ends)
        return lines


def play(program, place, apart, what):
    """Plays 100,000 jobs at one site, and tells the figures on the way."""
    subprocess.run([program, "init", place, "argonne", *ROSTER], check=True)
    serving, jobs = Serving(program, place), Jobs(apart)
    if not apart:
        serving.ask([jobs.submit() for _ in range(OPEN)])
        jobs.retired = jobs.counter
    lines, clock, processor = 0, time.perf_counter(), serving.processor()
    while jobs.made < FIGURES[-1]:
        step = jobs.step()
        serving.ask(step)
        lines += len(step)
        if jobs.made in FIGURES:
            took, used = time.perf_counter() - clock, serving.processor() - processor
            now, most = serving.memory()
            packet = serving.ask(["ship lemont"])
            each = f"{took / lines * 1e6:.1f} us and {used / lines * 1e6:.1f} us of the processor a line"
            print(f"{f'{what}, {jobs.made} jobs':58} {each}, {now / 2**20:.1f} MiB, at most {most / 2**20:.1f}, a packet {packet} bytes", flush=True)
            lines, clock, processor = 0, time.perf_counter(), serving.processor()
    serving.end()


def figures(program, folder):
    """Jobs that are retired in one range beside 1,000 that stay open, and in 1,000 ranges between those that stay."""
    play(program, f"{folder}/in-one-range", False, f"beside {OPEN} open jobs")
    play(program, f"{folder}/in-many-ranges", True, "where one job of 100 stays open")
