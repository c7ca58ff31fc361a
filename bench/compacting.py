"""Figures of journals that are compacted: of `compact`, of openings before and behind it, and of `serve` that compacts."""
import os
import shutil
import subprocess
import threading
import time

JOBS = 10_000  # the most that a site may submit
JOBS_OF_TAKE = 20
ROSTER = ["argonne:8", "lemont:4"]
PAUSE_SECONDS = 0.002


def packet(counter, jobs):
    """The line that takes a packet of argonne: of each of these jobs the priority was set last, at the counters behind this
    one. With the counter that it reaches."""
    texts, need = [], counter
    for job in jobs:
        counter += 1
        stamp = f"[{job},0]"
        texts.append(
            f'{{"account":["",{stamp}],"deleted":false,"grant":null,"holds":[],"id":{stamp},"limit":[3600,{stamp}],"name":["STDIN",{stamp}],'
            f'"nodes":[1,{stamp}],"owner":["ann",{stamp}],"priority":[{counter % 1000},[{counter},0]],"progress":null,'
            f'"sites":[[0,{stamp}],[1,{stamp}]],"touched":[{counter},0,0,0,0,0,0,0,0,0,0,0,0,0,0,0]}}'
        )
    rest = ",0" * 15
    text = f'{{"format":2,"jobs":[{",".join(texts)}],"need":[{need}{rest}],"reached":[{counter}{rest}],"reservations":[],"sender":0}}'
    return f"take {text}\n".encode(), counter


def takes(count, jobs=JOBS):
    """So many lines that take packets, each of some jobs of argonne that changed, one after the other of so many jobs."""
    counter = 0
    for first in range(0, jobs, JOBS_OF_TAKE):
        # jobs that are new: their stamps are their own
        if count <= 0:
            return
        count -= 1
        line, _ = packet(first, range(first + 1, first + 1 + JOBS_OF_TAKE))
        counter = first + JOBS_OF_TAKE
        yield line
    for k in range(count):
        first = k * JOBS_OF_TAKE % jobs
        line, counter = packet(counter, range(first + 1, first + 1 + JOBS_OF_TAKE))
        yield line


class Used:
    """What a process has used: seconds by the clock and of the processor, and the most bytes of memory."""

    def __init__(self, clock, used):
        self.clock, self.processor, self.memory = clock, used.ru_utime + used.ru_stime, used.ru_maxrss * 1024


def run(words):
    """Runs a program to its end."""
    start = time.perf_counter()
    process = subprocess.Popen(words, stdout=subprocess.DEVNULL)
    _, status, used = os.wait4(process.pid, 0)
    process.returncode = status
    if status:
        raise SystemExit(f"bench/site: {words} failed")
    return Used(time.perf_counter() - start, used)


class Watch:
    """Looks at a journal while a process has it: how often it was replaced, and how long it was at most."""

    def __init__(self, path):
        self.path, self.replaced, self.longest, self.over = path, 0, 0, False
        self.thread = threading.Thread(target=self.look)
        self.thread.start()

    def look(self):
        """Looks until it is over."""
        known = os.stat(self.path).st_ino
        while not self.over:
            state = os.stat(self.path)
            self.longest = max(self.longest, state.st_size)
            self.replaced += state.st_ino != known
            known = state.st_ino
            time.sleep(PAUSE_SECONDS)

    def end(self):
        """Ends it."""
        self.over = True
        self.thread.join()


def served(program, place, lines, options=()):
    """Has a `serve` answer lines; what it used, and what was seen of the journal."""
    watch = Watch(f"{place}/journal")
    start = time.perf_counter()
    serve = subprocess.Popen([program, "serve", *options, place], stdin=subprocess.PIPE, stdout=subprocess.DEVNULL)
    for line in lines:
        serve.stdin.write(line)
    serve.stdin.close()
    _, status, used = os.wait4(serve.pid, 0)
    serve.returncode = status
    watch.end()
    if status:
        raise SystemExit("bench/site: serve failed")
    return Used(time.perf_counter() - start, used), watch


def new_site(program, folder, name):
    """The directory of a new lemont."""
    place = f"{folder}/{name}"
    subprocess.run([program, "init", place, "lemont", *ROSTER], check=True)
    return place


def tell(what, used, jobs, more=""):
    """One line of the table, of the least of some runs."""
    clock, processor = min(it.clock for it in used) * 1e3, min(it.processor for it in used) * 1e3
    memory = max(it.memory for it in used)
    each = f"{processor / jobs * 1e3:.1f} us and {memory / jobs:.0f} bytes a job"
    print(f"{what:58} {clock:9.1f} ms {processor:9.1f} ms {memory / 2**20:7.1f} MiB, {each}{more}", flush=True)


def bytes_of(place):
    """How many bytes a site's journal has."""
    return os.path.getsize(f"{place}/journal")


def history(program, place, what, rounds, jobs):
    """The figures of a journal of some jobs: of its opening, of its compaction, and of its opening then."""
    before = bytes_of(place)
    # not read here: what this process has at most counts as what a child had before it became the program
    shutil.copyfile(f"{place}/journal", f"{place}.old")
    tell(f"check of {what}", [run([program, "check", place]) for _ in range(rounds)], jobs, f", journal {before / 1e6:.2f} MB")
    used = []
    for _ in range(rounds):
        shutil.copyfile(f"{place}.old", f"{place}/journal")
        used.append(run([program, "compact", place]))
    after = bytes_of(place)
    tell(f"compact of {what}", used, jobs, f", then {after / 1e6:.2f} MB, {after / jobs:.0f} bytes a job")
    tell("check of that, compacted", [run([program, "check", place]) for _ in range(rounds)], jobs)


def figures(program, folder, rounds, acts):
    """10,000 jobs after 100,000 lines and after 10,000 takes, and what `serve` pays for compacting meanwhile."""
    place = new_site(program, folder, "of-lines")
    served(program, place, acts(100_000), ["--keep-history"])
    history(program, place, "10,000 jobs after 100,000 lines", rounds, JOBS)
    place = new_site(program, folder, "of-takes")
    served(program, place, takes(10_000), ["--keep-history"])
    history(program, place, "10,000 jobs after 10,000 takes of 20", rounds, JOBS)


def year(program, folder, count, jobs):
    """So many takes by a `serve` that compacts, and by one that keeps the history; what the compactions cost."""
    used, seen = {}, {}
    for name, options in (("kept", ["--keep-history"]), ("compacted", [])):
        place = new_site(program, folder, name)
        used[name], seen[name] = served(program, place, takes(count, jobs), options)
        what = f"serve of {count} takes, {jobs} jobs, {name}"
        tell(what, [used[name]], jobs, f", journal {bytes_of(place) / 1e6:.2f} MB, at most {seen[name].longest / 1e6:.2f} MB")
        tell("check of that", [run([program, "check", place])], jobs)
        if name == "kept":
            os.remove(f"{place}/journal")
    more = used["compacted"].processor - used["kept"].processor
    share = more / used["compacted"].processor
    print(f"{seen['compacted'].replaced} compactions took {more:.2f} s of the processor, {share:.1%} of what serve used", flush=True)
