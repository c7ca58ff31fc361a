"""Scenes of what is measured and summed up: `/metrics`, `qask usage`."""
import os
import re
import time

from tests.service.bounds import page_of
from tests.service.guards import status_of
from tests.service.scenes import OPERATOR, OTHER, as_user, is_root, read
from tests.service.sites import free_port, until

SAMPLE = re.compile(r'(nettlebeam_[a-z_]+(?:\{(?:[a-z]+="[^"\\]*",?)+\})?) ([0-9.e+-]+)$')


def samples(port):
    """The values of /metrics by their names; None for a line that is none."""
    found = {}
    for line in page_of(port, "metrics").splitlines():
        if not line.startswith("# "):
            sample = SAMPLE.match(line)
            found[sample.group(1) if sample else line] = float(sample.group(2)) if sample else None
    return found


def metrics(tally, federation):
    """What is measured is told in Prometheus' text on the page's port, to this machine alone."""
    federation.has_links = True
    backup = "backup = cp {home}/site/journal {home}/copy"
    port = free_port()
    argonne, lemont = federation.make("argonne:4", "lemont:2", pages={"argonne": port}, site=f"[site]\n{backup}")
    job, held = argonne.submit("true\n"), argonne.submit("#" * 9000, "-h")
    argonne.finished(job)
    argonne.utility("qask", "nothing")
    until(lambda: held in lemont.jobs(), 20, "packets go")
    time.sleep(3)
    until(lambda: samples(port)['nettlebeam_jobs{state="gone"}'] == 1, 30, "they are counted anew")
    told = samples(port)
    tally.same("each line is a sample", [line for line, value in told.items() if value is None], [])
    wanted = {'jobs{state="held"}': 1, 'jobs{state="gone"}': 1, 'jobs{state="running"}': 0, "site_jobs": 2, "site_jobs_limit": 10_000, 'peer_reached{peer="lemont"}': 1}
    tally.same("jobs and peers", {name: told.get(f"nettlebeam_{name}") for name in wanted}, wanted)
    tally.true("bytes of the spool", 9000 < told["nettlebeam_spool_bytes"] < 100_000 and told["nettlebeam_spool_free_bytes"] > 65_536)
    ages = ("last_look_age_seconds", "last_backup_age_seconds", *(f'peer_packet_age_seconds{{peer="lemont",way="{way}"}}' for way in ("given", "taken")))
    tally.same("ages", [name for name in ages if not 0 <= told.get(f"nettlebeam_{name}", -1) < 30], [])
    tally.true("answers", told['nettlebeam_answers_total{status="0"}'] >= 4 and told['nettlebeam_answers_total{status="2"}'] == 1)
    tally.true("and their seconds", 0 < told["nettlebeam_answer_seconds_total"] < 60)
    tally.same("not by another name", status_of(port, "evil.example"), 403)


def usage(tally, federation):
    """`qask usage` sums up a user's jobs, recorded or not, each once; of others for who has a role."""
    if not is_root(tally):
        return
    start = "start = setpriv --reuid={user} --regid=nogroup --clear-groups"
    (site,) = federation.make("argonne:4", jobs=start, operators=OPERATOR, more="[house]\nevery = 0.3\n")
    lines = {}
    for nodes in (1, 3):
        status, output, _ = site.utility("qsub", "-l", f"nodes={nodes}", given="sleep 2\n", before=as_user(OTHER), cwd="/tmp")
        tally.same("a job is submitted", status, 0)
        site.finished(output.strip())
        lines[nodes] = site.jobs(output.strip())[output.strip()]
        if nodes == 1:
            until(lambda: os.path.exists(f"{site.home}/spool/accounting/recorded"), 20, "it is recorded")
            until(lambda: read(f"{site.home}/spool/accounting/recorded"), 20, "it is recorded")
    site.utility("qdel", site.utility("qsub", "-h", given="true\n", before=as_user(OTHER), cwd="/tmp")[1].strip(), before=as_user(OTHER))
    seconds = sum(nodes * (it["finished"]["moment"] - it["begun"]["moment"]) for nodes, it in lines.items())
    wanted = f"{OTHER} argonne 2 {seconds}\n"

    def asked(user, *words, role=None):
        environment = {"NETTLEBEAM_ROLE": role} if role else {}
        return site.utility("qask", "usage", *words, before=as_user(user), environment=environment)[:2]

    tally.same("one's own", asked(OTHER), (0, wanted))
    time.sleep(1.5)
    tally.same("once all is recorded it is the same", asked(OTHER, "-u", OTHER), (0, wanted))
    tally.same("another's isn't told", asked(OPERATOR, "-u", OTHER), (2, ""))
    tally.same("but one's own, which is nothing", asked(OPERATOR), (0, ""))
    tally.same("an operator is told all", asked(OPERATOR, role="operator"), (0, wanted))
    tally.same("and of one", asked(OPERATOR, "-u", OTHER, role="operator"), (0, wanted))
    day = time.strftime("%Y-%m-%d")
    tally.same("since today", asked(OTHER, "--since", day), (0, wanted))
    tally.same("since a day to come", asked(OTHER, "--since", "2099-01-01"), (0, ""))
    for words in (("-x",), ("-u",), ("--since", "soon"), ("-u", "a b"), ("--since", "9999-99-99")):
        tally.same(f"{words} are no words", asked(OTHER, *words), (2, ""))
    tally.same("no role is taken that isn't had", asked(OTHER, role="operator"), (2, ""))


SCENES = {it.__name__: it for it in (metrics, usage)}
