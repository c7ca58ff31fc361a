"""Scenes of nodes as a centre has them: by a server of ssh, and by sudo from an account other than root."""
import os
import pwd
import shutil
import subprocess
import time

from tests.service.cluster import NODE, Cluster
from tests.service.nodes import HOSTS, end_programs, make
from tests.service.scenes import OPERATOR, OTHER, as_user, is_root, read
from tests.service.sites import free_port, until

SSHD = """\
Port {port}
ListenAddress 127.0.0.1
HostKey {folder}/host_key
PidFile {folder}/sshd.pid
AuthorizedKeysFile {folder}/authorized_keys
StrictModes no
UsePAM no
PasswordAuthentication no
KbdInteractiveAuthentication no
PermitRootLogin yes
MaxStartups 100
"""


def has_program(tally, scene, found, package, variable):
    """Whether a program is here that a scene needs. Where it isn't, the scene is named and left out, or counted as failed where
    the environment says that it is needed."""
    if not found and os.environ.get(variable) == "1":
        tally.fail(f"this needs {package}, which isn't here")
    elif not found:
        print(f"tests/service/rows: {scene}: left out, since {package} isn't here; with {variable}=1 that counts as failed")
    return bool(found)


def node_ssh(tally, federation):
    """Nodes that are reached by ssh, whose forced command is the node's program."""
    sshd = shutil.which("sshd", path="/usr/sbin:/usr/local/sbin:/usr/bin")
    if not has_program(tally, "node_ssh", sshd, "openssh-server", "NETTLEBEAM_NEEDS_SSHD"):
        return
    cluster, folder, port = Cluster(federation.folder), federation.folder, free_port()
    keys = ["ssh-keygen", "-q", "-N", "", "-t", "ed25519", "-f"]
    subprocess.run([*keys, f"{folder}/host_key"], check=True)
    lines = ""
    for host in HOSTS:
        subprocess.run([*keys, f"{folder}/{host}.key"], check=True)
        lines += f'command="{NODE} --config {folder}/{host}.conf",restrict {read(f"{folder}/{host}.key.pub")}'
    for name, text in (("authorized_keys", lines), ("sshd_config", SSHD.format(port=port, folder=folder))):
        with open(f"{folder}/{name}", "w", encoding="ascii") as file:
            file.write(text)
    os.makedirs("/run/sshd", exist_ok=True)
    server = subprocess.Popen([sshd, "-D", "-f", f"{folder}/sshd_config", "-E", f"{folder}/sshd.log"])
    options = "-o BatchMode=yes -o StrictHostKeyChecking=no -o UserKnownHostsFile=/dev/null -o LogLevel=ERROR -o ServerAliveInterval=2 -o ServerAliveCountMax=2"
    try:
        link = f"ssh -T -F none -p {port} -i {folder}/{{host}}.key {options} {pwd.getpwuid(os.getuid()).pw_name}@127.0.0.1 anything"
        site = make(federation, cluster, link)
        by_ssh(tally, cluster, site)
    finally:
        server.terminate()
        server.wait()


def by_ssh(tally, cluster, site):
    """Jobs by ssh, whose server ends a link."""
    jobs = cluster.submit_three(site)
    tally.same("three jobs end as their scripts do", [site.finished(job, 60) for job in jobs], [1, 2, 3])
    tally.same("on three nodes", sorted(sum((cluster.where(job) for job in jobs), [])), ["n1", "n2", "n3"])
    job = cluster.submit(site, seconds=4, status=4)
    until(lambda: cluster.where(job) == ["n1"], 20, "it runs")
    end_programs(cluster)
    tally.same("the end of its link ends no job", (site.finished(job, 60), cluster.where(job)), (4, ["n1"]))
    began = time.monotonic()
    jobs = [cluster.submit(site) for _ in range(12)]
    tally.same("many short jobs", [site.finished(job, 60) for job in jobs], [0] * 12)
    print(f"tests/service/rows: node_ssh: 12 jobs on 3 nodes took {time.monotonic() - began:.2f} s")
    tally.same("each once", [len(cluster.where(job)) for job in jobs], [1] * 12)


SUDOERS = "{account} ALL=({owner}) NOPASSWD: ALL\n"
RULES = "/etc/sudoers.d"


def node_sudo(tally, federation):
    """Nodes whose program is another account's than root, and runs jobs as their owner by sudo."""
    if not has_program(tally, "node_sudo", shutil.which("sudo"), "sudo", "NETTLEBEAM_NEEDS_SUDO") or not is_root(tally):
        return
    cluster, folder, rule = Cluster(federation.folder), federation.folder, f"{RULES}/nettlebeam-test-{os.getpid()}"
    account = pwd.getpwnam(OPERATOR)
    for host in HOSTS:
        cluster.configure(host, start=f"sudo -n -u {{user}} -- env NODE={host}", stop="sudo -n -u {user} -- /bin/kill -s {signal} -- -{pid}", least_uid=1000)
        os.mkdir(f"{folder}/{host}", 0o700)
        os.chown(f"{folder}/{host}", account.pw_uid, account.pw_gid)
    os.mkdir(f"{folder}/home")
    os.chmod(f"{folder}/home", 0o1777)
    cluster.ran = f"{folder}/home/ran"
    with open(os.open(rule, os.O_WRONLY | os.O_CREAT, 0o440), "w", encoding="ascii") as file:
        file.write(SUDOERS.format(account=OPERATOR, owner=OTHER))
    try:
        site = make(federation, cluster, " ".join([*as_user(OPERATOR), NODE, "--config", f"{folder}/{{host}}.conf"]))
        by_sudo(tally, cluster, site)
    finally:
        os.remove(rule)


def by_sudo(tally, cluster, site):
    """Jobs of another user than the account of the nodes, and of one whom they don't run jobs as."""

    def submit(text, user=OTHER):
        how = {"before": as_user(user), "cwd": f"{cluster.folder}/home"}
        return site.utility("qsub", "-N", "far", given=text, **how)[1].strip()

    job = submit(f"id -un > who; echo $NODE >> {cluster.ran}; exit 6\n")
    tally.same("its status", site.finished(job, 60), 6)
    tally.same("it runs as its owner", read(f"{cluster.folder}/home/who"), f"{OTHER}\n")
    tally.same("by the settings of the node", read(cluster.ran), "n1\n")
    tally.same("its output is its owner's", os.stat(f"{cluster.folder}/home/far.o{job.split('.')[0]}").st_uid, pwd.getpwnam(OTHER).pw_uid)
    job = submit(f"echo begins > begun; trap 'echo ends > ended; exit 9' TERM; while :; do sleep 0.1; done\n")
    until(lambda: os.path.exists(f"{cluster.folder}/home/begun"), 30, "another runs")
    tally.same("a signal by sudo", site.utility("qsig", "-s", "0", job, before=as_user(OTHER))[0], 0)
    site.utility("qdel", job, before=as_user(OTHER))
    tally.same("an end by sudo", (site.finished(job, 60), read(f"{cluster.folder}/home/ended")), (9, "ends\n"))
    job = submit("true\n", OPERATOR)
    until(lambda: f"{job}: left alone, since nothing is run here as {OPERATOR}" in site.logged(), 30, "a system account's job is left alone")
    tally.same("and waits", site.jobs(job)[job]["letter"], "Q")


SCENES = {it.__name__: it for it in (node_ssh, node_sudo)}
