"""The recipes of docs/SCALE.md for other machines, each of which is this one: over ssh, with Slurm, and with Spark."""

import os
import pwd
import shlex
import shutil
import socket
import subprocess
import sys
import tempfile
import time

from recipe_runner import CHUNK, NAMES, Wrong, ends, fill, of_work, same, write


# ---- Services, and runs over ssh


def started(words, ready, **options):
    """A service, when it is ready; None if it is not within ten seconds."""
    child = subprocess.Popen(words, stdin=subprocess.DEVNULL, **options)
    for _ in range(100):
        if child.poll() is not None:
            return None
        if ready():
            return child
        time.sleep(0.1)
    ended([child])
    return None


def ended(children):
    for child in reversed(children):
        child.terminate()
        try:
            child.wait(20)
        except subprocess.TimeoutExpired:
            child.kill()
            child.wait()


def free_port():
    with socket.socket() as listener:
        listener.bind(("127.0.0.1", 0))
        return listener.getsockname()[1]


def answers(port):
    with socket.socket() as caller:
        return caller.connect_ex(("127.0.0.1", port)) == 0


def scale_hosts(bench):
    """GNU parallel over ssh to a server of our own on this machine, which the recipe's three hosts are."""
    if not all(bench.there(command, "no run was begun over ssh") for command in ["parallel", "sshd", "ssh"]):
        return
    folder, port = bench.folder(), free_port()
    for key in ["host", "user"]:
        subprocess.run(["ssh-keygen", "-q", "-t", "ed25519", "-N", "", "-f", os.path.join(folder, key)], check=True)
    write(folder, "server", f"""Port {port}
ListenAddress 127.0.0.1
HostKey {folder}/host
AuthorizedKeysFile {folder}/user.pub
PidFile none
StrictModes no
UsePAM no
PasswordAuthentication no
PermitRootLogin prohibit-password
MaxStartups 100
SetEnv PATH={bench.environment["PATH"]}
""")
    write(folder, "client", f"""Host host1 host2 host3
HostName 127.0.0.1
Port {port}
User {pwd.getpwuid(os.getuid()).pw_name}
IdentityFile {folder}/user
IdentitiesOnly yes
StrictHostKeyChecking no
UserKnownHostsFile /dev/null
LogLevel ERROR
""")
    if os.getuid() == 0:
        os.makedirs("/run/sshd", mode=0o755, exist_ok=True)
    log = open(os.path.join(folder, "log"), "wb")
    sshd = shutil.which("sshd", path=bench.environment["PATH"])
    server = started([sshd, "-D", "-e", "-f", os.path.join(folder, "server")], lambda: answers(port), stderr=log)
    if server is None:
        bench.missing("sshd did not start: no run was begun over ssh")
        return
    try:
        over_ssh(bench, f"ssh -F {folder}/client")
    finally:
        ended([server])


def over_ssh(bench, ssh):
    folder, listed = listed_files(bench)
    of_work(bench, folder, "check")
    text = bench.text("docs/SCALE.md", "on-hosts")
    bench.judge("docs/SCALE.md on-hosts", lambda: ends(bench.run(text, folder, PARALLEL_SSH=ssh)))
    bench.judge("docs/SCALE.md on-hosts, the report", lambda: reported(folder, listed))


def listed_files(bench):
    """A folder with files of each name and their list, and how many those are."""
    folder = bench.folder()
    for number, name in enumerate([*NAMES, *map(str, range(90))]):
        fill(os.path.join(folder, name), number)
    names = sorted(os.listdir(folder))
    with open(os.path.join(folder, "LIST"), "wb") as file:
        file.write(bench.sums(folder, "hash", "-a", "blake3", "--", *names))
    return folder, len(names)


def reported(folder, count):
    """The report says of all files that they are OK."""
    with open(os.path.join(folder, "report"), "rb") as file:
        lines = file.read().splitlines()
    same((len(lines), all(line.endswith(b": OK") for line in lines)), (count, True), "the lines, and whether all are OK")


# ---- Slurm


def scale_slurm(bench):
    """One node, this machine, with a munged, a slurmctld and a slurmd of our own."""
    needed = ["munged", "mungekey", "slurmctld", "slurmd", "sbatch", "scontrol", "sinfo", "squeue"]
    if not all(bench.there(command, "the recipe for Slurm was not run") for command in needed):
        return
    children = []
    try:
        if cluster(bench, children):
            shares(bench)
            arrays(bench)
            bench.judge("docs/SCALE.md on-slurm, a task that fails", lambda: failing(bench))
        else:
            bench.missing("Slurm did not start: its recipe was not run")
    finally:
        ended(children)


def cluster(bench, children):
    """Starts the three, and answers whether there is a node to run jobs."""
    folder = tempfile.mkdtemp(dir=bench.work)
    os.chmod(folder, 0o755)
    host = socket.gethostname().split(".")[0]
    names = pwd.getpwuid(os.getuid()).pw_name
    for place in ["state", "spool"]:
        os.mkdir(os.path.join(folder, place))
    bench.environment["SLURM_CONF"] = write(folder, "slurm.conf", f"""ClusterName=recipes
SlurmctldHost={host}(127.0.0.1)
SlurmctldPort={free_port()}
SlurmdPort={free_port()}
SlurmUser={names}
SlurmdUser={names}
AuthType=auth/munge
AuthInfo=socket={folder}/munge.socket
CredType=cred/munge
StateSaveLocation={folder}/state
SlurmdSpoolDir={folder}/spool
SlurmctldPidFile={folder}/slurmctld.pid
SlurmdPidFile={folder}/slurmd.pid
ProctrackType=proctrack/linuxproc
TaskPlugin=task/none
SwitchType=switch/none
MpiDefault=none
SelectType=select/cons_tres
SelectTypeParameters=CR_Core
SchedulerType=sched/builtin
SchedulerParameters=sched_interval=1,batch_sched_delay=0
ReturnToService=2
NodeName={host} NodeAddr=127.0.0.1 CPUs=4 State=UNKNOWN
PartitionName=all Nodes=ALL Default=YES MaxTime=INFINITE State=UP
""")
    log = open(os.path.join(folder, "log"), "wb")
    options = {"stdout": log, "stderr": log, "env": bench.environment, "cwd": folder}
    run = lambda text: bench.run(text, folder)
    run(f"mungekey --create --keyfile={folder}/munge.key")
    services = [
        (["munged", "--foreground", f"--key-file={folder}/munge.key", f"--socket={folder}/munge.socket",
          f"--pid-file={folder}/munged.pid", f"--seed-file={folder}/munged.seed", f"--log-file={folder}/munged.log",
          "--force"], lambda: os.path.exists(f"{folder}/munge.socket")),
        (["slurmctld", "-D", "-i"], lambda: run("scontrol ping")[0] == 0),
        (["slurmd", "-D", "-N", host], lambda: run("sinfo -h -o %t")[1].strip() == b"idle"),
    ]
    for words, ready in services:
        child = started(words, ready, **options)
        if child is None:
            print(open(os.path.join(folder, "log")).read()[-3000:])
            return False
        children.append(child)
    return True


def shares(bench):
    """An array whose tasks check shares of a list, and the job after it."""
    folder, count = listed_files(bench)
    of_work(bench, folder, "check")
    got = bench.run(bench.text("docs/SCALE.md", "on-slurm"), folder)
    waited(bench, 900)

    def case():
        same((got[0], got[2]), (0, b""), "status and standard error")
        with open(os.path.join(folder, f"slurm-{got[1].split()[-1].decode()}.out"), "rb") as file:
            same(file.read(), b"", "what the job says")
        reported(folder, count)

    bench.judge("docs/SCALE.md on-slurm", case)


def arrays(bench):
    """Arrays whose tasks hash the parts of a file, of each name, all at once; then the outputs of the jobs after them."""
    text = bench.text("docs/SCALE.md", "on-slurm")
    cases = []
    for name, size, chunks in [("big", 200000001, None), *((name, 4321, 1) for name in NAMES), ("many", 1002 * CHUNK, 1)]:
        folder = bench.folder()
        fill(os.path.join(folder, name), size)
        of_work(bench, folder, "part", name, chunks)
        cases.append((name, folder, bench.run(text, folder)))
    waited(bench, 900)
    for name, folder, got in cases:
        def case():
            same((got[0], got[2]), (0, b""), "status and standard error")
            with open(os.path.join(folder, f"slurm-{got[1].split()[-1].decode()}.out"), "rb") as file:
                same(file.read(), bench.sums(folder, "hash", "-a", "blake3", "--", name), "the output of the job")
        bench.judge(f"docs/SCALE.md on-slurm, {name!r}", case)


def waited(bench, seconds):
    until = time.monotonic() + seconds
    while bench.run("squeue -h", bench.work)[1].strip() and time.monotonic() < until:
        time.sleep(0.5)


def failing(bench):
    """Tasks that fail: the job after them is ended, and prints nothing."""
    folder = bench.folder()
    of_work(bench, folder, "check")
    write(folder, "share.sh", "#!/bin/sh\nexit 2\n")
    got = bench.run(bench.text("docs/SCALE.md", "on-slurm"), folder)
    same(got[0], 0, "status")
    waited(bench, 120)
    same(bench.run("squeue -h", folder)[1], b"", "jobs that wait")
    job = got[1].split()[-1].decode()
    same(os.path.exists(os.path.join(folder, f"slurm-{job}.out")), False, "whether there is a report")


# ---- Spark


class Numbers:
    """What the recipe uses of Spark: numbers in partitions, and what a command prints of them."""

    def __init__(self, environment, folder):
        self.environment, self.folder = environment, folder

    def parallelize(self, numbers, count):
        edges = [len(numbers) * i // count for i in range(count + 1)]
        self.partitions = [numbers[a:b] for a, b in zip(edges, edges[1:])]
        return self

    def pipe(self, command, checkCode=False):
        self.command, self.checks = shlex.split(command), checkCode
        return self

    def collect(self):
        lines = []
        for partition in self.partitions:
            text = "".join(f"{number}\n" for number in partition)
            done = subprocess.run(self.command, input=text.encode(), stdout=subprocess.PIPE, env=self.environment,
                                  cwd=self.folder)
            if self.checks and done.returncode:
                raise Wrong(f"status {done.returncode} of the command")
            lines += [line.decode() for line in done.stdout.split(b"\n") if line]
        return lines


def scale_spark(bench):
    """The recipe in a Python of its own, if Spark is installed; else over a stand-in of its `pipe`."""
    found = bench.run(f"{shlex.quote(sys.executable)} -c 'import pyspark' && java -version", bench.work)[0] == 0
    if not found:
        bench.missing("Spark is not installed: its recipe was run over a stand-in of `pipe`")
    start = "from pyspark import SparkContext\ncontext = SparkContext('local[4]')\ncontext.setLogLevel('OFF')\n" \
        if found else f"import sys\nsys.path.insert(0, {bench.work!r})\nfrom stand_in import context\n"
    if not found:
        here = os.path.dirname(os.path.abspath(__file__))
        write(bench.work, "stand_in.py", f"import os\nimport sys\nsys.path.insert(0, {here!r})\n"
              "from recipe_machines import Numbers\ncontext = Numbers(os.environ, '.')\n")
    folder, count = listed_files(bench)
    of_work(bench, folder, "check")
    text, shown = start + bench.text("docs/SCALE.md", "on-spark"), " 2>&3" if found else ""
    got = bench.run(f"{shlex.quote(sys.executable)} {write(folder, 'script.py', text)}{shown}", folder)
    bench.judge("docs/SCALE.md on-spark", lambda: same((got[0], got[1]), (0, b""), "status and output"))
    bench.judge("docs/SCALE.md on-spark, the report", lambda: reported(folder, count))
    for name, size, chunks in [("big", 200000001, None), *((name, 4321, 1) for name in NAMES)]:
        def case():
            folder = bench.folder()
            fill(os.path.join(folder, name), size)
            of_work(bench, folder, "part", name, chunks)
            got = bench.run(f"{shlex.quote(sys.executable)} {write(folder, 'script.py', text)}{shown}", folder)
            same(got[:2], (0, bench.sums(folder, "hash", "-a", "blake3", "--", name)), "status and output")

        bench.judge(f"docs/SCALE.md on-spark, {name!r}", case)
