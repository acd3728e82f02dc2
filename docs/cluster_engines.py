"""What docs/check_cluster.py runs commands with: GNU parallel, machines that ssh reaches, and a Slurm of one node.

An engine is had where its programs are installed. All its files are in one temporary folder, it ends with the check,
and nothing of it can be reached from another machine.
"""
import contextlib
import os
import shutil
import socket
import subprocess
import tempfile
import time

SECONDS = 120
START_SECONDS = 30
FOLDERS_OF_DAEMONS = ("/usr/local/sbin", "/usr/sbin", "/sbin")
PRIVILEGES = "/run/sshd"  # an empty folder, which sshd wants if root starts it
VARIABLES_OF_ENGINES = ("SLURM", "SBATCH", "PARALLEL", "MUNGE")

SSHD = """\
HostKey {folder}/host
AuthorizedKeysFile {folder}/user.pub
PasswordAuthentication no
StrictModes no
UsePAM no
PidFile none
SetEnv PATH={path} HOME={home}
ForceCommand cd {home} && exec sh -c "$SSH_ORIGINAL_COMMAND"
"""

SSH = """\
Host one two
  ProxyCommand {sshd} -i -f {folder}/%n.conf -E {folder}/%n.log
Host lost
  ProxyCommand false
Host *
  IdentityFile {folder}/user
  IdentitiesOnly yes
  StrictHostKeyChecking no
  UserKnownHostsFile /dev/null
  LogLevel ERROR
"""

SLURM = """\
ClusterName=one
SlurmctldHost={host}(127.0.0.1)
SlurmctldPort={ports[0]}
SlurmdPort={ports[1]}
CommunicationParameters=NoCtldInAddrAny,NoInAddrAny
AuthType=auth/munge
AuthInfo=socket={folder}/socket
CredType=cred/munge
SlurmUser={user}
SlurmdUser={user}
StateSaveLocation={folder}/state
SlurmdSpoolDir={folder}/spool
SlurmctldPidFile={folder}/slurmctld.pid
SlurmdPidFile={folder}/slurmd.pid
ProctrackType=proctrack/pgid
SelectType=select/cons_tres
SelectTypeParameters=CR_Core
SchedulerParameters=batch_sched_delay=0
SlurmdParameters=config_overrides
NodeName={host} NodeAddr=127.0.0.1 CPUs=2 RealMemory=65536 State=UNKNOWN
PartitionName=all Nodes=ALL Default=YES MaxTime=INFINITE State=UP
"""


class NotHere(Exception):
    """Why an engine cannot be had on this machine."""


class Place:
    """A folder in which commands run, with the laboratory and the engines on their path."""

    def __init__(self, folder, lab):
        self.folder, self.bin, self.files = folder, folder / "bin", folder / "files"
        for made in (self.bin, self.files, folder / "parallel"):
            made.mkdir()
        (self.bin / "hotplug_lab").symlink_to(lab)
        self.path = os.pathsep.join([str(self.bin), os.environ["PATH"], *FOLDERS_OF_DAEMONS])
        self.env = {name: value for name, value in os.environ.items() if not name.startswith(VARIABLES_OF_ENGINES)}
        self.env |= {"PATH": self.path, "PARALLEL_HOME": str(folder / "parallel"), "LC_ALL": "C"}

    def fresh(self):
        """A new folder with a copy of the files."""
        return shutil.copytree(self.files, tempfile.mkdtemp(dir=self.folder), dirs_exist_ok=True)

    def run(self, commands, at=None):
        """The status of commands, and what they write to standard output and to standard error; in a folder, or else
        in a new one."""
        ran = subprocess.run(["bash", "-c", commands], cwd=at or self.fresh(), env=self.env,
                             stdin=subprocess.DEVNULL, capture_output=True, timeout=SECONDS)
        return ran.returncode, ran.stdout.decode(), ran.stderr.decode()

    def need(self, *names):
        """The paths of programs."""
        found = [shutil.which(name, path=self.path) for name in names]
        lacking = [name for name, path in zip(names, found) if not path]
        if lacking:
            raise NotHere("not installed: " + ", ".join(lacking))
        return found


# GNU parallel

@contextlib.contextmanager
def processors(place):
    """The processors of this machine, by GNU parallel; another program has the same name."""
    place.need("parallel")
    if not place.run("parallel --version")[1].startswith("GNU parallel"):
        raise NotHere("not installed: parallel, that of GNU")
    yield


# Machines

@contextlib.contextmanager
def machines(place):
    """The machines `one` and `two`, each with a home of its own, and `lost`, which never replies. They are this
    machine: for each connection ssh starts an sshd, so that none listens."""
    with processors(place):
        _rsync, _ssh, sshd, _keygen = place.need("rsync", "ssh", "sshd", "ssh-keygen")
    folder = place.folder / "machines"
    folder.mkdir()
    for key in ("host", "user"):
        place.run(f"ssh-keygen -q -t ed25519 -N '' -f '{folder}/{key}'")
    for name in ("one", "two"):
        home = folder / name
        home.mkdir()
        (folder / f"{name}.conf").write_text(SSHD.format(folder=folder, path=place.path, home=home))
    (folder / "ssh").write_text(SSH.format(folder=folder, sshd=sshd))
    write_program(place.bin / "ssh", f"exec {place.need('ssh')[0]} -F '{folder}/ssh' \"$@\"\n")
    with privileges():
        for name in ("one", "two"):
            status, _out, said = place.run(f"ssh {name} true")
            if status != 0:
                raise NotHere(f"no sshd of one's own: {last_line(said, folder / f'{name}.log')}")
        yield
    (place.bin / "ssh").unlink()


@contextlib.contextmanager
def privileges():
    """The folder that sshd wants of root, for as long as it is needed."""
    if os.geteuid() != 0 or os.path.exists(PRIVILEGES):
        yield
        return
    os.mkdir(PRIVILEGES, 0o755)
    try:
        yield
    finally:
        os.rmdir(PRIVILEGES)


# Slurm

@contextlib.contextmanager
def slurm(place):
    """A Slurm of one node, this machine, with a munge of its own, on ports that only this machine reaches."""
    place.need("sbatch", "sinfo", "slurmctld", "slurmd", "munged")
    folder = place.folder / "slurm"
    folder.mkdir()
    write_settings(folder)
    place.env["SLURM_CONF"] = str(folder / "slurm.conf")
    with contextlib.ExitStack() as running:
        munge = ["munged", "-F", "--force", f"--key-file={folder}/key", f"--seed-file={folder}/seed",
                 f"--socket={folder}/socket", f"--pid-file={folder}/munged.pid", f"--log-file={folder}/munged.log"]
        running.enter_context(daemon(place, folder, munge))
        wait_for(folder, "munged", lambda: (folder / "socket").exists())
        running.enter_context(daemon(place, folder, ["slurmctld", "-D"]))
        running.enter_context(daemon(place, folder, ["slurmd", "-D"]))
        wait_for(folder, "slurmctld", lambda: place.run("timeout 5 sinfo -h -o %t")[1] == "idle\n")
        yield


def write_settings(folder):
    for made in (folder / "state", folder / "spool"):
        made.mkdir()
    key = folder / "key"
    key.touch(mode=0o600)
    key.write_bytes(os.urandom(128))
    host = socket.gethostname().partition(".")[0]
    user = os.geteuid()
    (folder / "slurm.conf").write_text(SLURM.format(folder=folder, host=host, user=user, ports=free_ports(2)))


def free_ports(count):
    """Ports of this machine on which nothing listens now."""
    with contextlib.ExitStack() as held:
        sockets = [held.enter_context(socket.create_server(("127.0.0.1", 0))) for _ in range(count)]
        return [it.getsockname()[1] for it in sockets]


@contextlib.contextmanager
def daemon(place, folder, words):
    """A program that runs in the background until the end."""
    with (folder / f"{words[0]}.out").open("wb") as out:
        process = subprocess.Popen(words, env=place.env, stdin=subprocess.DEVNULL, stdout=out,
                                   stderr=subprocess.STDOUT, executable=place.need(words[0])[0])
    try:
        yield
    finally:
        process.terminate()
        try:
            process.wait(START_SECONDS)
        except subprocess.TimeoutExpired:
            process.kill()
            process.wait()


def wait_for(folder, name, is_ready):
    end = time.monotonic() + START_SECONDS
    while not is_ready():
        if time.monotonic() > end:
            raise NotHere(f"no {name} of one's own: {last_line('', folder / f'{name}.out')}")
        time.sleep(0.2)


def write_program(path, commands):
    path.write_text("#!/bin/sh\n" + commands)
    path.chmod(0o755)


def last_line(said, log):
    """The last line of a log, or else of what was said."""
    text = log.read_text(errors="replace") if log.exists() else ""
    return ((text or said).splitlines() or ["it said nothing"])[-1]
