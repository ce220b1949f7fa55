"""The scripts of examples/batch that need other machines: two logins of this one over ssh, and a cluster of Slurm with one node.

The servers are those that are installed, with settings, keys and ports of their own, and end with the checks.
"""

import contextlib
import os
import pathlib
import pwd
import shutil
import socket
import subprocess
import sys
import tempfile
import time

from .batch import BATCH, script_checks, text_of, words_of
from .command import is_there, run

PLACE = "docs/batch.md"
FILES = 12
# How long a server has until it answers.
SECONDS = 60
PRIVILEGE = pathlib.Path("/run/sshd")
# Each login has a folder of its own as its home.
SSHD = """Port {port}
ListenAddress 127.0.0.1
HostKey {folder}/host
AuthorizedKeysFile {folder}/user.pub
StrictModes no
UsePAM no
PidFile none
MaxStartups 100
ForceCommand cd '{home}' && export HOME='{home}' && eval "$SSH_ORIGINAL_COMMAND"
"""
LOGIN = """Host {name}
  HostName 127.0.0.1
  Port {port}
  User {user}
  IdentityFile {folder}/user
  UserKnownHostsFile /dev/null
  StrictHostKeyChecking no
  LogLevel ERROR
"""
SLURM = """ClusterName=test
SlurmctldHost={host}(127.0.0.1)
SlurmUser={user}
SlurmdUser={user}
SlurmctldPort={ports[0]}
SlurmdPort={ports[1]}
AuthType=auth/munge
AuthInfo=socket={folder}/munge.socket
StateSaveLocation={folder}/state
SlurmdSpoolDir={folder}/spool
SlurmctldPidFile={folder}/slurmctld.pid
SlurmdPidFile={folder}/slurmd.pid
ProctrackType=proctrack/linuxproc
TaskPlugin=task/none
SelectType=select/cons_tres
SelectTypeParameters=CR_CPU
JobAcctGatherType=jobacct_gather/none
AccountingStorageType=accounting_storage/none
MpiDefault=none
SchedulerParameters=batch_sched_delay=0,sched_interval=1
NodeName={host} NodeAddr=127.0.0.1 CPUs={processors} State=UNKNOWN
PartitionName=all Nodes=ALL Default=YES State=UP
"""


def user():
    """Who runs this."""
    return pwd.getpwuid(os.getuid()).pw_name


def has_shell():
    """Whether a login of who runs this is given a shell; if not, it is told that something is left out."""
    shell = pathlib.Path(pwd.getpwuid(os.getuid()).pw_shell)
    if os.access(shell, os.X_OK) and shell.name not in ("nologin", "false"):
        return True
    print(f"left out, as {user()} has no login shell: examples/batch/with_logins", file=sys.stderr)
    return False


def free_ports(count):
    """Ports that nobody uses."""
    with contextlib.ExitStack() as stack:
        sockets = [stack.enter_context(socket.socket()) for _ in range(count)]
        for each in sockets:
            each.bind(("127.0.0.1", 0))
        return [each.getsockname()[1] for each in sockets]


@contextlib.contextmanager
def server(folder, words, **environment):
    """A server that runs until it isn't needed any more; what it says is in the folder."""
    words = [shutil.which(words[0]), *words[1:]]
    with open(folder / "said", "ab") as said:
        how = {"stdin": subprocess.DEVNULL, "stdout": said, "stderr": said, "env": {**os.environ, **environment}}
        with subprocess.Popen(words, **how) as process:
            try:
                yield
            finally:
                process.terminate()


def answers(words, **environment):
    """Whether a command ends well within the time that a server has."""
    until = time.monotonic() + SECONDS
    while time.monotonic() < until:
        if run(words, **environment)[2] == 0:
            return True
        time.sleep(0.2)
    return False


@contextlib.contextmanager
def privilege_folder():
    """The folder that sshd wants where it is started by root."""
    is_made = os.getuid() == 0 and not PRIVILEGE.exists()
    if is_made:
        PRIVILEGE.mkdir(mode=0o755)
    try:
        yield
    finally:
        if is_made:
            PRIVILEGE.rmdir()


@contextlib.contextmanager
def logins(folder):
    """Two logins of this machine, as the environment that names them, or nothing if they don't answer."""
    for key in ("host", "user"):
        run(["ssh-keygen", "-q", "-t", "ed25519", "-N", "", "-f", folder / key])
    known, names = folder / "known", ("one", "two")
    with contextlib.ExitStack() as stack:
        stack.enter_context(privilege_folder())
        for name, port in zip(names, free_ports(len(names))):
            given = {"name": name, "port": port, "folder": folder, "home": folder / name, "user": user()}
            (folder / name).mkdir()
            (folder / f"{name}.conf").write_text(SSHD.format(**given), encoding="ascii")
            with known.open("a", encoding="ascii") as file:
                file.write(LOGIN.format(**given))
            stack.enter_context(server(folder, ["sshd", "-D", "-e", "-f", folder / f"{name}.conf"]))
        there = all(answers(["ssh", "-F", known, name, "true"]) for name in names)
        yield {"LOGINS": ",".join(names), "PARALLEL_SSH": f"ssh -F '{known}'"} if there else None


def munge_words(folder):
    """The words of the server that signs for Slurm."""
    files = {"key-file": "key", "socket": "munge.socket", "pid-file": "munge.pid", "log-file": "munge.log"}
    options = [f"--{option}={folder / file}" for option, file in {**files, "seed-file": "munge.seed"}.items()]
    return ["munged", "--foreground", "--force", *options]


@contextlib.contextmanager
def cluster(folder):
    """A cluster of Slurm with this machine as its node, as the environment that names it, or nothing if it doesn't answer."""
    for name in ("state", "spool"):
        (folder / name).mkdir()
    (folder / "key").write_bytes(os.urandom(128))
    (folder / "key").chmod(0o400)
    host = socket.gethostname().partition(".")[0]
    given = {"host": host, "user": user(), "folder": folder, "ports": free_ports(2), "processors": os.cpu_count()}
    (folder / "slurm.conf").write_text(SLURM.format(**given), encoding="ascii")
    known = {"SLURM_CONF": str(folder / "slurm.conf")}
    idle = ["sh", "-c", "sinfo --noheader --format=%T | grep -qx idle"]
    with contextlib.ExitStack() as stack:
        stack.enter_context(server(folder, munge_words(folder)))
        signs = answers(["munge", "-n", "-S", folder / "munge.socket"])
        stack.enter_context(server(folder, ["slurmctld", "-D"], **known))
        stack.enter_context(server(folder, ["slurmd", "-D", "-N", host], **known))
        yield known if signs and answers(idle, **known) else None


def machine_checks(sno, script, machines):
    """A script on machines that are started for it."""
    with tempfile.TemporaryDirectory(prefix="sno-") as name:
        folder = pathlib.Path(name)
        module = folder / "words.module"
        yield PLACE, "words.sno, compiled", run([sno, "compile", BATCH / "words.sno", module]) == (b"", b"", 0)
        texts = [text_of(number) for number in range(FILES)]
        files = [folder / f"file {number:02}.txt" for number in range(FILES)]
        for file, text in zip(files, texts):
            file.write_text(text, encoding="ascii")
        wanted = "".join(f"{word}\t1\n" for text in texts for word in words_of(text))
        (folder / "machines").mkdir()
        with machines(folder / "machines") as known:
            said = (folder / "machines" / "said").read_text(encoding="utf-8", errors="replace")
            yield PLACE, f"machines for {script} that answer: {said}", known is not None
            if known is not None:
                yield from script_checks(sno, script, module, files, wanted, **known)
                left = sorted(str(it) for home in ("one", "two") for it in (folder / "machines" / home).glob("*"))
                yield PLACE, f"nothing that {script} leaves on a login: {left}", not left


def checks(sno):
    """The scripts for whose machines all is installed. Servers stand where the paths of users don't lead."""
    os.environ["PATH"] += ":/usr/sbin:/sbin"
    needed = {
        ("with_logins", logins): ("parallel", "rsync", "ssh", "ssh-keygen", "sshd"),
        ("with_slurm", cluster): ("sbatch", "sinfo", "slurmctld", "slurmd", "munged", "munge"),
    }
    for (script, machines), programs in needed.items():
        is_whole = all(is_there(program, f"examples/batch/{script}") for program in programs)
        if is_whole and (machines is not logins or has_shell()):
            yield from machine_checks(sno, script, machines)
