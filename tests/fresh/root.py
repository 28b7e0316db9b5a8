"""An empty root into which is installed, and commands that are run in it as if it were the machine's."""

import os
import shutil
import subprocess
import sys
import tempfile

HERE = os.path.dirname(os.path.abspath(__file__))
TOP = os.path.dirname(os.path.dirname(HERE))
sys.path.append(os.path.dirname(HERE))

from checks import PATIENCE, Failed, Skipped, same, status_of, wait_for, want

# Where a command in the root is looked for, and before that what leads into it.
PATH = "/usr/bin:/bin:/usr/sbin:/sbin"

# What a program needs of the machine. These places are empty folders of the root, and the machine's are laid over them for the commands in it alone.
LENT = ["bin", "sbin", "lib", "lib64", "dev", "proc"]

# Lays them over, and goes on as the command, in the same process.
ENTER = """\
set -e
root=$1
shift
for name in bin sbin lib lib64 dev proc; do
    if [ -d "/$name" ]; then mount --rbind "/$name" "$root/$name"; fi
done
exec chroot "$root" "$@"
"""


def run(*words, status=0, **how):
    """Runs a program to its end, wants this status, and gives what it wrote to its output and its errors."""
    how = {"stdin": subprocess.DEVNULL, "stdout": subprocess.PIPE, "stderr": subprocess.PIPE, "cwd": TOP, "timeout": 4 * PATIENCE, **how}
    ended = subprocess.run(words, check=False, **how)
    said, errors = (ended.stdout or b"").decode(), (ended.stderr or b"").decode()
    same(ended.returncode, status, f"status of {' '.join(words)[-300:]}, which said {said[-1000:]!r} {errors[-1000:]!r}")
    return said, errors


def needs(*programs):
    for program in programs:
        if not shutil.which(program):
            raise Skipped(f"there is no {program} here")


class Root:
    def __init__(self, programs):
        # Where the programs stand that are installed, by their names.
        self.programs = dict(zip(["server", "client", "regex"], programs))

    def __enter__(self):
        self.place = tempfile.mkdtemp(prefix="fail2ban-fresh-")
        self.runs = []
        return self

    def __exit__(self, *_why):
        for process in self.runs:
            if process.poll() is None:
                process.kill()
                process.wait()
        # Where something of the machine were still laid over a folder, that folder would not be empty: then nothing is removed.
        for name in LENT:
            if os.path.isdir(self.at("/" + name)):
                os.rmdir(self.at("/" + name))
        shutil.rmtree(self.place)

    def at(self, path):
        """Where a path of the root stands on the machine."""
        return self.place + path

    def make(self, target, *words, **how):
        needs("make", "install")
        return run("make", target, f"DESTDIR={self.place}", "CHECKED=yes", *words, **how)

    def read(self, path):
        with open(self.at(path), encoding="utf-8") as file:
            return file.read()

    def write(self, path, text, mode="w"):
        """Writes text in one call, and makes the folders above."""
        os.makedirs(os.path.dirname(self.at(path)), exist_ok=True)
        with open(self.at(path), mode + "b", buffering=0) as file:
            file.write(text.encode())

    def files(self, below=""):
        """The files and links, without folders."""
        return sorted(
            os.path.join(directory, name)[len(self.place) :]
            for directory, folders, names in os.walk(self.at(below))
            for name in names + [each for each in folders if os.path.islink(os.path.join(directory, each))]
        )

    def furnish(self):
        """What each machine has, and what it takes to run a program in the root. Without that the gate has not seen the service, and so fails, unless
        somebody says that it may be so."""
        missing = Skipped if os.environ.get("WITHOUT_ROOT") == "yes" else Failed
        for program in ["unshare", "chroot", "mount"]:
            if not shutil.which(program):
                raise missing(f"there is no {program} here: WITHOUT_ROOT=yes has this skipped")
        for path in [*LENT, "tmp", "run", "etc", "var/lib", "var/log"]:
            os.makedirs(self.at("/" + path), exist_ok=True)
        os.symlink("../run", self.at("/var/run"))
        try:
            run(*self.words("/bin/sh", "-c", "date >/dev/null && dirname / && ls -d /etc /dev/null /proc/self"))
        except Failed as why:
            raise missing(f"no root of its own can be made here: WITHOUT_ROOT=yes has this skipped: {why}") from why

    def words(self, *words):
        own = [] if os.geteuid() == 0 else ["--user", "--map-root-user"]
        return ["unshare", *own, "--mount", "/bin/sh", "-c", ENTER, "sh", self.place, *words]

    def run(self, *words, environment, status=0):
        return run(*self.words(*words), status=status, env=environment)

    def stand_in(self, path, text):
        """Puts a program of a few lines of sh there."""
        self.write(path, "#!/bin/sh\n" + text)
        os.chmod(self.at(path), 0o755)

    def folders(self):
        return sorted(os.path.join(directory, name)[len(self.place) :] for directory, folders, _ in os.walk(self.place) for name in folders)

    def start(self, *words, environment, said, errors):
        """Starts a program that goes on. Its number is that of the program itself."""
        with open(self.at(said), "ab") as into, open(self.at(errors), "ab") as into_errors:
            process = subprocess.Popen(self.words(*words), stdin=subprocess.DEVNULL, stdout=into, stderr=into_errors, env=environment)
        self.runs.append(process)
        return process
