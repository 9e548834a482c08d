"""What the scripts share that run programs and compare what comes of them: the program, a run with its limits, and the count.

What comes of a run is its status, what it prints and what it tells on standard error, both as bytes."""
import argparse
import os
import re
import resource
import select
import shutil
import subprocess
import sys
import tempfile
import threading
from collections import Counter, namedtuple

TOP = os.path.dirname(os.path.dirname(os.path.realpath(__file__)))
Outcome = namedtuple("Outcome", "status output told", defaults=(0, b"", b""))


def words(*flags):
    """The words `--program FILE` and these flags, for a parser to take more."""
    ask = argparse.ArgumentParser()
    ask.add_argument("--program", type=os.path.abspath, action="append", default=[])
    for flag in flags:
        ask.add_argument(flag, action="store_true")
    return ask


def built(name, given=()):
    """The path of the program of those given that has its name, or of the crate's, which is proved and built first where that is
    not done yet, and run over the crate's `stdin`, where that has one. The script ends with 1 where it isn't built."""
    for program in given:
        if os.path.basename(program) == name:
            return program
    crate = f"{TOP}/crates/{name}"
    with open(f"{crate}/stdin" if os.path.exists(f"{crate}/stdin") else os.devnull, "rb") as it:
        done = subprocess.run(["rt", "run"], cwd=crate, stdin=it, stdout=subprocess.PIPE, stderr=subprocess.STDOUT)
    program = f"{crate}/out/{name}"
    # (a status other than 0 may be the program's own)
    if not os.path.exists(program):
        sys.exit(f"{done.stdout.decode(errors='replace')}{name} is not built")
    return program


def usage_of(name):
    """The usage text, which stands in the program's source, or none."""
    with open(f"{TOP}/crates/{name}/src/main.rt", "rb") as it:
        found = re.search(rb'USAGE: &str = "([^"]*)"', it.read())
    return found and found[1] + b"\n"


def file_of(data):
    """A file of these bytes, to be read from its begin."""
    file = tempfile.TemporaryFile()
    file.write(data)
    file.seek(0)
    return file


def ran(command, data=None, stdin=subprocess.DEVNULL, seconds=120, room=None, **more):
    """What comes of a command over a pipe of these bytes, or over an open file, within so many bytes of memory. A command that
    hasn't ended in time has no status."""
    given = {"stdin": stdin} if data is None else {"input": data}
    limit = room and (lambda: resource.setrlimit(resource.RLIMIT_AS, (room, room)))
    try:
        done = subprocess.run(command, stdout=subprocess.PIPE, stderr=subprocess.PIPE, timeout=seconds, preexec_fn=limit, **given, **more)
    except subprocess.TimeoutExpired:
        return Outcome(None, b"", b"it didn't end in %d seconds" % seconds)
    return Outcome(done.returncode, done.stdout, done.stderr)


def ran_over(command, path, **more):
    """The same over the file at a path."""
    with open(path, "rb") as it:
        return ran(command, stdin=it, **more)


def ran_behind(source, command, **more):
    """The same over what another command prints, which need not end."""
    with subprocess.Popen(source, stdout=subprocess.PIPE, stderr=subprocess.DEVNULL) as running:
        outcome = ran(command, stdin=running.stdout, **more)
        running.stdout.close()
        running.kill()
    return outcome


def ran_held(command, data, run=ran, **more):
    """The same over input that goes on: it has these bytes, and then none and no end."""
    mine, theirs = os.pipe()

    def put():
        with open(theirs, "wb", closefd=False) as pipe:
            try:
                pipe.write(data)
            except OSError:
                pass

    thread = threading.Thread(target=put)
    thread.start()
    outcome = run(command, stdin=mine, seconds=20, **more)
    os.close(mine)
    thread.join()
    os.close(theirs)
    return outcome


def printed_first(command, data, size, rest=b""):
    """What a command prints, up to so many bytes, before more than this comes, and its status after the rest."""
    printed = b""
    with subprocess.Popen(command, env={}, stdin=subprocess.PIPE, stdout=subprocess.PIPE, stderr=subprocess.DEVNULL) as running:
        running.stdin.write(data)
        running.stdin.flush()
        while len(printed) < size and select.select([running.stdout], [], [], 60)[0]:
            more = os.read(running.stdout.fileno(), 100)
            printed += more
            if not more:
                break
        running.stdin.write(rest)
        running.stdin.close()
        return printed, running.wait(600)


def shown(outcome):
    """An outcome as it is told, cut where it is long."""
    output = f"{outcome[1][:100]!r}" + (f" .. {outcome[1][-60:]!r} of {len(outcome[1])} bytes" if len(outcome[1]) > 160 else "")
    return f"status {outcome[0]}, output {output}, told {outcome[2][:300]!r}"


class Count:
    """How many runs of each kind were compared, and those that differ, each of which is told at once."""

    def __init__(self, title):
        self.title, self.kinds, self.differ, self.turn = title, Counter(), [], threading.Lock()

    def made(self, kind="runs", more=1):
        """Counts what was compared."""
        with self.turn:
            self.kinds[kind] += more

    def differs(self, what):
        """Tells what isn't as wanted."""
        with self.turn:
            self.differ.append(what)
            print(f"differs: {what}", flush=True)

    def compare(self, name, got, want, kind="runs"):
        """Counts a run, and tells where it isn't as wanted."""
        self.made(kind)
        if tuple(got) != tuple(want):
            self.differs(f"{name}: wanted {shown(want)}; got {shown(got)}")

    def ended(self):
        """Prints how many were compared. The status for the script."""
        kinds = ", ".join(f"{count} {kind}" for kind, count in self.kinds.items())
        print(f"{self.title}: {kinds} compared, {len(self.differ)} differ")
        return 1 if self.differ else 0


# ---- what runs cost


def instructions(command, path=os.devnull):
    """The instructions of a command over the file at a path, by valgrind's callgrind."""
    told = ran_over(["valgrind", "--tool=callgrind", "--callgrind-out-file=/dev/null", *command], path, seconds=None).told
    return int(re.search(rb"Collected : (\d+)", told)[1])


def least_times(commands, path, runs):
    """The least processor time of each command over the file at a path, in milliseconds. They take turns."""
    least = [float("inf")] * len(commands)
    files = [(os.POSIX_SPAWN_OPEN, 0, path, os.O_RDONLY, 0), *((os.POSIX_SPAWN_OPEN, at, os.devnull, os.O_WRONLY, 0) for at in (1, 2))]
    for _ in range(runs):
        for at, command in enumerate(commands):
            _, status, usage = os.wait4(os.posix_spawnp(command[0], command, {}, file_actions=files), 0)
            if status != 0:
                sys.exit(f"{command} ended with {os.waitstatus_to_exitcode(status)} over {path}")
            least[at] = min(least[at], 1000 * (usage.ru_utime + usage.ru_stime))
    return least


def memory(command, path=os.devnull):
    """The most memory that a command has over the file at a path, in MB, by GNU time: a process has at least that of the one
    which it is made from."""
    with tempfile.NamedTemporaryFile() as used:
        ran_over(["/usr/bin/time", "-q", "-f", "%M", "-o", used.name, *command], path, seconds=None)
        return int(used.read().split()[-1]) * 1.024 / 1000


def wanted_here(title, *tools):
    """Ends the script with 2 where one of these tools isn't here."""
    for tool in tools:
        if not shutil.which(tool):
            print(f"{title}: {tool} is not here", file=sys.stderr)
            sys.exit(2)
