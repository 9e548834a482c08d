"""A PostgreSQL server in a folder of its own, on a free port of 127.0.0.1, set up as the tests of Rust's `postgres` and
`tokio-postgres` want it.

Its programs are those that Debian's package `postgresql-15`, or another version's, puts below /usr/lib/postgresql. Root
may not run it, so it then runs as `postgres`, or as `nobody` where there is no such user. Nothing of a server that the
machine has is read or written.
"""
import contextlib
import os
import pwd
import shutil
import signal
import socket
import subprocess
import tempfile
import time
from pathlib import Path

PROGRAMS = Path("/usr/lib/postgresql")
ACCESS = """\
host all pass_user 127.0.0.1/32 password
host all md5_user 127.0.0.1/32 md5
host all scram_user 127.0.0.1/32 scram-sha-256
host all postgres 127.0.0.1/32 trust
"""
# What Debian's own pg_hba.conf says of databases.
DEBIAN = """\
local all postgres peer
local all all peer
host all all 127.0.0.1/32 scram-sha-256
host all all ::1/128 scram-sha-256
"""
SETTINGS = """
listen_addresses = '127.0.0.1'
fsync = off
timezone = 'UTC'
log_timezone = 'UTC'
"""
SET_UP = """
CREATE ROLE pass_user PASSWORD 'password' LOGIN;
SET password_encryption TO 'md5';
CREATE ROLE md5_user PASSWORD 'password' LOGIN;
SET password_encryption TO 'scram-sha-256';
CREATE ROLE scram_user PASSWORD 'password' LOGIN;
CREATE EXTENSION hstore;
CREATE EXTENSION citext;
CREATE EXTENSION ltree;
"""


def programs():
    """The folder of the newest version's programs, or nothing."""
    found = [file.parent for file in PROGRAMS.glob("*/bin/initdb") if (file.parent / "postgres").exists()]
    return max(found, key=lambda folder: int(folder.parent.name), default=None)


def version():
    return subprocess.run([programs() / "postgres", "--version"], capture_output=True, text=True).stdout.strip()


def other_user():
    """Whom the server runs as, as the arguments of a process: none where we are not root."""
    if os.geteuid() != 0:
        return {}
    names = {entry.pw_name: entry for entry in pwd.getpwall()}
    entry = names.get("postgres") or names["nobody"]
    return {"user": entry.pw_uid, "group": entry.pw_gid, "extra_groups": []}


def free_port():
    with socket.socket() as asked:
        asked.bind(("127.0.0.1", 0))
        return asked.getsockname()[1]


def done(command, log, **more):
    """Runs a command to its end, with what it prints in the log."""
    with log.open("a") as file:
        status = subprocess.run(command, stdout=file, stderr=subprocess.STDOUT, text=True, **more).returncode
    if status != 0:
        raise RuntimeError(f"{Path(command[0]).name}: status {status}\n{log.read_text()[-2000:]}")


def wait_for(port, process, log):
    """Waits until the server takes a connection."""
    asked = [programs() / "pg_isready", "-q", "-h", "127.0.0.1", "-p", str(port)]
    for _ in range(600):
        if process.poll() is not None:
            break
        if subprocess.run(asked).returncode == 0:
            return
        time.sleep(0.1)
    raise RuntimeError(f"postgres takes no connection\n{log.read_text()[-2000:]}")


def end(process):
    """Ends the server by its own id. Its connections are closed first."""
    process.send_signal(signal.SIGINT)
    try:
        process.wait(timeout=30)
    except subprocess.TimeoutExpired:
        process.kill()
        process.wait()


@contextlib.contextmanager
def server(access=None, sockets=""):
    """A server that nothing was stored in, for as long as the block runs. The value is its port.

    Once it is set up, this `access` is that of its pg_hba.conf. Its Unix socket is in the folder `sockets`, if there is one.
    """
    folder = Path(tempfile.mkdtemp(prefix="postgres-"))
    log, data, port, who = folder / "log", folder / "data", free_port(), other_user()
    process = None
    try:
        if who:
            os.chown(folder, who["user"], who["group"])
        done([programs() / "initdb", "-D", data, "-U", "postgres", "--auth=trust", "--no-sync", "--encoding=UTF8",
              "--locale=C"], log, cwd=folder, **who)
        (data / "pg_hba.conf").write_text(ACCESS)
        with (data / "postgresql.conf").open("a") as file:
            file.write(f"{SETTINGS}port = {port}\nunix_socket_directories = '{sockets}'\n")
        with log.open("a") as file:
            process = subprocess.Popen([programs() / "postgres", "-D", data], cwd=folder, stdin=subprocess.DEVNULL,
                                       stdout=file, stderr=subprocess.STDOUT, **who)
        wait_for(port, process, log)
        done([programs() / "psql", "-q", "-v", "ON_ERROR_STOP=1", "-h", "127.0.0.1", "-p", str(port), "-U", "postgres",
              "-c", SET_UP], log)
        if access is not None:
            (data / "pg_hba.conf").write_text(access)
            process.send_signal(signal.SIGHUP)
            time.sleep(1)
        yield port
    finally:
        if process:
            end(process)
        shutil.rmtree(folder)
