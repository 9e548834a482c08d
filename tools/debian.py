"""Debian's packages of sources, fetched by apt and unpacked into a folder: nothing is installed, and apt's own lists aren't touched."""
import os
import subprocess
import sys

MIRROR, KEYS = "http://deb.debian.org/debian", "/usr/share/keyrings/debian-archive-keyring.gpg"
REGISTRY = "usr/share/cargo/registry"


def stop(message, status=2):
    print(message, file=sys.stderr)
    sys.exit(status)


def told(command, **more):
    """What a command prints. It ends the script where the command fails."""
    ran = subprocess.run(command, capture_output=True, text=True, **more)
    if ran.returncode != 0:
        stop(f"{' '.join(map(str, command[:4]))} ..: status {ran.returncode}\n{ran.stderr.strip()}")
    return ran.stdout


def own_apt(work, suite):
    """Has apt keep its lists and its cache in the folder, with the packages of the suite alone."""
    folder = work / "apt"
    for name in ("lists/partial", "cache/archives/partial"):
        (folder / name).mkdir(parents=True, exist_ok=True)
    (folder / "sources.list").write_text(f"deb [signed-by={KEYS}] {MIRROR} {suite} main\n")
    settings = {"Dir::Etc::SourceList": folder / "sources.list", "Dir::Etc::SourceParts": "/dev/null",
                "Dir::State::Lists": folder / "lists", "Dir::State::status": "/dev/null", "Dir::Cache": folder / "cache",
                "APT::Sandbox::User": "root", "APT::Update::Error-Mode": "any"}
    (folder / "apt.conf").write_text("".join(f'{name} "{value}";\n' for name, value in settings.items()))
    os.environ["APT_CONFIG"] = str(folder / "apt.conf")


def unpacked(packages, files, into):
    """Downloads the packages into one folder, and unpacks them into another."""
    told(["apt-get", "download", *packages], cwd=files)
    for file in sorted(files.glob("*.deb")):
        told(["dpkg-deb", "-x", file, into])
