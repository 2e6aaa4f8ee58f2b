"""Where measurements are kept, and what stands at their head."""
import datetime
import os
import pathlib
import subprocess

ROOM = pathlib.Path(__file__).resolve().parents[1] / "results"


def told(*words):
    return subprocess.run(words, cwd=ROOM.parent, capture_output=True, text=True).stdout.strip()


def commit():
    """The commit, and whether there are changes besides."""
    return told("git", "rev-parse", "--short=8", "HEAD") + " and changes" * bool(told("git", "status", "--porcelain", "-uno"))


def machine():
    """The processors, how many there are, and the memory."""
    cpus = pathlib.Path("/proc/cpuinfo").read_text().splitlines()
    model = next((line.split(":", 1)[1].strip() for line in cpus if line.startswith("model name")), "unknown")
    kilobytes = int(pathlib.Path("/proc/meminfo").read_text().split()[1])
    return f"{os.cpu_count()} x {model}, {kilobytes // 2**20} GB"


def head(command, words):
    """The commit, the machine, its load now, the date and the command, each a line."""
    now = datetime.datetime.now(datetime.timezone.utc)
    load = " ".join(f"{one:.1f}" for one in os.getloadavg())
    return (f"# commit: {commit()}\n# machine: {machine()}\n# load before: {load}\n"
            f"# date: {now:%Y-%m-%d %H:%M} UTC\n# command: {' '.join([command, *words])}\n")
