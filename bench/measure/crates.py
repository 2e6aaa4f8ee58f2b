"""The repository's crates, and where the kit is."""
import os
import subprocess

KIT = os.path.dirname(subprocess.run(["rt", "doc"], capture_output=True, text=True, check=True).stdout.split()[-1])
TOP = os.path.dirname(os.path.dirname(os.path.dirname(os.path.abspath(__file__))))


def crates():
    """What each crate stands on, by its line of crates.txt."""
    below = {}
    with open(f"{TOP}/crates.txt") as lines:
        for line in lines:
            line = line.split("#")[0].strip()
            if line:
                name, names = line.split(":")
                below[name.split()[0]] = names.split()
    return below
