"""What the tools here read of a checkout: its crates, its version and the toolchain's name."""
import os
import pathlib
import re
import shutil
import subprocess
from typing import Dict, List

TOP = pathlib.Path(__file__).resolve().parent.parent
# The crate of the program.
PROGRAM = "factoplan"
# What is proved of a crate, and what its program is run on.
PARTS = ("src", "specs", "proofs")
RUN_ON = ("stdin", "stdout", "args", "status", "data")


def read_crates() -> Dict[str, List[str]]:
    """Each crate of crates.txt with the libraries that it uses."""
    crates = {}
    for line in (TOP / "crates.txt").read_text(encoding="utf-8").splitlines():
        left, is_crate, uses = line.partition("#")[0].partition(":")
        if is_crate:
            crates[left.split()[0]] = uses.split()
    return crates


def closure(names: List[str], crates: Dict[str, List[str]]) -> List[str]:
    """Some crates and all those below them, each behind those that it uses."""
    found: List[str] = []

    def visit(name: str) -> None:
        if name in crates and name not in found:
            for below in crates[name]:
                visit(below)
            found.append(name)

    for name in names:
        visit(name)
    return found


def lay_out(names: List[str], crates: Dict[str, List[str]], room: str) -> None:
    """Copies what is proved and run of these crates, as a repository of its own."""
    os.mkdir(f"{room}/.git")
    with open(f"{room}/crates.txt", "w", encoding="utf-8") as file:
        file.write("".join(f"{name}: {' '.join(crates[name])}\n" for name in names))
    shutil.copy(TOP / "HANDLES", f"{room}/HANDLES")
    for name in names:
        for part in (*PARTS, *RUN_ON):
            path, to = TOP / "crates" / name / part, f"{room}/crates/{name}/{part}"
            if path.is_dir():
                shutil.copytree(path, to)
            elif path.is_file():
                os.makedirs(os.path.dirname(to), exist_ok=True)
                shutil.copy(path, to)


def of_launcher(name: str) -> str:
    """What the launcher gives to a variable at its start."""
    return re.search(rf"(?m)^{name}=(.+)$", (TOP / "factoplan").read_text(encoding="utf-8"))[1]


def version() -> str:
    return of_launcher("version")


def glibc() -> str:
    """The oldest glibc on which the programs of a release run, as 2.34."""
    return of_launcher("glibc")


def kit() -> str:
    """The line by which the toolchain names itself (`rt version`) that the sources are proved with."""
    return (TOP / "tools" / "kit.txt").read_text(encoding="utf-8").strip()


def kit_here() -> str:
    """The line by which the toolchain of this machine names itself, empty where there is none."""
    if not shutil.which("rt"):
        return ""
    return subprocess.run(["rt", "version"], stdout=subprocess.PIPE, universal_newlines=True).stdout.strip()


def gate_from_nothing() -> List[str]:
    """The words of a gate that takes nothing of earlier runs. Some kits keep what they passed, unless they are told to begin anew."""
    told = subprocess.run(
        ["rt", "help"], stdout=subprocess.PIPE, stderr=subprocess.STDOUT, universal_newlines=True
    ).stdout
    return ["rt", "ci", *["--anew"] * ("--anew" in told)]
