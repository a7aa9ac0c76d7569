"""Copies of this tree, as a checkout has it, with a release of the program that is built here."""
import pathlib
import shutil
import subprocess
import sys
from typing import List, Optional

from harness import TOP

# (the tests that make copies read what the tools do)
sys.path.insert(0, str(TOP / "tools"))


def program_here() -> Optional[pathlib.Path]:
    """The program that the launcher of this tree would run; none where there is none."""
    run = subprocess.run(["sh", str(TOP / "factoplan"), "--where"], stdout=subprocess.PIPE, universal_newlines=True)
    return None if run.returncode else pathlib.Path(run.stdout.rstrip("\n"))


def files_of_tree() -> List[str]:
    if shutil.which("git"):
        listed = subprocess.run(
            ["git", "ls-files", "-z", "-co", "--exclude-standard"],
            cwd=str(TOP),
            stdout=subprocess.PIPE,
            stderr=subprocess.PIPE,
        )
        if listed.returncode == 0:
            return [it for it in listed.stdout.decode().split("\0") if it and (TOP / it).is_file()]
    names = [str(it.relative_to(TOP)) for it in TOP.rglob("*") if it.is_file()]
    return [it for it in names if "/out/" not in it and not it.startswith(".git/")]


def copy(to: pathlib.Path, but=("release/",)) -> None:
    """Copies the files of the tree, but those whose names begin so."""
    for name in files_of_tree():
        if not name.startswith(but):
            path = to / name
            path.parent.mkdir(parents=True, exist_ok=True)
            shutil.copy(str(TOP / name), str(path))


def built(top: pathlib.Path, program: pathlib.Path) -> pathlib.Path:
    """Puts a program where a copy has what is built in it, and tells where that is."""
    path = top / "crates" / "factoplan" / "out" / "factoplan"
    path.parent.mkdir(exist_ok=True)
    shutil.copyfile(str(program), str(path))
    path.chmod(0o755)
    return path


def release(top: pathlib.Path, *words: str) -> "subprocess.CompletedProcess[str]":
    """Calls tools/release in a copy."""
    return subprocess.run(
        [sys.executable, str(top / "tools" / "release"), *words],
        stdout=subprocess.PIPE,
        stderr=subprocess.PIPE,
        universal_newlines=True,
    )
