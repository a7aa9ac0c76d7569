"""The program that is measured, and others, and runs of them with the time and the memory that they took."""
import atexit
import functools
import os
import pathlib
import re
import shutil
import subprocess
import sys
import tarfile
import tempfile
from typing import Dict, NamedTuple, Optional, Sequence, Tuple, Union

TOP = pathlib.Path(__file__).resolve().parent.parent
Word = Union[str, pathlib.Path]


class Run(NamedTuple):
    """How a program ended, what it took, and what it printed."""

    status: int
    seconds: float  # processor time
    megabytes: float  # the most memory, and no less than what this process had taken before
    said: str


def launched(stays: bool = False) -> Dict[str, str]:
    """The environment that the launcher gives to a program that ends with its run, or to one that stays: its own lines tell it."""
    large, kept = re.findall(r"\bmemory=(\S+)", (TOP / "factoplan").read_text(encoding="utf-8"))
    return {"GLIBC_TUNABLES": large if stays else kept.replace("$memory", large), **os.environ}


def run(words: Sequence[Word], given: Optional[Word] = None, environment: Optional[Dict[str, str]] = None) -> Run:
    """Runs a program, with a file as its standard input. What it says on standard error is not kept."""
    with open(given or os.devnull, "rb") as source:
        child = subprocess.Popen(
            [str(word) for word in words],
            stdin=source,
            stdout=subprocess.PIPE,
            stderr=subprocess.DEVNULL,
            env=environment,
        )
    said = child.stdout.read().decode(errors="replace")
    _, status, used = os.wait4(child.pid, 0)
    child.stdout.close()
    child.returncode = status >> 8 if os.WIFEXITED(status) else -os.WTERMSIG(status)
    return Run(child.returncode, used.ru_utime + used.ru_stime, used.ru_maxrss / 1024, said)


def well(words: Sequence[Word], given: Optional[Word] = None, environment: Optional[Dict[str, str]] = None) -> Run:
    """A run that must end with status 0."""
    ran = run(words, given, environment)
    if ran.status != 0:
        sys.exit("%s ended with status %d: %s" % (words[0], ran.status, ran.said[:300]))
    return ran


def least(runs: Sequence[Run]) -> float:
    """The least processor time of some runs."""
    return min(ran.seconds for ran in runs)


@functools.lru_cache(maxsize=None)
def found() -> Tuple[pathlib.Path, str]:
    """The path of the program, and whence it is.

    One that was built here of these sources comes first, or the release where it is of these sources, as the launcher tells it; then one
    that was built here before a change, then the release of other sources. Where there is none, it is built.
    """
    told = subprocess.run(
        [str(TOP / "factoplan"), "--where"], stdout=subprocess.PIPE, stderr=subprocess.DEVNULL, universal_newlines=True
    )
    if told.returncode == 0:
        path = pathlib.Path(told.stdout.strip())
        return path, "built here" if TOP in path.parents else "of the release of the same sources"
    own = TOP / "crates" / "factoplan" / "out" / "factoplan"
    if os.access(str(own), os.X_OK):
        return own, "built here of older sources"
    released = of_release()
    if released:
        return released, "of the release %s, whose sources are others" % released.parent.parent.parent.name
    return built("factoplan"), "built here"


def program() -> pathlib.Path:
    """The path of the program."""
    return found()[0]


def built(name: str) -> pathlib.Path:
    """The path of the program of a crate that no release has. It is built where it isn't there."""
    path = TOP / "crates" / name / "out" / name
    if not os.access(str(path), os.X_OK):
        if not shutil.which("rt"):
            sys.exit("crates/%s isn't built, and the toolchain's rt isn't there" % name)
        subprocess.run(
            ["rt", "run"],
            cwd=str(path.parent.parent),
            stdin=subprocess.DEVNULL,
            stdout=subprocess.DEVNULL,
            stderr=subprocess.DEVNULL,
        )
    if not os.access(str(path), os.X_OK):
        sys.exit("rt run in crates/%s built no program" % name)
    return path


def of_release() -> Optional[pathlib.Path]:
    """The program of the release, unpacked until this process ends; none where there is no release."""
    for archive in sorted((TOP / "release").glob("*.tar.gz")):
        with tarfile.open(str(archive)) as packed:
            for member in packed.getmembers():
                if member.name.endswith("/libexec/factoplan/factoplan"):
                    packed.extract(member, scratch())
                    return scratch() / member.name
    return None


@functools.lru_cache(maxsize=None)
def scratch() -> pathlib.Path:
    """A folder that goes when this process ends."""
    folder = tempfile.mkdtemp(prefix="bench-")
    atexit.register(shutil.rmtree, folder, ignore_errors=True)
    return pathlib.Path(folder)


def compiled(source: Word, name: str, words: Sequence[str] = ()) -> Optional[pathlib.Path]:
    """A program of C or C++ below bench/, compiled; none where it can't be, as without the library that it times."""
    path = scratch() / name
    compiler = "gcc" if str(source).endswith(".c") else "g++"
    if not shutil.which(compiler):
        return None
    done = subprocess.run(
        [compiler, "-O2", "-o", str(path), str(TOP / "bench" / source), *words], stderr=subprocess.DEVNULL
    )
    return path if done.returncode == 0 else None


def copied(name: str, main: Word, crates: Sequence[str]) -> pathlib.Path:
    """The folder of a crate of its own: a file of bench/ over copies of crates of this tree, with what was built of them.

    A program can stand only in a crate that is listed, and such a one is no part of the tree. `crates` are all that it stands on.
    """
    room = scratch() / name
    for crate in crates:
        shutil.copytree(str(TOP / "crates" / crate), str(room / "crates" / crate))
    folder = room / "crates" / name
    (folder / "src").mkdir(parents=True)
    shutil.copy(str(TOP / "bench" / main), str(folder / "src" / "main.rt"))
    shutil.copy(str(TOP / "HANDLES"), str(room))
    lines = [line for line in (TOP / "crates.txt").read_text().splitlines() if line.partition(":")[0] in crates]
    (room / "crates.txt").write_text("".join(line + "\n" for line in lines + ["%s: %s" % (name, " ".join(crates))]))
    return folder


def built_copy(name: str, main: Word, crates: Sequence[str]) -> pathlib.Path:
    """The program of such a crate, proved and built."""
    if not shutil.which("rt"):
        sys.exit("the toolchain's rt isn't there, which builds %s" % main)
    folder = copied(name, main, crates)
    done = subprocess.run(
        ["rt", "run"],
        cwd=str(folder),
        stdin=subprocess.DEVNULL,
        stdout=subprocess.PIPE,
        stderr=subprocess.STDOUT,
        universal_newlines=True,
    )
    path = folder / "out" / name
    if not os.access(str(path), os.X_OK):
        sys.exit("%s wasn't built:\n%s" % (main, done.stdout[-2000:]))
    return path


def made_dump(name: str, *words: object, maker: str = "make_dump.py") -> pathlib.Path:
    """A dump that one of the makers of bench/dump writes."""
    path = scratch() / name
    subprocess.run([sys.executable, str(TOP / "bench" / "dump" / maker), str(path), *map(str, words)], check=True)
    return path


def written(name: str, text: str) -> pathlib.Path:
    """A file with a text."""
    path = scratch() / name
    path.write_text(text, encoding="utf-8")
    return path
