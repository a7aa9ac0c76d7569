"""Other readers of JSON beside which factoplan is timed, on bytes that are loaded as it loads them."""
import sys
from typing import List, NamedTuple, Optional

import programs


class Reader(NamedTuple):
    """A reader of peers.cpp: its word there, its name, the words that build it, and the Debian package that has it."""

    word: str
    name: str
    built_by: List[str]
    package: str


SIMDJSON = Reader("simdjson-tree", "simdjson's tree", ["-DSIMDJSON", "-lsimdjson"], "libsimdjson-dev")
RAPIDJSON = Reader("rapidjson-tree", "RapidJSON's tree", ["-DRAPIDJSON"], "rapidjson-dev")
EVENTS = Reader("rapidjson-events", "RapidJSON's events", ["-DRAPIDJSON"], "rapidjson-dev")


class Parse(NamedTuple):
    """What a peer took: processor seconds of the loading, of its first parse, of its least and of the whole process, and the most memory."""

    loading: float
    first: float
    least: float
    whole: float
    megabytes: float


def program(reader: Reader) -> Optional[programs.Word]:
    """The peer's program; none where its package isn't there."""
    return programs.compiled("json/peers.cpp", reader.word, reader.built_by)


def parse(reader: Reader, peer: programs.Word, dump: programs.Word, rounds: int) -> Parse:
    """Runs a peer, which loads the bytes once and parses them so many times."""
    ran = programs.well([peer, reader.word, dump, str(rounds)])
    verdict, loading, first, least = ran.said.split()
    if verdict != "accepted":
        sys.exit("%s refuses %s: it has bare words, or is no JSON" % (reader.name, dump))
    return Parse(float(loading), float(first), float(least), ran.seconds, ran.megabytes)
