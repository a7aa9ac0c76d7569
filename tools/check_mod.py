#!/usr/bin/env python3
"""A check for a mod: which things of a dump can't be reached from nothing, and what is nearest in the way.

    factoplan check-mod DUMP [--allow FILE] [--write-allow FILE] [--against OLD] [--junit | --json] [--prelude FILE]
                             [--kinds KIND,KIND ..] [--hidden] [--no-plain] [--script FILE] [--program COMMAND]

DUMP is the game's data-raw-dump.json. It ends with
    0  each thing that is looked at is reached, or allowed not to be; with --against, none is worse off than in OLD
    1  some other thing is not reached; with --against, one that was reached in OLD
    2  the words are wrong, or a file can't be read
    3  factoplan could not answer: its own words stand above

--allow FILE       things that need not be reached, one a line, as item:NAME; a line may begin with #
--write-allow FILE writes the things that are not reached into that file, in place of judging them
--against OLD      another dump, as of the release before: what of it can't be reached any more, and whose rank or milestones changed
--junit            writes the result as JUnit XML
--json             writes the result as JSON
--prelude FILE     lines of factoplan's script that come first, such as `grant item:NAME` for what a map begins with
--kinds            the kinds that are judged: item,fluid,recipe,tech by default; source and machine may be added
--hidden           judges hidden items, fluids, recipes and technologies too
--no-plain         judges also what the game without mods has and nobody reaches (plain_unreached.txt beside this script)
--script FILE      writes the first script that factoplan is given to this file, to be run by hand
--program COMMAND  the command that answers `COMMAND run DUMP SCRIPT`. By default factoplan, which is not built for this: $FACTOPLAN,
                   or ../factoplan beside this script's folder
"""
import argparse
import json
import os
import re
import shlex
import subprocess
import sys
import tempfile
from typing import Dict, List, NamedTuple, NoReturn, Optional, Set, Tuple
from xml.sax.saxutils import escape, quoteattr

ITEMS = """item ammo capsule gun item-with-entity-data item-with-label item-with-inventory blueprint-book
item-with-tags selection-tool blueprint copy-paste-tool deconstruction-item upgrade-item module rail-planner
spidertron-remote tool armor repair-tool""".split()
SOURCES = "resource tree simple-entity fish".split()
MACHINES = """assembling-machine furnace rocket-silo mining-drill offshore-pump boiler generator burner-generator
solar-panel reactor lab beacon""".split()
SECTIONS = (
    [(s, "item") for s in ITEMS]
    + [("fluid", "fluid"), ("recipe", "recipe")]
    + [(s, "source") for s in SOURCES]
    + [(s, "machine") for s in MACHINES]
    + [("technology", "tech")]
)
SPECIAL = ["special:character", "special:electricity", "special:heat"]
NOTHING = {
    "item": "no recipe or source gives it, and no fuel leaves it",
    "fluid": "no recipe, source, pump or boiler gives it",
    "recipe": "no machine crafts it, or no technology unlocks it",
    "source": "nothing mines it, or the map has none of it",
    "machine": "no item is placed as it, or there is nothing that it could run on",
    "tech": "it is disabled, or no lab takes its science packs",
    "special": "no machine makes it",
}
LINES = 100_000  # the most lines that a script may have
MILESTONES = 256  # the most milestones
ESCAPES = {"\\": "\\", '"': '"', "n": "\n", "t": "\t", "r": "\r"}
HERE = os.path.dirname(os.path.abspath(__file__))

Group = Tuple[str, List[str]]  # the word `all`, `any` or `forbidden`, and the members


class Reached(NamedTuple):
    rank: Optional[int]  # None of a thing that is not reached
    milestones: Tuple[str, ...]


class Cause(NamedTuple):
    """What is nearest in the way of a thing: another thing and why that isn't there, or a ring of things that wait for each other."""

    things: List[str]
    why: str
    steps: int  # how many things away it is; 0 where it is the thing itself

    def text(self) -> str:
        if len(self.things) == 1:
            return "%s: %s" % (self.things[0], self.why)
        return "%s: %s%s" % (self.why, ", ".join(self.things[:8]), " .." if len(self.things) > 8 else "")


def give_up(status: int, text: str) -> NoReturn:
    print("factoplan: check-mod: " + text, file=sys.stderr)
    sys.exit(status)


# ---- dumps


def read_dump(path: str) -> dict:
    """The dump as Python's objects. The game writes inf and nan as bare words, which become null."""
    try:
        with open(path, encoding="utf-8-sig") as file:
            text = file.read()
    except OSError as fault:
        give_up(2, "%s: %s" % (path, fault.strerror))
    except UnicodeDecodeError:
        give_up(
            2,
            "%s: no text in UTF-8, as the game's data-raw-dump.json is; a packed file has to be unpacked first" % path,
        )
    text = re.sub(r'"(?:[^"\\]|\\.)*"|-?\b(?:inf|nan)\b', lambda m: m[0] if m[0].startswith('"') else "null", text)
    try:
        dump = json.loads(text)
    except (ValueError, RecursionError) as fault:
        give_up(2, "%s is no JSON: %s" % (path, fault))
    if not isinstance(dump, dict):
        give_up(2, "%s: no section of Factorio 1.1 found" % path)
    return dump


def is_hidden(kind: str, prototype: dict) -> bool:
    flags = prototype.get("flags")
    marked = isinstance(flags, (list, dict)) and "hidden" in (flags if isinstance(flags, list) else flags.values())
    parts = [prototype] + [prototype[key] for key in ("normal", "expensive") if isinstance(prototype.get(key), dict)]
    return kind in ("item", "fluid", "recipe", "tech") and (
        marked or any(part.get("hidden") in (True, "true") for part in parts[:2])
    )


def things_of(dump: dict) -> Dict[str, bool]:
    """Each thing that factoplan has a node for, and whether it is hidden, in the order of the dump's sections."""
    things: Dict[str, bool] = {}
    for section, kind in SECTIONS:
        prototypes = dump.get(section)
        for name, prototype in prototypes.items() if isinstance(prototypes, dict) else ():
            if isinstance(prototype, dict) and (kind != "source" or isinstance(prototype.get("minable"), dict)):
                things["%s:%s" % (kind, name)] = is_hidden(kind, prototype)
    return things


def packs_of(dump: dict) -> List[str]:
    """The items that labs take, as milestones."""
    labs = dump.get("lab")
    found: Dict[str, None] = {}
    for lab in labs.values() if isinstance(labs, dict) else ():
        inputs = lab.get("inputs") if isinstance(lab, dict) else None
        for name in inputs if isinstance(inputs, list) else ():
            if isinstance(name, str):
                found["item:" + name] = None
    return list(found)[:MILESTONES]


# ---- words, files and runs


def as_word(thing: str) -> str:
    """A thing as a word of a script."""
    if not re.search(r'[ \t\n\r"\\]', thing):
        return thing
    for letter, byte in ESCAPES.items():
        thing = thing.replace(byte, "\\" + letter)
    return '"%s"' % thing


def words_of(line: str) -> List[str]:
    """The words of a line of a script or of a report."""
    words = re.findall(r'"((?:[^"\\]|\\.)*)"|([^ \t"]+)', line)
    return [bare or re.sub(r"\\(.)", lambda m: ESCAPES.get(m[1], m[1]), quoted) for quoted, bare in words]


def read_lines(path: str) -> List[str]:
    try:
        with open(path, encoding="utf-8-sig") as file:
            return file.read().splitlines()
    except (OSError, UnicodeDecodeError) as fault:
        give_up(2, "%s: %s" % (path, fault))


def read_allowed(path: str) -> Set[str]:
    lines = (line for line in read_lines(path) if line.strip() and not line.lstrip().startswith("#"))
    return {words[0] for words in map(words_of, lines) if words}


def write_lines(path: str, lines: List[str]) -> None:
    try:
        with open(path, "w", encoding="utf-8", newline="\n") as file:
            file.write("".join(line + "\n" for line in lines))
    except OSError as fault:
        give_up(2, "%s: %s" % (path, fault))


def run(command: List[str], dump: str, script: List[str]) -> List[str]:
    """The report of a script, as a list of lines."""
    with tempfile.NamedTemporaryFile("w", suffix=".txt", encoding="utf-8", newline="\n", delete=False) as file:
        file.write("".join(line + "\n" for line in script))
    try:
        done = subprocess.run(command + ["run", dump, file.name], stdout=subprocess.PIPE, stderr=subprocess.PIPE)
    except OSError as fault:
        give_up(3, "%s: %s" % (command[0], fault))
    finally:
        os.unlink(file.name)
    if done.returncode not in (0, 1):
        sys.stderr.buffer.write(done.stderr)
        give_up(3, "factoplan ended with %d" % done.returncode)
    return done.stdout.decode("utf-8").split("\n")


class Game:
    """A dump, asked by way of factoplan."""

    def __init__(self, command: List[str], path: str, prelude: List[str]):
        self.command, self.path, self.prelude = command, path, prelude
        dump = read_dump(path)
        self.things = things_of(dump)
        self.packs = packs_of(dump)
        if not self.things:
            give_up(2, "%s: no section of Factorio 1.1 found" % path)

    def replies(self, questions: List[str]) -> List[List[List[str]]]:
        """The words of the lines of the reply to each question."""
        found: List[List[List[str]]] = []
        room = LINES - len(self.prelude)
        for start in range(0, len(questions), room):
            asked = questions[start : start + room]
            answers: List[List[List[str]]] = [[] for _ in asked]
            at = -1
            for line in run(self.command, self.path, self.prelude + asked):
                words = words_of(line)
                if not words:
                    continue
                if not line.startswith("  "):
                    number, words = int(words[0]), words[1:]
                    at = number - 1 - len(self.prelude)
                    if at < 0 and words[0] == "refused":
                        give_up(3, "line %d of the prelude is refused: %s" % (number, " ".join(words[1:])))
                if at >= 0:
                    answers[at].append(words)
            found.extend(answers)
        return found

    def missing(self, things: List[str]) -> Dict[str, List[Group]]:
        """For each thing that is not reached its groups."""
        replies = self.replies(["missing " + as_word(thing) for thing in things])
        return {
            thing: [(words[0], words[1:]) for words in lines[1:]]
            for thing, lines in zip(things, replies)
            if lines and lines[0][0] == "missing" and lines[0][2:] != ["none"]
        }

    def all_missing(self, things: List[str]) -> Dict[str, List[Group]]:
        """As `missing`, and then also for what stands in the answers and was not asked for."""
        asked: Set[str] = set()
        groups: Dict[str, List[Group]] = {}
        while things:
            groups.update(self.missing(things))
            asked.update(things)
            members = (member for of in groups.values() for _, members in of for member in members)
            things = sorted(set(members) - asked)
        return groups

    def reached(self, things: List[str], milestones: List[str]) -> Dict[str, Reached]:
        """The rank of each thing, and the milestones that it can't be reached without."""
        marked = Game.__new__(Game)
        marked.__dict__.update(self.__dict__, prelude=self.prelude + ["milestone " + as_word(m) for m in milestones])
        questions = [word + as_word(thing) for thing in things for word in ("reach ", "mask ")]
        replies = marked.replies(questions)
        found = {}
        for place, thing in enumerate(things):
            rank, mask = replies[2 * place][0], replies[2 * place + 1][0]
            is_reached = rank[0] == "reach" and rank[2] == "rank"
            names = [] if mask[2:] in (["none"], ["unreached"]) else mask[2:]
            found[thing] = Reached(int(rank[3]) if is_reached else None, tuple(names) if is_reached else ())
        return found


# ---- causes


def reason(thing: str, groups: List[Group]) -> Optional[str]:
    """Why a thing is an end of the search, or None where others stand in its way."""
    if any(word == "forbidden" for word, _ in groups):
        return "it is forbidden"
    if any(word == "any" and not members for word, members in groups):
        return NOTHING[thing.split(":", 1)[0]]
    return None


def is_met(group: Group, left: Set[str]) -> bool:
    word, members = group
    return all(m not in left for m in members) if word == "all" else any(m not in left for m in members)


def rings_of(groups: Dict[str, List[Group]]) -> Dict[str, List[str]]:
    """For each thing that would still not be reached if all ends were granted: the ring of things that wait for each other to which it
    leads."""
    left = {thing for thing in groups if reason(thing, groups[thing]) is None}
    while True:
        now = {thing for thing in left if all(is_met(group, left) for group in groups[thing])}
        if not now:
            break
        left -= now
    after = {
        thing: next(m for group in groups[thing] if not is_met(group, left) for m in group[1] if m in left)
        for thing in left
    }
    rings: Dict[str, List[str]] = {}
    for thing in sorted(left):
        way = [thing]
        places = {thing: 0}
        while way[-1] not in rings and after[way[-1]] not in places:
            way.append(after[way[-1]])
            places[way[-1]] = len(way) - 1
        ring = rings.get(way[-1]) or way[places[after[way[-1]]] :]
        first = ring.index(min(ring))
        ring = ring[first:] + ring[:first]
        rings.update((one, ring) for one in way)
    return rings


def nearest_cause(thing: str, groups: Dict[str, List[Group]], rings: Dict[str, List[str]]) -> Cause:
    """The nearest thing on the ways from one that waits for nothing, or else the ring to which it leads."""
    met = [(thing, 0)]
    seen = {thing}
    for one, steps in met:
        why = reason(one, groups.get(one, []))
        if why is not None:
            return Cause([one], why, steps)
        for _, members in groups.get(one, []):
            for member in members:
                if member not in seen:
                    seen.add(member)
                    met.append((member, steps + 1))
    return Cause(rings.get(thing, [thing]), "these wait for each other", 1)


# ---- results


class Change(NamedTuple):
    thing: str
    what: str
    is_worse: bool


class Result(NamedTuple):
    dump: str
    judged: List[str]
    allowed: List[str]  # things that are not reached, and need not be
    wrong: Dict[str, Cause]  # the others, each with its nearest cause
    changes: List[Change]
    against: Optional[str]
    listed: List[Tuple[str, str]]  # things of a list that are reached, each with the list

    def faults(self) -> Dict[str, str]:
        """What the check fails for, by thing."""
        if self.against is None:
            return {thing: cause.text() for thing, cause in self.wrong.items()}
        return {change.thing: change.what for change in self.changes if change.is_worse}


def changes_of(old: Game, new: Game, judged: List[str], allowed: Set[str], wrong: Dict[str, Cause]) -> List[Change]:
    """What of another dump changed: what is gone or new, can't be reached any more or is reached now, or has another rank or others of
    its milestones, which are the science packs of both."""
    packs = [pack for pack in old.packs if pack in new.packs and pack in old.things and pack in new.things]
    shared = [thing for thing in judged if thing in old.things]
    before, after = old.reached(shared, packs), new.reached(shared, packs)
    kinds = {thing.split(":", 1)[0] for thing in judged}
    changes = [
        Change(thing, "is gone", False)
        for thing in old.things
        if thing not in new.things and thing.split(":", 1)[0] in kinds
    ]
    for thing in judged:
        if thing not in before:
            is_worse = thing in wrong
            what = "is new" + (", and is not reached: " + wrong[thing].text() if is_worse else "")
            changes.append(Change(thing, what, is_worse))
            continue
        was, now = before[thing], after[thing]
        if was == now:
            continue
        if now.rank is None:
            why = ": " + wrong[thing].text() if thing in wrong else ""
            changes.append(Change(thing, "is not reached any more" + why, thing not in allowed))
        elif was.rank is None:
            changes.append(Change(thing, "is reached now, at rank %d" % now.rank, False))
        else:
            parts = ["rank %d, was %d" % (now.rank, was.rank)] if was.rank != now.rank else []
            if was.milestones != now.milestones:
                parts.append(
                    "stands behind %s, was %s"
                    % (", ".join(now.milestones) or "no milestone", ", ".join(was.milestones) or "none")
                )
            changes.append(Change(thing, "; ".join(parts), False))
    return changes


def count_causes(wrong: Dict[str, Cause]) -> List[Tuple[int, str]]:
    """Each cause, and of how many of the things it is the nearest, the most first."""
    counts: Dict[str, int] = {}
    for cause in wrong.values():
        counts[cause.text()] = counts.get(cause.text(), 0) + 1
    return sorted(((count, cause) for cause, count in counts.items()), key=lambda pair: (-pair[0], pair[1]))


def summary(result: Result) -> str:
    unreached = len(result.wrong) + len(result.allowed)
    return "%d of %d reached, %d allowed not to be, %d in question" % (
        len(result.judged) - unreached,
        len(result.judged),
        len(result.allowed),
        len(result.wrong),
    )


def as_text(result: Result) -> str:
    lines = ["%s is reached, and need not stand in %s any more" % pair for pair in result.listed]
    if result.against is None:
        for thing, cause in result.wrong.items():
            lines.append("%s is not reached: %s" % (thing, cause.why if cause.things == [thing] else cause.text()))
        if len(result.wrong) > 1:
            lines.extend("in the way of %d: %s" % pair for pair in count_causes(result.wrong))
    lines.extend("%s %s" % (change.thing, change.what) for change in result.changes)
    lines.append(summary(result))
    if result.against is not None:
        lines.append(
            "against %s: %d changed, %d worse"
            % (result.against, len(result.changes), sum(change.is_worse for change in result.changes))
        )
    return "".join(re.sub(r"[\x00-\x1f\x7f]", "?", line) + "\n" for line in lines)


def as_json(result: Result) -> str:
    data = {
        "dump": result.dump,
        "judged": len(result.judged),
        "allowed": result.allowed,
        "unreached": [
            {"thing": thing, "cause": cause.things, "why": cause.why, "steps": cause.steps}
            for thing, cause in result.wrong.items()
        ],
        "reached_but_listed": [thing for thing, _ in result.listed],
        "faults": [{"thing": thing, "what": what} for thing, what in result.faults().items()],
    }
    if result.against is not None:
        data["against"] = result.against
        data["changes"] = [change._asdict() for change in result.changes]
    return json.dumps(data, ensure_ascii=False, indent=1) + "\n"


def plain(text: str) -> str:
    """A text without the characters that XML 1.0 has not."""
    return re.sub("[^\t\n\r\x20-\ud7ff\ue000-\ufffd\U00010000-\U0010ffff]", "?", text)


def as_junit(result: Result) -> str:
    """A test case for each thing that is judged, in a suite of its kind, as the schema of JUnit has it."""
    faults = result.faults()
    allowed = set(result.allowed)
    lines = [
        '<?xml version="1.0" encoding="UTF-8"?>',
        '<testsuites name=%s tests="%d" failures="%d">'
        % (quoteattr(plain(result.dump)), len(result.judged), len(faults)),
    ]
    for kind in dict.fromkeys(thing.split(":", 1)[0] for thing in result.judged):
        things = [thing for thing in result.judged if thing.split(":", 1)[0] == kind]
        lines.append(
            '<testsuite name="%s" tests="%d" failures="%d" errors="0" skipped="%d">'
            % (
                kind,
                len(things),
                sum(t in faults for t in things),
                sum(t in allowed and t not in faults for t in things),
            )
        )
        for thing in things:
            case = '<testcase classname="%s" name=%s' % (kind, quoteattr(plain(thing)))
            if thing in faults:
                what = plain(faults[thing])
                lines.append("%s><failure message=%s>%s</failure></testcase>" % (case, quoteattr(what), escape(what)))
            elif thing in allowed:
                lines.append(case + '><skipped message="not reached, and need not be"/></testcase>')
            else:
                lines.append(case + "/>")
        lines.append("</testsuite>")
    lines.append("</testsuites>")
    return "".join(line + "\n" for line in lines)


# ---- the run


def read_words() -> argparse.Namespace:
    parser = argparse.ArgumentParser(
        usage="factoplan check-mod DUMP [--allow FILE] ..; --help tells more", add_help=False
    )
    parser.add_argument("dump")
    parser.add_argument("--allow", "--expect")
    parser.add_argument("--write-allow")
    parser.add_argument("--against")
    parser.add_argument("--junit", action="store_true")
    parser.add_argument("--json", action="store_true")
    parser.add_argument("--prelude")
    parser.add_argument("--kinds", default="item,fluid,recipe,tech")
    parser.add_argument("--hidden", action="store_true")
    parser.add_argument("--no-plain", action="store_true")
    parser.add_argument("--script")
    parser.add_argument("--program")
    options = parser.parse_args()
    for kind in options.kinds.split(","):
        if kind not in NOTHING:
            parser.error("%s is no kind" % kind)
    if options.junit and options.json:
        parser.error("one of --junit and --json")
    return options


def default_command() -> List[str]:
    return [os.environ.get("FACTOPLAN") or os.path.join(HERE, "..", "factoplan"), "--no-build"]


def main() -> int:
    if "--help" in sys.argv or "-h" in sys.argv:
        print((__doc__ or "").strip())
        return 0
    options = read_words()
    command = shlex.split(options.program) if options.program else default_command()
    prelude = read_lines(options.prelude) if options.prelude else []
    new = Game(command, options.dump, prelude)
    asked = SPECIAL + list(new.things)
    if options.script:
        write_lines(options.script, prelude + ["missing " + as_word(thing) for thing in asked])
    groups = new.all_missing(asked)

    kinds = options.kinds.split(",")
    judged = [t for t, hidden in new.things.items() if t.split(":", 1)[0] in kinds and (options.hidden or not hidden)]
    unreached = [t for t in judged if t in groups]
    if options.write_allow:
        write_lines(options.write_allow, [as_word(thing) for thing in unreached])
        print("%d of %d not reached, written to %s" % (len(unreached), len(judged), options.write_allow))
        return 0
    listed = read_allowed(options.allow) if options.allow else set()
    allowed = listed if options.no_plain else listed | read_allowed(os.path.join(HERE, "plain_unreached.txt"))
    rings = rings_of(groups)
    wrong = {t: nearest_cause(t, groups, rings) for t in unreached if t not in allowed}
    changes = []
    if options.against:
        changes = changes_of(Game(command, options.against, prelude), new, judged, allowed, wrong)
    stale = [(t, options.allow) for t in sorted(listed & (set(judged) - set(unreached)))]
    result = Result(
        options.dump, judged, [t for t in unreached if t in allowed], wrong, changes, options.against, stale
    )
    sys.stdout.reconfigure(encoding="utf-8", newline="\n")
    sys.stdout.write(as_junit(result) if options.junit else as_json(result) if options.json else as_text(result))
    return 1 if result.faults() else 0


if __name__ == "__main__":
    sys.exit(main())
