"""What the page follows of a script by itself, against what the session says of it, over all stored scripts."""
import re

from common import Bench, check
from sessions import lines_of, planner, stored

FOLD = """
const [cases, done] = arguments;
import('/model.js').then(({ inForce, inForceOf, modelOf }) => {
  done(cases.map(([text, refused, state]) => {
    const mine = inForce(text, new Set(refused)), theirs = inForceOf(state), model = modelOf(text, mine);
    return [mine.lines, theirs.lines, mine.open, theirs.open, model.tables.size, model.milestones.length];
  }));
}, fault => done(String(fault)));
"""


def fold(program, make):
    """Over each stored script: the lines in force, whether a batch is open, how many tables and milestones there are."""
    given, told = [], []
    for name, dump, script, _ in stored():
        try:
            with planner(program, dump) as it:
                replies, answers = it.answers(lines_of(script), [b"?state", b"summary"])
        except Exception as fault:
            check("an answer to " + name, False, fault)
            continue
        refused = [n for n, reply in replies.items() if re.match(rb"\d+ refused ", reply[0])]
        state, summary = (b"\n".join(answer).decode("utf-8", "replace") for answer in answers)
        given.append([script.decode("utf-8", "replace"), refused, state])
        told.append((name, (state, summary)))
    with Bench(program) as bench:
        b = make()
        try:
            b.it.get(bench.url)
            got = b.it.execute_async_script(FOLD, given)
        finally:
            b.it.quit()
    wrong = []
    if not isinstance(got, list):
        return check("the page folds", False, got)
    for (name, (state, summary)), (mine, theirs, is_open, said_open, tables, milestones) in zip(told, got):
        figures = re.search(r"milestones (\d+) bits \d+ tables (\d+)", summary)
        if (
            mine != theirs
            or is_open != said_open
            or (figures and (int(figures.group(1)), int(figures.group(2))) != (milestones, tables))
        ):
            wrong.append((name, mine, theirs, is_open, said_open, tables, milestones, summary))
    return check(
        "the lines in force of %d stored scripts are those that the session says" % len(got),
        len(got) > 100 and not wrong,
        wrong[:3],
    )


PARTS = [fold]
