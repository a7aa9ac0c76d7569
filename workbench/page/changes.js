// Changes of the script, and the way back from them.
import { run } from './answers.js';
import { wrote } from './refusal.js';
import { changed, line } from './script.js';
import { keep, S } from './state.js';

const MOST_PAST = 200, MOST_KEPT = 2e6, KEPT_AFTER = 300;
/** @type {number | null} */
let keeping = null;

/**
 * Changes single lines of the script.
 *
 * @type {(how: Changes) => void}
 */
export const change = how => {
  wrote([...(how.add || []), ...Object.values(how.put || {}).filter(Boolean)]);
  return become(changed(S.script, how));
};

/**
 * Another text of the script.
 *
 * @param {string} text
 */
export function become(text) {
  if (text === S.script) return;
  S.past.push(S.script);
  S.future = [];
  S.script = text;
  keepHistory();
  run();
}

/** Goes back to the text before. */
export function undo() {
  travel(S.past, S.future);
}

/** Goes on again to the text that was gone back from. */
export function redo() {
  travel(S.future, S.past);
}

/**
 * @param {string[]} from
 * @param {string[]} to
 */
function travel(from, to) {
  if (!from.length) return;
  to.push(S.script);
  S.script = from.pop();
  keepHistory();
  run();
}

/** Stores the history soon, and drops what is old in it. */
export function keepHistory() {
  while (S.past.length > MOST_PAST || S.past.reduce((n, t) => n + t.length, 0) > MOST_KEPT) S.past.shift();
  clearTimeout(keeping);
  keeping = setTimeout(storeHistory, KEPT_AFTER);
}

function storeHistory() {
  keeping = null;
  keep('past ' + S.file, S.past);
  keep('future ' + S.file, S.future);
}

/** Stores the history now, where it waits for that: it is long, so it is stored when the page is idle, or left. */
export function settleHistory() {
  if (keeping === null) return;
  clearTimeout(keeping);
  storeHistory();
}

window.addEventListener('pagehide', settleHistory);

/**
 * An edit of the game, in the place of an earlier one of the same thing; without values the earlier one goes.
 *
 * @param {string[]} key
 * @param {...any} values
 */
export function say(key, ...values) {
  const had = S.model.edits.filter(e => key.every((w, i) => e.words[i] === w)).at(-1);
  if (had && !S.model.hasUndo) {
    change({ put: { [had.line]: values.length ? line(...key, ...values) : null } });
  } else if (values.length) {
    change({ add: closed([line(...key, ...values)]) });
  }
}

/**
 * Lines that stand behind the script's last: an open batch would hold them.
 *
 * @type {(lines: string[]) => string[]}
 */
export const closed = lines => S.model.open ? ['end', ...lines] : lines;

/**
 * Lines behind the last that speaks of a table; behind all, where a batch or an `undo` further on would take them for
 * others.
 *
 * @param {Table} table
 * @param {...string} lines
 */
export function addLines(table, ...lines) {
  const now = S.model.tables.get(table.name);
  return change(S.model.open || S.model.hasUndo || !now ? { add: closed(lines) } : { behind: now.last, add: lines });
}

/**
 * Drops a line, or where lines take others back adds what is its contrary.
 *
 * @type {(n: LineNumber, contrary?: string) => void}
 */
export const drop = (n, contrary) =>
  S.model.hasUndo && contrary ? change({ add: closed([contrary]) }) : change({ put: { [n]: null } });
