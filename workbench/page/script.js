// Scripts: their words, what their lines come to, and changes of single lines.

/** @type {{ [letter: string]: string }} */
const ESCAPES = { n: '\n', t: '\t', r: '\r' };

/**
 * The words of a line; null where one is badly quoted.
 *
 * @param {string} line
 * @returns {string[] | null}
 */
export function wordsOf(line) {
  /** @type {string[]} */
  const out = [];
  const word = /[ \t]*(?:"((?:[^"\\]|\\["\\ntr])*)"(?=[ \t]|$)|([^ \t"]+))/y;
  const end = line.replace(/[ \t]+$/, '').length;
  while (word.lastIndex < end) {
    const found = word.exec(line);
    if (!found) return null;
    out.push(found[2] ?? found[1].replace(/\\(.)/g, (_, c) => ESCAPES[c] || c));
  }
  return out;
}

/**
 * A word as a script has it: between quotes where it must be.
 *
 * @param {string} text
 * @returns {string}
 */
function word(text) {
  if (text && !/^#|[ \t\n\r"\\]/.test(text)) return text;
  return `"${text.replace(/["\\]/g, '\\$&').replace(/\n/g, '\\n').replace(/\t/g, '\\t').replace(/\r/g, '\\r')}"`;
}

/**
 * A line of some words.
 *
 * @type {(...words: any[]) => string}
 */
export const line = (...words) => words.map(w => word(`${w}`)).join(' ');

/**
 * A text as a field of the browser has it, in which each line ends with a newline alone.
 *
 * @type {(text: string) => string}
 */
export const typedAs = text => text.includes('\r') ? text.replace(/\r\n?/g, '\n') : text;

/**
 * A text is looked at again and again, so what was found of the last one is kept.
 *
 * @template T
 * @param {(text: string) => T} how
 * @returns {(text: string) => T}
 */
export const once = how => {
  /** @type {string | undefined} */
  let last;
  /** @type {T} */
  let found;
  return text => {
    if (text !== last) [last, found] = [text, how(text)];
    return found;
  };
};
/** The lines of a script, not to be changed. */
export const linesOf = once(text => {
  const all = text.split('\n');
  if (all.at(-1) === '') all.pop();
  return all;
});
const TABLE_WORDS = new Set([
  'table', 'untable', 'row', 'unrow', 'price', 'want', 'import', 'surplus', 'power', 'rate', 'solve',
]);

/**
 * The line of a row.
 *
 * @param {string} table
 * @param {Row} row
 * @returns {string}
 */
export function rowLine(table, row) {
  const parts = [];
  if (row.fuel) parts.push('fuel', row.fuel);
  for (const [module, count] of row.modules) parts.push('module', module, count);
  for (const beacon of row.beacons) {
    parts.push('beacon', beacon.by, beacon.count, beacon.share);
    for (const [module, count] of beacon.modules) parts.push('in', module, count);
  }
  for (const fluid of row.at) parts.push('at', fluid);
  return line('row', table, row.label, row.does, 'by', row.by, ...parts);
}

/**
 * A text with changes of lines: `put` has texts by the number of a line, or null to drop it; `add` are lines behind the
 * line `behind`, or behind the last.
 *
 * @param {string} text
 * @param {Changes} changes
 * @returns {string}
 */
export function changed(text, { put = {}, behind = null, add = [] }) {
  const out = [];
  linesOf(text).forEach((l, i) => {
    if (!(i + 1 in put)) {
      out.push(l);
    } else if (put[i + 1] !== null) {
      out.push(put[i + 1]);
    }
    if (behind === i + 1) out.push(...add);
  });
  if (behind === null) out.push(...add);
  return out.length ? out.join('\n') + '\n' : '';
}

/**
 * What the solver is asked of a table: its name, and the budget of steps that a line of the script gives it.
 *
 * @type {(model: Model, name: string) => string[]}
 */
export const solveWords = (model, name) => model.commands
  .filter(w => w[0] === 'solve' && w[1] === name && /^[1-9]\d{0,4}$|^100000$/.test(w[2]))
  .at(-1)
  ?.slice(1) || [name];

/**
 * The lines of a script that speak of a table, by their numbers.
 *
 * @type {(model: Model, name: string) => [string[], LineNumber][]}
 */
export const linesAbout = (model, name) =>
  model.commands
    .map(/** @returns {[string[], LineNumber]} */ (w, i) => [w, i + 1])
    .filter(([w]) => TABLE_WORDS.has(w[0]) && w[1] === name);
