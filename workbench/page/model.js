// What the lines of a script come to: which are in force, and the tables, marks and edits that they make.
import { linesOf, once, wordsOf } from './script.js';

// (what was found of each line is kept, since most lines stay)
/** @type {Map<string, string[]>} */
let wordsKept = new Map();
const commandsOf = once(text => {
  const before = wordsKept;
  wordsKept = new Map();
  return linesOf(text).map(l => {
    if (!wordsKept.has(l)) {
      wordsKept.set(l, before.get(l) || (/^[ \t]*#/.test(l) ? [] : wordsOf(l.replace(/\r$/, '')) || []));
    }
    return wordsKept.get(l);
  });
});

const EDITS = new Set([
  'grant', 'revoke', 'forbid', 'permit', 'milestone', 'unmilestone', 'ingredient', 'product', 'unlock', 'time',
  'enabled', 'table', 'untable', 'row', 'unrow', 'price', 'want', 'import', 'surplus', 'power',
]);
const GAME_EDITS = new Set(['ingredient', 'product', 'unlock', 'time', 'enabled']);

/**
 * The lines in force, by their numbers, given which lines are refused: it follows batches, undo and redo. `?state` of
 * the session says the same; this is for the moment before it has answered.
 *
 * @param {string} text
 * @param {Set<LineNumber>} [refused]
 * @returns {Force}
 */
export function inForce(text, refused = new Set()) {
  /** @type {LineNumber[][]} */
  const done = [];
  /** @type {LineNumber[][]} */
  const undone = [];
  /** @type {LineNumber[] | null} */
  let batch = null;
  commandsOf(text).forEach(([said], i) => {
    const n = i + 1;
    if (!said) return;
    if (refused.has(n)) {
      if (said === 'end') batch = null;
      return;
    }
    if (said === 'batch') {
      batch = [];
    } else if (said === 'cancel') {
      batch = null;
    } else if (said === 'end') {
      if (batch?.length) {
        done.push(batch);
        undone.length = 0;
      }
      batch = null;
    } else if (said === 'undo') {
      done.length && undone.push(done.pop());
    } else if (said === 'redo') {
      undone.length && done.push(undone.pop());
    } else if (EDITS.has(said)) {
      if (batch) {
        batch.push(n);
      } else {
        done.push([n]);
        undone.length = 0;
      }
    }
  });
  return { lines: done.flat(), open: batch !== null };
}

/**
 * The lines in force as the reply to `?state` has them.
 *
 * @param {string} reply
 * @returns {Force}
 */
export function inForceOf(reply) {
  const [head, ...rest] = reply.split('\n');
  return {
    lines: rest.map(l => /^ {2}\d+ (\d+) /.exec(l)).filter(Boolean).map(m => Number(m[1])),
    open: / batch open /.test(head),
  };
}

/**
 * What the lines in force come to: tables, milestones, grants, forbids and edits, each with the number of the line that
 * says so.
 *
 * @param {string} text
 * @param {Force} [force]
 * @returns {Model}
 */
export function modelOf(text, force = inForce(text)) {
  const commands = commandsOf(text);
  /** @type {Model} */
  const model = {
    commands,
    open: force.open,
    hasUndo: commands.some(w => w[0] === 'undo' || w[0] === 'redo'),
    tables: new Map(),
    milestones: [],
    grants: new Map(),
    forbids: new Map(),
    edits: [],
  };
  for (const n of force.lines) fold(model, commands[n - 1] || [], n);
  return model;
}

/**
 * @param {Model} model
 * @param {string[]} words
 * @param {LineNumber} n
 */
function fold(model, words, n) {
  const [said, a] = words, table = model.tables.get(a);
  if (said === 'grant') {
    model.grants.set(a, n);
  } else if (said === 'revoke') {
    model.grants.delete(a);
  } else if (said === 'forbid') {
    model.forbids.set(a, n);
  } else if (said === 'permit') {
    model.forbids.delete(a);
  } else if (said === 'milestone') {
    model.milestones.push({ id: a, line: n });
  } else if (said === 'unmilestone') {
    model.milestones = model.milestones.filter(m => m.id !== a);
  } else if (GAME_EDITS.has(said)) {
    model.edits.push({ words, line: n });
  } else if (said === 'table') {
    model.tables.set(a, {
      name: a,
      line: n,
      last: n,
      mine: [n],
      rows: [],
      labels: new Map(),
      want: new Map(),
      import: new Map(),
      surplus: new Map(),
      power: null,
    });
  } else if (!table) {
    return;
  } else if (said === 'untable') {
    model.tables.delete(a);
  } else {
    foldTable(table, words, n);
  }
}

/**
 * @param {any} table
 * @param {string[]} words
 * @param {LineNumber} n
 */
function foldTable(table, words, n) {
  const [said, , b, c] = words;
  table.last = Math.max(table.last, n);
  table.mine.push(n);
  if (said === 'row') {
    const row = rowOf(words, n);
    table.rows.push(row);
    table.labels.set(b, row);
  } else if (said === 'unrow') {
    table.rows = table.rows.filter(/** @param {Row} r */ r => r.label !== b);
    table.labels.delete(b);
  } else if (said === 'price') {
    Object.assign(table.labels.get(b) || {}, { price: c, priceLine: n });
  } else if (said === 'power') {
    table.power = { on: b === 'on', line: n };
  } else if (c === 'off' || (said === 'want' && /^-?0*\.?0*(e.*|\/.*)?$/i.test(c))) {
    table[said].delete(b);
  } else {
    table[said].set(b, { value: c, line: n });
  }
}

/**
 * A row of the words of its line.
 *
 * @param {string[]} words
 * @param {LineNumber} [n]
 * @returns {Row}
 */
export function rowOf(words, n) {
  /** @type {Row} */
  const row = { label: words[2], does: words[3], by: words[5], fuel: null, modules: [], beacons: [], at: [], line: n };
  let i = 6;
  while (i < words.length) {
    const [part, a, b, c] = words.slice(i);
    if (part === 'fuel') {
      row.fuel = a;
      i += 2;
    } else if (part === 'module') {
      row.modules.push([a, Number(b)]);
      i += 3;
    } else if (part === 'beacon') {
      row.beacons.push({ by: a, count: Number(b), share: Number(c), modules: [] });
      i += 4;
    } else if (part === 'in') {
      row.beacons.at(-1)?.modules.push([a, Number(b)]);
      i += 3;
    } else if (part === 'at') {
      row.at.push(a);
      i += 2;
    } else {
      break;
    }
  }
  return row;
}
