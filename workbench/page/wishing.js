// What a wish asks of the program, and what becomes of its answer (docs/WISH.md).
import { working } from './answers.js';
import { call } from './calls.js';
import { addLines, change, closed } from './changes.js';
import { Frac } from './exact.js';
import { game, get, isReached, kindOf, rawOf } from './game.js';
import { look, nameOf, PER, plain } from './look.js';
import { hear } from './numbers.js';
import { tellWhy } from './refusal.js';
import { keep, S, show } from './state.js';

/** @type {Wish} */
export const wish = {
  good: null,
  amount: '60',
  inBelts: false,
  by: [],
  module: null,
  other: null,
  rows: '',
  prices: {},
  fuel: null,
  dig: false,
  power: false,
  imports: [],
  beacon: null,
  cheapest: 'cost',
  without: [],
  only: [],
  said: '',
  words: [],
};

/**
 * The unit that an amount of a good is given in.
 *
 * @type {(good: Id) => string}
 */
export const unitOf = good => good === 'special:electricity' ? 'W' : PER[look.per];
/**
 * Whether the amount is given in belts.
 *
 * @type {() => boolean}
 */
const isInBelts = () => wish.inBelts && Boolean(wish.good) && kindOf(wish.good) === 'item' && game.belts.length > 0;

/**
 * What is understood of the wished amount: units a second, watts, or belts.
 *
 * @type {() => Heard}
 */
export const amountOf = () =>
  hear(wish.amount, wish.good === 'special:electricity' ? 'power' : isInBelts() ? 'belts' : 'rate');
/**
 * The same where it is of each science pack.
 *
 * @type {() => Heard}
 */
export const packsAmount = () => hear(wish.amount, 'rate');
/**
 * The rate of an amount: units a second, or watts; null, and why, where there is none above 0.
 *
 * @param {Heard} heard
 * @returns {Figure}
 */
function rateOf({ x, unit, said }) {
  if (x?.n > 0n) return unit === 'belts' ? x.times(Frac.of(get(look.belt).belt)) : x;
  Object.assign(wish, { said: x ? 'The amount must be above 0.' : `Of the amount: ${said.slice(2)}.`, words: [] });
  show();
  return null;
}

/** How many rows a wish may have, and how many beacons a row: as many as a script's line takes. */
export const ROWS = { least: 1, most: 512 }, BEACONS = { least: 1, most: 65535 };

/**
 * Whether the whole numbers of the wish are such; where one isn't, why.
 *
 * @returns {boolean}
 */
function hasRows() {
  const { rows, beacon } = wish, beacons = beacon ? [beacon.count, beacon.share] : [];
  const heard = [
    ...(rows ? [{ name: 'rows', ...hear(rows, 'whole', ROWS) }] : []),
    ...beacons.map(n => ({ name: 'beacons', ...hear(`${n}`, 'whole', BEACONS) })),
  ];
  const wrong = heard.find(it => !it.x);
  if (!wrong) return true;
  Object.assign(wish, { said: `Of the ${wrong.name}: ${wrong.said.slice(2)}.`, words: [] });
  show();
  return false;
}

/**
 * The words of factoplan table: goods with rates, and the options.
 * (a table of several goods has room for more rows than one has by itself)
 *
 * @param {[Id, Frac][]} wants
 * @param {string} table
 * @returns {string[]}
 */
function wordsOfWish(wants, table) {
  const out = [...wants.flatMap(([good, rate]) => [good, `${rate}`]), '--table', table];
  for (const id of wish.by) out.push('--by', id);
  if (wish.module) out.push('--module', wish.module);
  if (wish.module && wish.other) out.push('--module', wish.other);
  if (wish.fuel) out.push('--fuel', wish.fuel);
  if (wish.beacon) {
    const { by, count, share, module } = wish.beacon;
    out.push('--beacon', by, ...[count, share].map(n => `${hear(`${n}`, 'whole', BEACONS).x}`), module);
  }
  for (const id of wish.imports) out.push('--import', `${id}=${wish.prices[id] || '1'}`);
  for (const key of ['dig', 'power']) if (wish[key]) out.push('--' + key);
  for (const key of ['without', 'only']) for (const id of wish[key]) out.push('--' + key, id);
  if (wish.rows) {
    out.push('--rows', `${hear(wish.rows, 'whole', ROWS).x}`);
  } else if (wants.length > 1) {
    out.push('--rows', '120');
  }
  if (wish.cheapest !== 'cost') out.push('--cheapest', wish.cheapest);
  return out;
}

/**
 * @param {string} base
 * @returns {string}
 */
function nameFor(base) {
  let name = base.slice(0, 60);
  for (let k = 2; S.model.tables.has(name); k++) name = `${base.slice(0, 60)}-${k}`;
  return name;
}

/**
 * The lines that a wish is answered, without its question; or why there are none, and the goods that are named in that.
 *
 * @param {string[]} words
 * @returns {Promise<{ lines?: string[], said?: string, words?: string[] }>}
 */
async function linesFor(words) {
  const out = await call('wish', {
    file: S.file,
    script: S.model.open ? `${S.script.replace(/\n?$/, '\n')}cancel\n` : S.script,
    words,
  });
  if (out.lines) return { lines: out.lines.filter(/** @param {string} l */ l => !/^solve /.test(l)) };
  return toldOf(out.said || 'it can’t be had');
}

const WORDS = /"((?:item|fluid|tech|recipe|machine):(?:[^"\\]|\\.)*)"|(?:item|fluid|tech|recipe|machine):[^\s"]+/g;

/**
 * What a program says, with the names that are shown in place of words of a script, and the things that it names.
 *
 * @param {string} told
 * @returns {{ said: string, words: string[] }}
 */
function toldOf(told) {
  /** @type {Id[]} */
  const words = [];
  const said = told
    .replace(/--import (\S+)=\S+/g, '$1')
    .replace(/\s*\(--[^)]*\)/g, '')
    .replace(WORDS, (whole, quoted) => {
      const word = [quoted ?? whole, whole.replace(/[:;,.?]+$/, '')].find(w => game.at.has(w));
      if (!word) return plain(whole, 200);
      words.push(word);
      return nameOf(word) + (quoted ? '' : whole.slice(word.length));
    });
  return { said, words };
}

/**
 * Rows for a good that a table takes from outside, in that table.
 *
 * @param {Table} table
 * @param {Id} good
 */
export async function makeHere(table, good) {
  await wishing(async () => {
    const made = await linesFor(['--rows-for', good, '--into', table.name]);
    if (made.said) {
      tellWhy(`no rows for ${nameOf(good)}: ${made.said}`);
    } else {
      addLines(table, ...made.lines);
    }
    return {};
  });
}

/** Asks for the wish, and shows the table that it is answered with. */
export async function makeWish() {
  const rate = wish.good && rateOf(amountOf());
  if (!rate || !hasRows()) return;
  await wishing(async () => {
    const name = nameFor(rawOf(wish.good)), made = await linesFor(wordsOfWish([[wish.good, rate]], name));
    if (made.said) return made;
    S.route = 'table:' + name;
    change({ add: closed(made.lines) });
    return {};
  });
}

/** One table for all science packs that can be had: one click for all that research takes. */
export async function allScience() {
  const rate = rateOf(packsAmount());
  if (!rate || !hasRows()) return;
  await wishing(async () => {
    const name = nameFor('science');
    const wants = game.packs.filter(isReached).map(/** @returns {[Id, Frac]} */ pack => [pack, rate]);
    const made = await linesFor(wordsOfWish(wants, name));
    if (made.said) return made;
    S.route = 'table:' + name;
    change({ add: closed(made.lines) });
    return {};
  });
}

/** @param {() => Promise<object>} how */
async function wishing(how) {
  await working(async () => {
    try {
      Object.assign(wish, { said: '', words: [] }, await how());
    } catch (fault) {
      Object.assign(wish, { said: fault.message, words: [] });
    }
    keep('route', S.route);
  });
}
