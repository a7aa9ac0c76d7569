// The one reader of numbers that a human types: with groups of digits, k, M and G, fractions, and units of time and of
// power. What the program is told is the exact fraction that was understood.
import { Frac } from './exact.js';
import { look, PER, watts } from './look.js';

/** @type {Map<string, bigint>} */
const SIZES = new Map([['', 1n], ['k', 10n ** 3n], ['K', 10n ** 3n], ['M', 10n ** 6n], ['G', 10n ** 9n]]);
const TIME = /\s*(?:\/|\bper\b)\s*(s|min|h)(?:ec(?:ond)?s?|utes?|ours?)?$/i;
const WATT = /\s*([kMG]?)W$/;
const SIZE = /\s*([kKMG])$/;
/** @type {Map<string, number>} */
const SECONDS = new Map([['s', 1], ['min', 60], ['h', 3600]]);
const GROUPS = /^\d{1,3}(?:([ '’_.,])\d{3})(?:\1\d{3})*(?![\d'’_ ])/;

/**
 * A decimal as a script has it, of one with groups of three digits or with a comma; null where it is none. One comma
 * with three digits behind it, as in 1,000, is of a group, and one point never is.
 *
 * @param {string} text
 * @returns {string | null}
 */
function decimalOf(text) {
  const [whole, mark] = GROUPS.exec(text) || ['', ''];
  const marks = whole.split(mark).length - 1, isPoint = mark === '.' && marks < 2 && !text.includes(',');
  const isGrouped = whole && !isPoint && !(mark === ',' && /^0/.test(text));
  const rest = isGrouped ? whole.split(mark).join('') + text.slice(whole.length) : text;
  return /^[-+]?(\d+[.,]?\d*|[.,]\d+)(e[-+]?\d{1,3})?$/i.test(rest) ? rest.replace(',', '.').replace(/^\+/, '') : null;
}

/**
 * @param {string} text
 * @returns {Figure}
 */
function plainNumber(text) {
  const parts = text.split('/').map(part => decimalOf(part.trim())).map(part => part === null ? null : Frac.of(part));
  const [above, below] = parts;
  if (parts.length > 2 || parts.includes(null) || (below && below.n <= 0n)) return null;
  return below ? above.over(below) : above;
}

/** @type {{ [sort in Sort]: string }} */
const EXAMPLES = {
  rate: '45, 2.5k, 1/3, 45/min, 2.5k/h',
  power: '100 MW, 2.5k, 750000',
  belts: '2, 1/2, 45/min',
  number: '45, 2.5k, 0.75, 1/3',
  whole: '8, 1 000',
};

/**
 * What is understood of a number as it was typed.
 *
 * @param {string} typed
 * @param {Sort} sort
 * @param {Bounds} [bounds]
 * @returns {Heard}
 */
export function hear(typed, sort, bounds = {}) {
  const { least = 0, most = Infinity } = bounds;
  /** @type {(why: string) => Heard} */
  const no = why => ({ x: null, unit: '', said: `✗ ${why}` });
  let text = typed.trim().replace(/[\s\u00a0\u2009\u202f]+/g, ' ').replace('−', '-');
  const time = TIME.exec(text), watt = time ? null : WATT.exec(text);
  if (!text) return no('a number is wanted');
  if (time && sort !== 'rate' && sort !== 'belts') return no('a number without a unit of time stands here');
  if (watt && sort !== 'power') return no('a number without a unit of power stands here');
  text = text.slice(0, time?.index ?? watt?.index);
  const size = watt ? null : SIZE.exec(text);
  const number = plainNumber(size ? text.slice(0, size.index) : text);
  if (!number) return no(`that is no number, as ${EXAMPLES[sort]} are`);
  const k = SIZES.get(watt?.[1] ?? size?.[1] ?? ''), x = new Frac(number.n * k).over(new Frac(number.d));
  if (sort === 'whole' && x.d !== 1n) return no('a whole number is wanted');
  if (x.number < least) return no(`it is at least ${least}`);
  if (x.number > most) return no(`it is at most ${most}`);
  if (time) return told(x.over(SECONDS.get(time[1].toLowerCase())), 'rate');
  return sort === 'rate' ? told(x.over(look.per), 'rate') : told(x, sort);
}

/**
 * @param {Frac} x
 * @param {Sort} unit
 * @returns {Heard}
 */
function told(x, unit) {
  const shown = unit === 'rate' ? x.times(look.per) : x;
  const behind = unit === 'rate' ? PER[look.per] : unit === 'belts' ? 'belts' : '';
  const text = unit === 'power' ? watts(x).join(' ') : shown.text;
  return {
    x,
    unit,
    said: `= ${text}${behind && ' ' + behind}${shown.d === 1n ? '' : `, exactly ${shown}`}`,
  };
}

/**
 * A number as a field shows it, so that it is read again as the same kind: a power with its unit.
 *
 * @type {(x: Frac, sort: Sort) => string}
 */
export const typedOf = (x, sort) => {
  const text = sort === 'power' ? watts(x).join(' ') : (sort === 'rate' ? x.times(look.per) : x).text;
  return text.replace(/\u2009/g, ' ').replace('−', '-');
};

// ---- What was understood, beside the field ----

/** @type {HTMLElement | null} */
let field = null;

/**
 * Shows beside a field what was understood of it, or why nothing was; an empty text takes that away.
 *
 * @param {HTMLElement} it
 * @param {string} said
 */
export function tellBeside(it, said) {
  const box = document.getElementById('heard'), at = it.getBoundingClientRect();
  field = said ? it : null;
  box.textContent = said;
  box.classList.toggle('bad', said.startsWith('✗'));
  box.style.left = `${Math.max(8, Math.min(at.left, innerWidth - box.offsetWidth - 8))}px`;
  box.style.top = `${at.bottom + box.offsetHeight + 8 > innerHeight ? at.top - box.offsetHeight - 4 : at.bottom + 4}px`;
}

/** @type {(e: Event) => void} */
const leave = e => {
  if (field && e.target !== field) tellBeside(field, '');
};
document.addEventListener('pointerdown', leave);
document.addEventListener('scroll', leave, true);
document.addEventListener('input', leave);
