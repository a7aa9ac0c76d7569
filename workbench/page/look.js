// How things look: names, pictures, and numbers as decimals with the exact fraction on hover.
import { picturePath } from './calls.js';
import { h } from './dom.js';
import { Frac } from './exact.js';
import { get, kindOf, rankOf, rawOf } from './game.js';

/** @type {Look} */
export const look = { names: new Map(), pictures: new Map(), per: 60, belt: null, room: 900 };
/** @type {{ [seconds: string]: string }} */
export const PER = { 1: '/s', 60: '/min', 3600: '/h' };

// ---- Names ----

const SPECIAL = new Map([
  ['special:electricity', 'Electricity'],
  ['special:heat', 'Heat'],
  ['special:character', 'The character'],
]);
// Controls, and marks that turn the direction of a text, join or hide letters: a name can't have them act on what
// stands beside it.
// eslint-disable-next-line no-control-regex, no-misleading-character-class
const UNSEEN = /[\u0000-\u001f\u007f-\u009f\u00ad\u034f\u061c\u115f\u1160\u17b4\u17b5\u180b-\u180f\u200b-\u200f\u2028-\u202e\u2060-\u206f\u3164\ufe00-\ufe0f\ufeff\uffa0\ufff9-\ufffb]/g;
const MOST_LETTERS = 60;

/**
 * A text of others as it may be shown: without marks that are not seen, and cut where it is very long.
 *
 * @param {string} text
 * @param {number} [most]
 * @returns {string}
 */
export function plain(text, most = MOST_LETTERS) {
  const seen = text.slice(0, 4 * most).replace(UNSEEN, '\u00b7');
  return seen.length > most ? seen.slice(0, most - 1) + '…' : seen;
}

/** @type {Map<Id, string>} */
const names = new Map();

/**
 * The name of a thing that is shown: the game's own, where it is known.
 *
 * @param {Id} id
 * @returns {string}
 */
export function nameOf(id) {
  if (!names.has(id)) names.set(id, plain(fullName(id)));
  return names.get(id);
}

/**
 * @param {Id} id
 * @returns {string}
 */
function fullName(id) {
  if (SPECIAL.has(id)) return SPECIAL.get(id);
  const kind = kindOf(id), raw = rawOf(id), [name, degrees] = kind === 'fluid' ? raw.split('@') : [raw];
  const launch = kind === 'recipe' && /^launch:([^:]*):(.*)$/.exec(raw);
  if (launch) return `Launch of ${fullName('item:' + launch[2]).toLowerCase()}`;
  /** @type {(of: string) => string | undefined} */
  const told = of => look.names.get(of)?.get(name);
  const own = told(kind) || (kind === 'recipe' && (told('item') || told('fluid')));
  const said = own || name.slice(0, 200).replace(/[-_]+/g, ' ').replace(/^./, c => c.toUpperCase());
  return degrees ? `${said} ${degrees}°` : said;
}

/**
 * What a list shows beside a name: its kind, and whether it can be had.
 *
 * @type {(id: Id) => string}
 */
export const noteOf = id => kindOf(id) + (rankOf(id) ? ` · ${rankOf(id)}` : ' · not reached');

// ---- Pictures ----

/** @type {(text: string) => number} */
const hue = text => {
  let x = 7;
  for (const c of text.slice(0, 60)) x = (x * 31 + c.codePointAt(0)) % 997;
  return x * 47 % 360;
};
/**
 * The hue of a thing's tile and flows, in degrees.
 *
 * @type {(id: Id) => number}
 */
export const hueOf = id => hue(rawOf(id).split('@')[0]);

/**
 * The letters on a thing's tile.
 *
 * @param {Id} id
 * @returns {string}
 */
export function lettersOf(id) {
  const words = plain(rawOf(id).split('@')[0].replace(/^launch:[^:]*:/, '')).split(/[-_ ·…]+/).filter(Boolean);
  const last = words.at(-1) || '';
  const letters = /^\d{1,2}$/.test(last) && words.length > 1
    ? words[0][0] + last
    : words.map(w => w[0]).join('').slice(0, 2);
  return letters.toUpperCase() || '?';
}

/**
 * Whether the game's own picture of a thing is there.
 *
 * @type {(id: Id) => boolean}
 */
export const hasPicture = id => Boolean(look.pictures.get(kindOf(id))?.has(rawOf(id).split('@')[0]));
/**
 * Where the picture of a thing is.
 *
 * @type {(id: Id) => string}
 */
export const pictureOf = id => picturePath(kindOf(id), rawOf(id).split('@')[0]);

/**
 * The game's picture, or a tile with letters, coloured by the name and shaped by the kind. Its name stands beside it,
 * so it is hidden from who hears the page.
 *
 * @param {Id} id
 * @param {string} [size]
 * @returns {View}
 */
export function icon(id, size = '') {
  const tag = `span.icon.k-${kindOf(id)}${size && '.' + size}`;
  if (hasPicture(id)) {
    return h(tag, { 'aria-hidden': 'true' }, h('img', { src: pictureOf(id), alt: '', loading: 'lazy' }));
  }
  return h(tag + '.tile', { 'aria-hidden': 'true', style: { '--hue': hueOf(id) } }, lettersOf(id));
}

/**
 * A thing that opens its card.
 *
 * @type {(id: Id, open: (id: Id) => any, ...more: Child[]) => View}
 */
export const chip = (id, open, ...more) => h(
  'button.chip',
  { type: 'button', onclick: () => open(id), title: plain(id, 200) },
  icon(id),
  h('span.name', null, nameOf(id)),
  ...more,
);
/**
 * A mark of one letter, with what it does.
 *
 * @type {(sign: string, label: string, onclick: (e: UiEvent) => any, more?: Props) => View}
 */
export const mark = (sign, label, onclick, more = {}) =>
  h('button.x', { type: 'button', title: label, 'aria-label': label, onclick, ...more }, sign);

// ---- Numbers ----

/**
 * A decimal; the exact fraction on hover.
 *
 * @param {Figure | undefined} x
 * @param {string} [unit]
 * @param {string} [tag]
 * @returns {View}
 */
export function num(x, unit = '', tag = 'span.num') {
  return x
    ? h(tag, { title: `exactly ${x}${unit && ' ' + unit}` }, x.text)
    : h(tag + '.wide', { title: 'past the limits of fractions' }, 'wide');
}

/**
 * A rate, in the unit of time that is chosen.
 *
 * @param {Figure} x
 * @returns {View}
 */
export function rate(x) {
  if (!x) return num(x);
  const per = x.times(look.per);
  return h('span.num', { title: `exactly ${per} ${PER[look.per]}` + (look.per > 1 ? `\n${x} /s` : '') }, per.text);
}

/**
 * A power as a decimal, and its unit.
 *
 * @param {Frac} x
 * @returns {[string, string]}
 */
export function watts(x) {
  const size = Math.abs(x.number);
  const [k, unit] = size >= 1e9 ? [1e9, 'GW'] : size >= 1e6 ? [1e6, 'MW'] : size >= 1e3 ? [1e3, 'kW'] : [1, 'W'];
  return [x.over(k).text, unit];
}

/**
 * A power, in the unit that suits its size.
 *
 * @param {Figure | undefined} x
 * @returns {View}
 */
export function power(x) {
  if (!x) return num(x);
  const [said, unit] = watts(x);
  return h('span.num', { title: `exactly ${x} W` }, said, h('small', null, ' ' + unit));
}

/**
 * An amount of the catalog.
 *
 * @type {(text: string) => View}
 */
export const amount = text => num(Frac.of(text));
/**
 * An effect of the catalog in per cent, with its sign.
 *
 * @type {(text: string) => string}
 */
export const percent = text => {
  const x = Frac.of(text)?.times(100);
  return x ? (x.n > 0n ? '+' : '') + x.text + '\u2009%' : 'wide';
};
/**
 * A flow of a good, in words: a rate, or watts.
 *
 * @type {(id: Id, x: Figure | undefined) => string}
 */
export const flowText = (id, x) =>
  !x ? 'wide' : id === 'special:electricity' ? watts(x).join(' ') : `${x.times(look.per).text} ${PER[look.per]}`;
/**
 * A flow of a good: a rate, or watts.
 *
 * @type {(id: Id, x: Figure) => Child}
 */
export const flow = (id, x) =>
  id === 'special:electricity' ? power(x) : [rate(x), h('small.dim', null, ' ' + PER[look.per])];

/** @type {(x: Frac) => string} */
const small = x => x.number < 0.005 ? '<0.01' : x.fixed(x.number < 10 ? 2 : x.number < 100 ? 1 : 0);

/**
 * How many belts carry a flow of an item, and how many stacks it fills in the unit of time that is chosen; in words, or
 * '' for what is no item.
 *
 * @param {Id} id
 * @param {Figure | undefined} x
 * @returns {string}
 */
export function carried(id, x) {
  const it = get(id);
  /** @type {string[]} */
  const out = [];
  /** @type {(n: Frac, name: string) => string} */
  const counted = (n, name) => `${small(n)} ${name}${small(n) === '1' ? '' : 's'}`;
  if (kindOf(id) !== 'item' || !x?.n) return '';
  const belt = look.belt && get(look.belt).belt;
  if (belt) out.push(counted(x.over(Frac.of(belt)), 'belt'));
  const stack = Frac.of(it.stack || '0');
  if (stack?.n) out.push(`${counted(x.times(look.per).over(stack), 'stack')} ${PER[look.per]}`);
  return out.join(' · ');
}

// ---- Searching ----

/**
 * Those of the things that fit a search, the best first: a name that begins so, one with a word that begins so, one
 * that holds it.
 *
 * @param {Id[]} ids
 * @param {string} query
 * @param {number} [most]
 * @returns {Id[]}
 */
export function found(ids, query, most = 60) {
  const words = query.trim().toLowerCase().split(/\s+/).filter(Boolean);
  if (!words.length) return ids.slice(0, most);
  /** @type {[number, Id][]} */
  const out = [];
  const begins = new RegExp('(^|[^\\p{L}\\p{N}])' + words[0].replace(/[^\p{L}\p{N}]/gu, '\\$&'), 'u');
  for (const id of ids) {
    const name = nameOf(id).toLowerCase(), text = `${name} ${rawOf(id).slice(0, 300)} ${kindOf(id)}`.toLowerCase();
    if (!words.every(w => text.includes(w))) continue;
    const score = name === words.join(' ') ? 0 : name.startsWith(words[0]) ? 1 : begins.test(name) ? 2 : 3;
    out.push([score * 1000 + name.length + (kindOf(id) === 'item' || kindOf(id) === 'fluid' ? 0 : 1200), id]);
  }
  return out.sort((a, b) => a[0] - b[0]).slice(0, most).map(([, id]) => id);
}
