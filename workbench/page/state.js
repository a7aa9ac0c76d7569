// The state of the page: the text of a script, and what the programs answered to it. Each change of the text is saved
// and answered anew.
import { call } from './calls.js';
import { modelOf } from './model.js';

// How the page was left, of this folder of scripts: what the server keeps of it, whatever its port.
/** @type {Map<string, any>} */
let ofFolder = new Map();
/** @type {Map<string, any>} */
let unsent = new Map();
/** @type {number | null} */
let sending = null;
const SENT_AFTER = 400;

/**
 * What is stored for the tab, and survives a reload; or else what another tab of the folder left.
 *
 * @type {(key: string, start: any) => any}
 */
export const kept = (key, start) => {
  try {
    return JSON.parse(sessionStorage.getItem(key)) ?? ofFolder.get(key) ?? start;
  } catch {
    return ofFolder.get(key) ?? start;
  }
};

/**
 * Stores something for the tab, where it has room for it, and for the folder.
 *
 * @param {string} key
 * @param {any} value
 */
export function keep(key, value) {
  try {
    sessionStorage.setItem(key, JSON.stringify(value));
  } catch {
    sessionStorage.removeItem(key);
  }
  unsent.set(key, value);
  sending ??= setTimeout(sendKept, SENT_AFTER);
}

/** Gives the server what is kept for the folder; where it doesn't answer, that waits. */
export async function sendKept() {
  clearTimeout(sending);
  sending = null;
  const values = unsent;
  if (S.alone || !S.version || !values.size) return;
  unsent = new Map();
  await call('keep', { values: Object.fromEntries(values) }).catch(() => {
    unsent = new Map([...values, ...unsent]);
  });
}

/**
 * What the folder kept when the server was asked, with what the page shows first.
 *
 * @param {{ [key: string]: any }} values
 */
export function receive(values) {
  ofFolder = new Map(Object.entries(values));
  Object.assign(S, { route: kept('route', ''), side: kept('side', null), card: kept('card', null) });
}

/** @type {State} */
export const S = {
  file: '',
  files: [],
  dump: '',
  script: '',
  saved: '',
  version: '',
  stamp: '',
  past: [],
  future: [],
  model: modelOf(''),
  replies: new Map(),
  refused: new Map(),
  plans: new Map(),
  rates: new Map(),
  asked: new Map(),
  total: null,
  ranksOf: null,
  catalogOf: null,
  busy: false,
  asking: 0,
  conflict: null,
  fault: '',
  alone: '',
  times: { answer: 0, shown: 0 },
  route: '',
  side: null,
  card: null,
  cards: [],
};

/** @type {() => void} */
let redraw = () => {};

/**
 * Says how what is shown is drawn anew.
 *
 * @param {() => void} how
 */
export function onChange(how) {
  redraw = how;
}

/**
 * Draws what is shown anew.
 *
 * @type {() => void}
 */
export const show = () => redraw();

/**
 * The table whose tab is open.
 *
 * @type {() => Table | null}
 */
export const tableShown = () => S.route.startsWith('table:') ? S.model.tables.get(S.route.slice(6)) || null : null;
/**
 * What was answered of a table last.
 *
 * @type {(table: Table) => Plan | null}
 */
export const planFor = table => S.plans.get(table.name)?.plan || null;
