// What the programs answer to the script as it is.
import { call } from './calls.js';
import { meet } from './files.js';
import { derive, game, KINDS } from './game.js';
import { inForce, inForceOf, modelOf } from './model.js';
import { tellRefused } from './refusal.js';
import { planOf, rateOf, readReply } from './replies.js';
import { line, linesOf, solveWords } from './script.js';
import { S, show, tableShown } from './state.js';
import { toast } from './toast.js';

/** @type {(numbers: LineNumber[]) => string} */
const linesAt = numbers => {
  const all = linesOf(S.script);
  return numbers.map(n => all[n - 1]).join('\n');
};
/** The lines in force that change the game or its marks. */
const gameLines = () => linesAt([
  ...S.model.edits.map(e => e.line),
  ...S.model.grants.values(),
  ...S.model.forbids.values(),
  ...S.model.milestones.map(m => m.line),
].sort((a, b) => a - b));
const editLines = () => linesAt(S.model.edits.map(e => e.line));
/**
 * What a plan hangs on: the same text, the same plan.
 *
 * @type {(table: Table) => string}
 */
const stampOf = table => [editLines(), linesAt(table.mine), ...solveWords(S.model, table.name)].join('\n\n');

/**
 * Whether what was answered of a table last is of another text than it has now, and no answer is on its way.
 *
 * @type {(table: Table) => boolean}
 */
export const isStale = table =>
  Boolean(S.alone || S.fault) && S.plans.get(table.name)?.of !== stampOf(table);

/** @type {Promise<void> | null} */
let running = null;
let again = false;

/**
 * What is being answered, as a promise; null where nothing is.
 *
 * @type {() => Promise<void> | null}
 */
export const answering = () => running;

/**
 * Answers the script as it is now; `save` writes it first.
 *
 * @param {boolean} [save]
 */
export function run(save = true) {
  if (running) {
    again = true;
    return running;
  }
  running = (async () => {
    try {
      do {
        again = false;
        await once(save);
        save = true;
      } while (again);
      S.fault = '';
    } catch (fault) {
      S.fault = fault.message;
      // (what is said of a server that is gone stands above all: alone.js)
      if (!S.alone) toast(`No answer: ${fault.message}`, { bad: true, act: ['Try again', () => run()] });
    } finally {
      running = null;
      S.busy = false;
      show();
    }
  })();
  return running;
}

/** @param {boolean} save */
async function once(save) {
  // nothing is written before the player has chosen
  if (S.conflict) return;
  const text = S.script;
  S.model = modelOf(text, inForce(text, new Set(S.refused.keys())));
  S.busy = true;
  show();
  const first = S.refused.size ? modelOf(text) : S.model;
  const shown = S.route.startsWith('table:') ? first.tables.get(S.route.slice(6)) : null;
  const ask = [
    '?state',
    'summary',
    ...(
      shown
        ? [
          line('?flow', ...solveWords(first, shown.name)),
          ...shown.rows.map(r => line('?limits', shown.name, r.label)),
        ]
        : []
    ),
  ];
  const out = await call('run', { file: S.file, script: text, version: save ? S.version : null, ask });
  if (out.conflict) return meet(out);
  if (out.version) Object.assign(S, { version: out.version, saved: text });
  if (S.script !== text) {
    again = true;
    return;
  }
  take(text, out, shown);
  const ranksOf = gameLines();
  if (S.ranksOf !== ranksOf || S.catalogOf !== editLines()) await readGame(text, ranksOf);
  if (S.route.startsWith('table:') && !tableShown()) {
    S.route = S.model.tables.size ? 'table:' + [...S.model.tables.keys()][0] : 'wish';
    again = S.model.tables.size > 0;
  }
  S.busy = false;
  show();
  drawnWithin(out.at);
  // (behind what is drawn of it, which may move what was clicked)
  queueMicrotask(tellRefused);
  await others(text);
}

/**
 * The answers to a script and its questions.
 *
 * @param {string} text
 * @param {Answer} out
 * @param {Table | null} shown
 */
function take(text, out, shown) {
  S.replies = new Map();
  S.refused = new Map();
  for (const [n, reply] of Object.entries(out.replies)) {
    S.replies.set(Number(n), reply);
    const [words] = readReply(reply.split('\n')[0]);
    if (words[0] === 'refused') S.refused.set(Number(n), words);
  }
  S.asked.clear();
  const [state, summary, flow, ...rates] = out.answers;
  S.model = modelOf(text, inForceOf(state));
  const total = readReply(summary)?.[0];
  if (total?.[0] === 'summary') S.total = { reached: Number(total[2]), nodes: Number(total[4]) };
  if (!shown) return;
  const table = S.model.tables.get(shown.name);
  if (table && flow !== undefined) S.plans.set(table.name, { of: stampOf(table), plan: planOf(flow) });
  S.rates = new Map(shown.rows.map((r, i) => [r.label, rateOf(rates[i])]));
}

/**
 * How long after the program's answer it stands on the screen.
 *
 * @param {number} at
 */
function drawnWithin(at) {
  S.times.answer = at;
  requestAnimationFrame(() => setTimeout(() => {
    S.times.shown = Math.round(Date.now() - at);
    document.documentElement.dataset.shownWithin = `${S.times.shown}`;
  }));
}

/**
 * The plans of tables that aren't shown, for the marks on their tabs: behind what is shown, and only where something of
 * them changed.
 *
 * @param {string} text
 */
async function others(text) {
  for (const [name] of S.plans) if (!S.model.tables.has(name)) S.plans.delete(name);
  const unknown = [...S.model.tables.values()].filter(t => S.plans.get(t.name)?.of !== stampOf(t));
  if (!unknown.length || again) return;
  const stamps = unknown.map(stampOf);
  const out = await call('run', {
    file: S.file,
    script: text,
    version: null,
    ask: unknown.map(t => line('?flow', ...solveWords(S.model, t.name))),
  });
  if (S.script !== text) {
    again = true;
    return;
  }
  unknown.forEach((t, i) => S.plans.set(t.name, { of: stamps[i], plan: planOf(out.answers[i]) }));
}

/**
 * Ranks where grants or the like changed, and the whole catalog where recipes did.
 *
 * @param {string} text
 * @param {string} ranksOf
 */
async function readGame(text, ranksOf) {
  const edits = editLines(), whole = S.catalogOf !== edits;
  const out = await call('run', {
    file: S.file,
    script: text,
    version: null,
    ask: [...KINDS.map(k => `list ${k}`), ...(whole ? ['?catalog'] : [])],
  });
  if (whole) {
    const catalog = out.answers[KINDS.length];
    if (!catalog.startsWith('{')) throw new Error('the planner gave no catalog of this game');
    derive(JSON.parse(catalog));
    S.catalogOf = edits;
  }
  /** @type {Map<Id, number>} */
  const ranks = new Map();
  for (const reply of out.answers.slice(0, KINDS.length)) {
    for (const [id, , rank] of readReply(reply).slice(1)) ranks.set(id, Number(rank));
  }
  game.rank(ranks);
  S.ranksOf = ranksOf;
}

/**
 * Does what takes a while; until it is done the top says so.
 *
 * @param {() => Promise<any>} how
 * @returns {Promise<any>}
 */
export async function working(how) {
  S.asking++;
  show();
  try {
    return await how();
  } finally {
    S.asking--;
    show();
  }
}

/**
 * The words of the answer to a question about the state as it is, asked when it is looked at; null until it is there.
 *
 * @param {string} question
 * @returns {Reply | null}
 */
export function answer(question) {
  if (!S.asked.has(question)) {
    S.asked.set(question, null);
    S.asking++;
    const text = S.script;
    call('run', { file: S.file, script: text, version: null, ask: [question] })
      .then(out => {
        if (text === S.script) S.asked.set(question, readReply(out.answers[0]));
      })
      .catch(() => {})
      .finally(() => {
        S.asking--;
        show();
      });
  }
  return S.asked.get(question);
}
