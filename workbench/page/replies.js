// The replies of the session, read word by word.
import { Frac } from './exact.js';
import { wordsOf } from './script.js';

/**
 * The words of each line of a reply: those of its first line without the number.
 *
 * @type {(text: string | undefined) => Reply | null}
 */
export const readReply = text =>
  text ? text.split('\n').map((l, i) => i ? wordsOf(l) || [l] : (wordsOf(l) || [l]).slice(1)) : null;
/** @type {(text: string) => Figure} */
const figure = text => text === 'wide' ? null : Frac.of(text);
/**
 * What a line says of each of its words, and the line itself, by which it is seen whether anything of it changed.
 *
 * @type {(words: string[]) => Figures}
 */
const figures = words => ({
  ...Object.fromEntries(words.flatMap((w, i) => i % 2 ? [] : [[w, figure(words[i + 1])]])),
  said: words.join(' '),
});

/**
 * The reply to `solve` or `?flow`: `kind` is plan, infeasible or refused.
 *
 * @param {string} text
 * @returns {Plan | null}
 */
export function planOf(text) {
  const reply = readReply(text);
  if (!reply) return null;
  const [head, ...rest] = reply;
  /** @type {Plan} */
  const plan = {
    kind: head[0],
    words: head,
    rows: new Map(),
    imports: new Map(),
    surpluses: new Map(),
    prices: new Map(),
    flows: new Map(),
    wanted: new Map(),
    build: [],
  };
  if (plan.kind === 'refused') return { ...plan, trail: rest };
  if (plan.kind === 'plan') plan.cost = Frac.of(head[3]);
  /** @type {(label: Label) => RowFlows} */
  const flowOf = label => {
    if (!plan.flows.has(label)) plan.flows.set(label, { takes: new Map(), gives: new Map(), said: '' });
    return plan.flows.get(label);
  };
  for (const [word, a, b, c] of rest) {
    if (word === 'row') continue;
    if (word === 'import') {
      plan.imports.set(a, figure(b));
    } else if (word === 'surplus') {
      plan.surpluses.set(a, figure(b));
    } else if (word === 'price') {
      plan.prices.set(a, figure(b));
    } else if (word === 'wanted') {
      plan.wanted.set(a, figure(b));
    } else if (word === 'takes' || word === 'gives') {
      const flow = flowOf(a);
      flow[word].set(b, figure(c));
      flow.said += ` ${word} ${b} ${c}`;
    } else if (word === 'build') {
      plan.build.push({ label: a, machine: b, count: figure(c) });
    }
  }
  for (const words of rest) {
    if (words[0] === 'row') {
      plan.rows.set(words[1], figures(words.slice(2)));
    } else if (words[0] === 'total') {
      plan.total = figures(words.slice(1));
    }
  }
  return plan;
}

/**
 * The reply to `rate` or `?limits`: the effects of a row, as texts, and which of them stand at their floor; null where
 * it is refused.
 *
 * @param {string} text
 * @returns {Effects | null}
 */
export function rateOf(text) {
  const [head, ...rest] = readReply(text) || [[]];
  if (head[0] !== 'rate') return null;
  return {
    ...Object.fromEntries(head.slice(3).flatMap((w, i, all) => i % 2 ? [] : [[w, all[i + 1]]])),
    floors: rest.filter(w => w[0] === 'floor').map(w => w[1]).join(', '),
  };
}

/** What the model hasn't of machines, in the words of docs/LIMITS.md. */
export const NOT_IN_THE_MODEL = 'Reactors, heat pipes and heat exchangers aren’t rows, and neither is a machine that takes '
  + 'a fluid for its energy: import what it makes, and count its machines and their fluid by hand.';

/** What a refusal means, in words. */
const MEANS = new Map(Object.entries({
  Q1: 'the first word is no command',
  Q2: 'the number of words is wrong, or a fixed word isn’t one',
  Q3: 'a word is no number of the kind that stands there',
  Q4: 'a word is badly quoted, or the line isn’t UTF-8',
  Q5: 'a word is no object, or not of the kind that stands there',
  X1: 'there is no such thing',
  X2: 'all would be as before',
  X3: 'an amount or a time must be above 0',
  X4: 'a list would have more than 1,024 entries',
  M1: 'there are 256 milestones',
  M2: 'it is a milestone already',
  M3: 'it is no milestone',
  H1: 'nothing is there to undo',
  H2: 'nothing is there to do again',
  H3: 'a batch is open, and this can’t stand in one',
  H4: 'no batch is open',
  H5: 'the batch holds 1,024 edits',
  P1: 'no such table, row, import or surplus',
  P2: 'a wanted rate or a price must not be below 0',
  P3: 'there are too many tables (64), or rows or goods of a table (512)',
  P4: 'no fluid of a temperature that it takes',
  P5: 'the name is used',
  K1: 'this machine doesn’t do that',
  K2: 'this machine is fixed to another recipe',
  K3: 'what is mined needs a fluid, and the drill has no box for it',
  K4: 'its numbers are too wide',
  K5: 'the machine gives nothing so',
  L1: 'it burns a fuel and none is named',
  L2: 'it doesn’t take this fuel',
  L3: 'it burns no fuel',
  L4: NOT_IN_THE_MODEL.replace(/\.$/, ''),
  U1: 'there are more modules than slots',
  U2: 'an effect of the module isn’t allowed there',
  U3: 'the module isn’t allowed on this recipe',
  B1: 'no machine shares the beacon',
  V1: 'a number of the solver grew too wide',
  V2: 'the budget of steps is used up',
}));
/**
 * What a refusal means, in words: its code, and its details.
 *
 * @type {(code: string, details?: string[]) => string}
 */
export const meaningOf = (code, details = []) =>
  MEANS.get(code === 'Q5' && details.includes('special:heat') ? 'L4' : code) || 'it is refused';
