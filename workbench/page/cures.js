// What would mend a plan that there is none of, and a line that is refused: in words, and each by one click. What is
// offered is only a guess that is tried: whether it mends, the program says.
import { addLines, change } from './changes.js';
import { Frac } from './exact.js';
import { game, get, isGood, isReached, kindOf, machinesFor, newRow } from './game.js';
import { nameOf, plain } from './look.js';
import { rowOf } from './model.js';
import { nearest } from './nearest.js';
import { meaningOf } from './replies.js';
import { cure, curesOfRow } from './rowcures.js';
import { removeRow } from './rows.js';
import { line, linesOf, rowLine, solveWords } from './script.js';
import { S } from './state.js';
import { makeHere } from './wishing.js';

const MOST = 8, MOST_STEPS = '100000';
/** @type {GoodsOf[]} */
const LISTS = ['want', 'import', 'surplus'];

// ---- Plans ----

/**
 * Why a table has no plan, and what may give it one.
 *
 * @param {Table} table
 * @param {Plan} plan
 * @returns {Cures}
 */
export function curesOfPlan(table, plan) {
  if (plan.kind === 'infeasible') return curesOfInfeasible(table, plan);
  const [, code, ...more] = plan.words;
  // (of a number that is too wide the reply names the row; of too many goods it names none, so the last rows are
  // offered)
  const named = table.rows.filter(r =>
    (S.rates.has(r.label) && !S.rates.get(r.label)) || (code === 'K4' && r.label === more[0]));
  const why = `${meaningOf(code)}${named.length ? ` (row ${named.map(r => plain(r.label)).join(', ')})` : ''}.`;
  const rows = named.length ? named : table.rows.slice(-MOST);
  if (code === 'V1' || code === 'V2') return { why, cures: curesOfSolver(table, plan) };
  return {
    why,
    cures: rows.flatMap(r => curesOfRow(code, more, r, next =>
      change({ put: { [r.line]: rowLine(table.name, next) } })).concat(cure(
      null,
      `Remove row ${plain(r.label)}`,
      () => removeRow(table, r),
    ))),
  };
}

/**
 * By the prices nothing that may be done gains, and what is wanted is worth something. So a plan needs what breaks
 * them: letting out a good of a price below 0, bringing in one of a price above 0, or another row. Research is only
 * made.
 *
 * @param {Table} table
 * @param {Plan} plan
 * @returns {Cures}
 */
function curesOfInfeasible(table, plan) {
  const given = new Set(table.rows.flatMap(r => (get(r.does).out || [{ good: r.does }]).map(p => p.good)));
  const goods = [...plan.prices].filter(([, y]) => y && !y.isZero);
  /** @type {(g: Id) => boolean} */
  const isResearch = g => kindOf(g) === 'tech';
  const out = goods.filter(([g, y]) => y.n < 0n && !table.surplus.has(g) && !isResearch(g)).map(([g]) => g);
  const wanting = goods.filter(([g, y]) => y.n > 0n && !table.import.has(g)).map(([g]) => g);
  const bring = wanting.filter(g => !given.has(g)), rest = wanting.filter(g => given.has(g));
  // (what is mined or pumped comes before what only moves it out of barrels)
  /** @type {(x: Id) => boolean} */
  const isSource = x => kindOf(x) === 'source';
  /** @type {(g: Id) => Id[]} */
  const made = g => get(g).made || [];
  /** @type {(g: Id) => Id[]} */
  const ways = g => [...made(g).filter(isSource), g, ...made(g).filter(x => !isSource(x))].filter(x =>
    isReached(x) && machinesFor(x).length && !table.rows.some(r => r.does === x));
  /** @type {(g: Id) => Cure[]} */
  const make = g => {
    const [way] = ways(g), row = way && newRow(table, way);
    return row
      ? [
        cure(g, `${isResearch(g) ? 'Research' : isSource(row.does) ? 'Mine' : 'Make'} ${nameOf(g)}`, () =>
          addLines(table, rowLine(table.name, row))),
      ]
      : [];
  };
  /** @type {(g: Id) => Cure[]} */
  const makeAll = g =>
    ways(g).length && !made(g).some(isSource)
      ? [cure(g, `${isResearch(g) ? 'Research' : 'Make'} ${nameOf(g)} and what it takes`, () => makeHere(table, g))]
      : [];
  /** @type {(g: Id) => Cure[]} */
  const bringIn = g =>
    isResearch(g) ? [] : [cure(g, `Bring in ${nameOf(g)}`, () => addLines(table, line('import', table.name, g, '1')))];
  /** @type {(g: Id) => Cure} */
  const letOut = g => cure(g, `Let out ${nameOf(g)}`, () => addLines(table, line('surplus', table.name, g, '0')));
  /**
   * (of a fluid of several temperatures one of them is what is made)
   *
   * @type {(g: Id) => Cure[]}
   */
  const warm = g =>
    table.want.has(g)
      ? (get(g).variants || []).map(v => cure(v, `${nameOf(v)} instead`, () =>
        change({ put: { [table.want.get(g).line]: line('want', table.name, v, table.want.get(g).value) } })))
      : [];
  /** @type {(g: Id) => Cure} */
  const wantNot = g => cure(g, `Want no ${nameOf(g)}`, () =>
    S.model.hasUndo
      ? addLines(table, line('want', table.name, g, '0'))
      : change({ put: { [table.want.get(g).line]: null } }));
  /** @type {(list: Id[]) => string} */
  const named = list => list.slice(0, 3).map(nameOf).join(', ') + (list.length > 3 ? ' and others' : '');
  const why = bring.length
    ? `${named(bring)} ${bring.length > 1 ? 'are' : 'is'} needed and ${bring.length > 1 ? 'come' : 'comes'} from nowhere.`
    : out.length
      ? `${named(out)} ${out.length > 1 ? 'are' : 'is'} left over and ${out.length > 1 ? 'have' : 'has'} nowhere to go.`
      : 'what is wanted can’t be made of what there is.';
  const cures = [
    ...bring.flatMap(g => [...warm(g), ...makeAll(g), ...make(g), ...bringIn(g)]),
    ...out.map(letOut),
    ...(bring.length || out.length ? [] : rest.flatMap(g => [...make(g), ...bringIn(g)])),
  ];
  return { why, cures: cures.length ? cures.slice(0, 2 * MOST) : [...table.want.keys()].slice(0, MOST).map(wantNot) };
}

/**
 * The solver stopped: rounder numbers, another order of the rows, or goods that come in where they were made.
 *
 * @param {Table} table
 * @param {Plan} plan
 * @returns {Cure[]}
 */
function curesOfSolver(table, plan) {
  const wide = [
    ...LISTS.flatMap(k => [...table[k]].map(([g, it]) => ({ words: [k, table.name, g], it }))),
    ...table.rows
      .filter(r => r.price)
      .map(r => ({ words: ['price', table.name, r.label], it: { value: r.price, line: r.priceLine } })),
  ]
    .map(x => ({ ...x, near: Frac.of(Frac.of(x.it.value).fixed(2).replace(/\u2009/g, '').replace('−', '-')) }))
    .filter(x => `${x.near}` !== `${Frac.of(x.it.value)}` && !x.near.isZero);
  const round = wide.length
    ? [
      cure(null, 'Round amounts and prices to two places', () =>
        change({ put: Object.fromEntries(wide.map(x => [x.it.line, line(...x.words, x.near)])) })),
    ]
    : [];
  const lines = table.rows.map(r => r.line), texts = linesOf(S.script);
  const turn = lines.length > 1
    ? [
      cure(null, 'Try the rows in the opposite order', () =>
        change({ put: Object.fromEntries(lines.map((n, i) => [n, texts[lines[lines.length - 1 - i] - 1]])) })),
    ]
    : [];
  const goods = [
    ...new Set(plan.trail
      .slice(-12)
      .flat()
      .filter(w => /^(item|fluid):/.test(w) && !table.import.has(w) && !table.want.has(w))),
  ];
  const most = plan.words[1] === 'V2' && solveWords(S.model, table.name)[1] !== MOST_STEPS
    ? [
      cure(null, 'Give the solver 100,000 steps, the most there are', () =>
        giveSteps(table, line('solve', table.name, MOST_STEPS))),
    ]
    : [];
  return [
    ...most,
    ...round,
    ...turn,
    ...goods.slice(-4).map(g =>
      cure(g, `Bring in ${nameOf(g)}`, () => addLines(table, line('import', table.name, g, '1')))),
  ];
}

/**
 * A budget stands in the place of the one that the script names, which would count before it.
 *
 * @param {Table} table
 * @param {string} said
 */
function giveSteps(table, said) {
  const { commands } = S.model, n = commands.findLastIndex(w => w[0] === 'solve' && w[1] === table.name && w[2]) + 1;
  return n ? change({ put: { [n]: said } }) : addLines(table, said);
}

// ---- Lines ----

const COMMANDS = [
  'reach', 'why', 'missing', 'mask', 'list', 'milestones', 'summary', 'rate', 'solve', 'grant', 'revoke', 'forbid',
  'permit', 'milestone', 'unmilestone', 'ingredient', 'product', 'unlock', 'time', 'enabled', 'table', 'untable',
  'row', 'unrow', 'price', 'want', 'import', 'surplus', 'power', 'undo', 'redo', 'batch', 'end', 'cancel', 'quiet',
];

/**
 * Why a line of the script is refused: {line, why, cures}. What a batch is refused for at its end is told of the line
 * in it.
 *
 * @param {LineNumber} n
 * @returns {Cures}
 */
export function curesOfLine(n) {
  const said = S.refused.get(n), [, code, ...rest] = said, at = rest.at(-2) === 'at' ? Number(rest.at(-1)) : null;
  const details = at ? rest.slice(0, -2) : rest, target = at || n, words = S.model.commands[target - 1] || [];
  const why = `${meaningOf(code, words)}${details.length ? `: ${details.map(d => plain(d)).join(' ')}` : ''}${at ? ` (line ${at} of its batch)` : ''}.`;
  /** @type {(next: string[]) => void} */
  const to = next => change({ put: { [target]: line(...next) } });
  const cures = [];
  if (words[0] === 'row' && words.length > 5) {
    const row = rowOf(words);
    cures.push(...curesOfRow(code, details, row, next => change({ put: { [target]: rowLine(words[1], next) } })));
  }
  if (words[0] === 'row' && (code === 'L4' || words[3] === 'special:heat')) {
    const { out = [] } = get(words[3]), goods = isGood(words[3]) ? [words[3]] : out.map(p => p.good);
    cures.push(...goods.map(g =>
      cure(g, `Bring in ${nameOf(g)} instead`, () => to(['import', words[1], g, '0']))));
  }
  if (code === 'X1' || (code === 'Q5' && words[3] !== 'special:heat')) {
    const missing = details[0] || words.find(w => /^\w+:/.test(w) && !game.at.has(w)) || '';
    const i = words.indexOf(missing);
    if (i > 0) {
      cures.push(
        ...nearest(missing, [...game.at.keys()]).map(id => cure(
          id,
          `${nameOf(id)}${kindOf(id) === kindOf(missing) ? '' : `, the ${kindOf(id)},`} instead`,
          () => to(words.map((w, k) => k === i ? id : w)),
        )),
      );
    }
  }
  if (code === 'Q1') {
    cures.push(
      ...nearest(words[0] || '', COMMANDS).map(c => cure(null, `Write ${c}`, () => to([c, ...words.slice(1)]))),
    );
  }
  if (code === 'P1' && details[0] === words[1]) {
    cures.push(
      ...nearest(words[1], [...S.model.tables.keys()]).map(t =>
        cure(null, `Of the table ${plain(t)}`, () => to([words[0], t, ...words.slice(2)]))),
    );
    cures.push(cure(null, `Make a table ${plain(words[1])} first`, () => before(target, line('table', words[1]))));
  }
  if (code === 'P5' && words[0] === 'table') {
    cures.push(cure(null, `Call it ${plain(words[1])}-2`, () => to(['table', words[1] + '-2'])));
  }
  if (code === 'H3') cures.push(cure(null, 'Close the batch before it', () => before(target, 'end')));
  if (code === 'P2') {
    cures.push(cure(null, 'Without the minus', () =>
      to(words.map((w, i) => i === words.length - 1 ? w.replace(/^-/, '') : w))));
  }
  cures.push(cure(null, 'Drop the line', () => change({ put: { [target]: null } })));
  return { line: target, why, cures };
}

/**
 * @param {LineNumber} n
 * @param {string} text
 */
function before(n, text) {
  const all = linesOf(S.script);
  change({ put: { [n]: `${text}\n${all[n - 1]}` } });
}
