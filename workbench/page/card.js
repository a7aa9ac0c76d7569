// The card of a thing: what it is, what makes and uses it, and what may be changed of it.
import { answer } from './answers.js';
import { addLines, change, closed, drop, say } from './changes.js';
import { h } from './dom.js';
import { Frac } from './exact.js';
import { EFFECTS, game, get, isGood, isReached, kindOf, machinesFor, newRow } from './game.js';
import { amount, chip, icon, mark, nameOf, num, percent, plain, power } from './look.js';
import { pick } from './pick.js';
import { chips, equation, recipes } from './recipes.js';
import { NOT_IN_THE_MODEL } from './replies.js';
import { go, open, side } from './routes.js';
import { line, rowLine } from './script.js';
import { keep, S, show, tableShown } from './state.js';
import { wishFor } from './wish.js';

/** @type {(name: string, ...inside: Child[]) => View | null} */
const block = (name, ...inside) =>
  inside.flat().some(Boolean) ? h('section.block', { key: name }, h('h3', null, name), inside) : null;
/** @type {(name: string, value: Child) => View | null} */
const fact = (name, value) =>
  value === null || value === undefined || value === false
    ? null
    : h('div.fact', { key: name }, h('span.dim', null, name), h('span', null, value));

/**
 * @param {Id} tech
 * @param {Id} recipe
 * @param {boolean} on
 */
function unlock(tech, recipe, on) {
  const had = S.model.edits.some(e => e.words[0] === 'unlock' && e.words[1] === tech && e.words[2] === recipe);
  had && !S.model.hasUndo ? say(['unlock', tech, recipe]) : say(['unlock', tech, recipe], on ? 'on' : 'off');
}

/**
 * @param {Id} recipe
 * @param {boolean} on
 */
function enable(recipe, on) {
  const had = S.model.edits.some(e => e.words[0] === 'enabled' && e.words[1] === recipe);
  had && !S.model.hasUndo ? say(['enabled', recipe]) : say(['enabled', recipe], on ? 'on' : 'off');
}

const MARKS = [
  ['Milestone', 'milestone', 'unmilestone', 'Ask of everything whether it hangs on this'],
  ['Grant', 'grant', 'revoke', 'It is there from the start'],
  ['Forbid', 'forbid', 'permit', 'It can never be had'],
];
/** @type {(id: Id, on: string) => LineNumber | undefined} */
const lineOfMark = (id, on) => ({
  milestone: S.model.milestones.find(m => m.id === id)?.line,
  grant: S.model.grants.get(id),
  forbid: S.model.forbids.get(id),
})[on];
/** @type {(id: Id) => (mark: string[]) => View} */
const markButton = id => ([text, on, off, note]) => {
  const at = lineOfMark(id, on);
  return h(
    'button.mark' + (at ? '.now' : ''),
    {
      type: 'button',
      key: on,
      title: note,
      'aria-pressed': String(Boolean(at)),
      onclick: () => at ? drop(at, line(off, id)) : change({ add: closed([line(on, id)]) }),
    },
    at ? '✓ ' : '',
    text,
  );
};

/**
 * The card of a thing.
 *
 * @param {Id} id
 * @returns {View}
 */
export function cardView(id) {
  const it = get(id), kind = kindOf(id), table = tableShown();
  const close = h(
    'button.tool',
    { type: 'button', title: 'Close (Esc)', 'aria-label': 'Close the card', onclick: () => side('card') },
    '×',
  );
  if (!it.id) {
    return h('div.card', { key: id },
      h('div.cardhead', null, h('p.dim', null, 'There is no such thing.'), h('span.grow'), close),
    );
  }
  const isPlannable = (isGood(id) || kind === 'tech' || id === 'special:electricity') && isReached(id);
  return h('div.card', { key: id },
    h('div.cardhead', null,
      icon(id, 'large'),
      h('div.names', null, h('h2', null, nameOf(id)), h('small.dim', null, plain(id, 90))),
      h('span.grow'),
      S.cards.length > 0 && h(
        'button.tool',
        {
          type: 'button',
          title: 'Back',
          'aria-label': 'Back to the card before',
          onclick: () => {
            S.card = S.cards.pop();
            keep('card', S.card);
            show();
          },
        },
        '←',
      ),
      close,
    ),
    h('div.row.acts', null,
      isPlannable && h(
        'button.main',
        {
          type: 'button',
          onclick: () => {
            wishFor(id);
            go('wish');
          },
        },
        kind === 'tech' ? 'Research …' : 'Make …',
      ),
      table && machinesFor(id).length > 0 && h(
        'button.quiet',
        {
          type: 'button',
          onclick: () => {
            const row = newRow(table, id);
            if (row) addLines(table, rowLine(table.name, row));
          },
        },
        `Add to ${plain(table.name, 30)}`,
      ),
      MARKS.map(markButton(id)),
    ),
    table && it.by?.length > 0 && !machinesFor(id).length && h('p.dim', { key: 'unplanned' }, NOT_IN_THE_MODEL),
    h('div.facts', null, facts(it, kind)),
    kind === 'recipe' || kind === 'tech' || kind === 'source'
      ? block(
        kind === 'recipe' ? 'Recipe (amounts can be changed)' : kind === 'tech' ? 'A unit takes' : 'Mining',
        equation(it, kind === 'recipe'),
      )
      : null,
    kind === 'machine' ? block('Built as', chips(it.items)) : block('Made by', recipes(it.made)),
    block(kind === 'tech' ? 'Researched in' : kind === 'source' ? 'Mined by' : 'By', chips(it.by)),
    kind === 'recipe' && block(
      'Unlocked by',
      h('div.chips', null,
        (it.unlocked || []).map(t => h('span.held', { key: t },
          chip(t, open),
          mark('×', `${nameOf(t)} doesn’t unlock this`, () => unlock(t, id, false)),
        )),
        h(
          'button.quiet',
          {
            type: 'button',
            title: 'A technology that unlocks it',
            'aria-label': 'A technology that unlocks it',
            'data-key': 'unlock',
            onclick: e => pick(e.currentTarget, {
              options: game.ids.filter(i => kindOf(i) === 'tech'),
              hint: 'Unlocked by',
              done: t => unlock(t, id, true),
            }),
          },
          '+',
        ),
      ),
    ),
    block('Needs', chips(it.needs)),
    block('Unlocks', chips(it.unlocks)),
    block('Leads to', chips(it.after)),
    block('Temperatures', chips(it.variants)),
    block('Used in', chips(it.used, 10, 'used')),
    kind === 'machine' && block('Does', chips(it.does, 10, 'does')),
    block('Takes fuel', chips(it.fuels)),
    block('Takes modules', chips(it.modules)),
    block('Takes packs', chips(it.inputs)),
    way(it),
  );
}

/**
 * @param {Thing} it
 * @param {string} kind
 * @returns {Child[]}
 */
function facts(it, kind) {
  const mask = S.model.milestones.length && it.rank ? answer(line('mask', it.id)) : null;
  const words = mask?.[0].slice(2) || [];
  const module = it.module;
  return [
    fact('Comes within reach', it.rank ? `in round ${it.rank}` : h('b.bad', null, 'never')),
    S.model.milestones.length > 0 && it.rank && fact(
      'Hangs on',
      !mask ? '…' : words[0] === 'none' ? 'no milestone' : h('span.chips', null, words.map(m => chip(m, open))),
    ),
    fact('Stack', it.stack && it.stack !== '0' && amount(it.stack)),
    fact('Carries', it.belt && [amount(it.belt), ' items /s']),
    fact('Temperature', it.base && `${it.temperature}°`),
    fact('Burns with', it.fuel && [num(Frac.of(it.fuel.value)?.over(1000000)), ' MJ']),
    fact('Placed as', it.places && chip(it.places, open)),
    fact('Leaves', it.burnt && chip(it.burnt, open)),
    module && fact(
      'Module',
      EFFECTS.filter(k => module[k]).map(k => `${k === 'consumption' ? 'power' : k} ${percent(module[k])}`).join(', '),
    ),
    module?.only && fact('Only on', `${module.only.length} recipes`),
    kind === 'machine' && [
      fact('Speed', it.speed && amount(it.speed)),
      fact('Power', it.usage && it.usage !== '0' && power(Frac.of(it.usage))),
      fact('At rest', it.drain && it.drain !== '0' && power(Frac.of(it.drain))),
      fact('Gives', it.power && power(Frac.of(it.power))),
      fact('Runs on', { electric: 'electricity', burner: 'fuel', heat: 'heat', fluid: 'a fluid' }[it.energy]),
      fact('Pollution', it.emissions && it.emissions !== '0' && [amount(it.emissions), ' /min']),
      fact('Module slots', it.slots),
    ],
    kind === 'recipe' && [
      fact('By hand', it.hand && 'yes'),
      fact(
        'From the start',
        h('input', {
          type: 'checkbox',
          'aria-label': 'From the start',
          checked: Boolean(it.enabled),
          onchange: e => enable(it.id, e.target.checked),
        }),
      ),
    ],
    kind === 'tech' && [
      fact('Units', it.count && amount(it.count)),
      fact('Seconds of a unit', it.time && amount(it.time)),
    ],
  ].flat();
}

// A way to a thing from nothing, or what it waits for.
/** @type {Id | null} */
let wayOf = null;

/**
 * @param {Thing} it
 * @returns {View}
 */
function way(it) {
  const reply = wayOf === it.id ? answer(line(it.rank ? 'why' : 'missing', it.id)) : null;
  const groups = () => h('div', null,
    reply.slice(1).map((w, i) =>
      w[0] === 'forbidden'
        ? h('p', { key: i }, 'It is forbidden.')
        : h('div', { key: i },
          h('p.dim', null,
            w.length === 1 ? 'Nothing in the game would do.' : w[0] === 'all' ? 'All of these:' : 'One of these:',
          ),
          chips(w.slice(1), 12, 'missing' + i),
        )),
  );
  const steps = () => h('ol.why', null,
    reply.slice(1).map(w =>
      h('li', { key: w[0] }, h('small.dim', null, w[2]), chip(w[0], open), w[3] && h('small', null, 'granted'))),
  );
  return h('section.block', { key: 'way' },
    h('h3', null, it.rank ? 'A way to it, from nothing' : 'What is missing'),
    wayOf !== it.id
      ? h(
        'button.quiet',
        {
          type: 'button',
          onclick: () => {
            wayOf = it.id;
            show();
          },
        },
        it.rank ? 'Show the steps' : 'What does it wait for?',
      )
      : !reply
        ? h('p.dim', null, '…')
        : it.rank
          ? steps()
          : groups(),
  );
}
