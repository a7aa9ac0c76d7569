// How a wish may be made: machines, modules, beacons, fuel, what comes in, and what the plan takes least of.
import { h } from './dom.js';
import { game, get, isGood, isReached, kindOf } from './game.js';
import { chip, icon, mark, nameOf } from './look.js';
import { edit, pick, whole } from './pick.js';
import { open } from './routes.js';
import { show } from './state.js';
import { BEACONS, ROWS, wish } from './wishing.js';

/** @type {(key: string, value: any) => void} */
export const set = (key, value) => {
  wish[key] = value;
  show();
};
/** @type {(test: (it: Thing) => any) => () => Id[]} */
const those = test => () => game.ids.filter(id => isReached(id) && test(get(id)));

/**
 * The choices of a wish, those that few need folded away.
 *
 * @returns {View[]}
 */
export function options() {
  /** @type {(text: string, key: string, note: string) => View} */
  const tick = (text, key, note) => h('label.check', { title: note },
    h('input', {
      type: 'checkbox',
      checked: wish[key],
      'data-key': 'wish ' + key,
      onchange: e => set(key, e.target.checked),
    }),
    text,
  );
  /** @type {(text: string, key: string, all: () => Id[], hint: string) => View} */
  const one = (text, key, all, hint) => h('div.opt', null,
    h('span.dim', null, text),
    h(
      'button.chip',
      {
        type: 'button',
        'aria-label': `${text}: ${wish[key] ? nameOf(wish[key]) : 'none'}`,
        'data-key': 'wish ' + key,
        onclick: e =>
          pick(e.currentTarget, { options: all(), current: wish[key], none: 'None', hint, done: id => set(key, id) }),
      },
      wish[key] ? [icon(wish[key]), h('span.name', null, nameOf(wish[key]))] : 'none',
    ),
  );
  /** @type {(text: string, key: string, all: () => Id[], hint: string, beside?: (id: Id) => Child) => View} */
  const many = (text, key, all, hint, beside = () => null) => h('div.opt', null,
    h('span.dim', null, text),
    wish[key].map(/** @param {Id} id */ id => h('span.held', { key: id },
      chip(id, open),
      beside(id),
      mark('×', `${text}: not ${nameOf(id)}`, () => set(key, wish[key].filter(/** @param {Id} x */ x => x !== id))),
    )),
    h(
      'button.quiet',
      {
        type: 'button',
        key: '+',
        title: hint,
        'aria-label': `${text}: one more`,
        'data-key': 'wish ' + key,
        onclick: e => pick(e.currentTarget, {
          options: all(),
          hint,
          done: id => wish[key].includes(id) || set(key, [...wish[key], id]),
        }),
      },
      '+',
    ),
  );
  return [
    h('div.opts', null,
      tick('Mine the ore', 'dig', 'Drills are rows, instead of ore that comes in'),
      tick('Make the power', 'power', 'Power plants are rows'),
      one('Modules', 'module', those(m => m.module), 'Fills each machine that takes it'),
      wish.module && one('elsewhere', 'other', those(m => m.module), 'A second module, where the first isn’t allowed'),
      beaconOption(),
    ),
    h('details.more', { key: 'more' },
      h('summary', null, 'More: machines, fuel, recipes, what comes in, and of what the plan takes least'),
      h('div.opts', null,
        many(
          'Prefer machines',
          'by',
          those(m => ['crafter', 'drill', 'lab'].includes(m.kind)),
          'A machine to take before faster ones',
        ),
        one('Burn', 'fuel', those(m => m.fuel && kindOf(m.id) === 'item'), 'The fuel of each burner that takes it'),
        many('Bring in', 'imports', those(m => isGood(m.id)), 'A good that isn’t made here', id => [
          h('span.dim', null, ' at '),
          edit(wish.prices[id] || '1', {
            label: `Price of one ${nameOf(id)} that is brought in`,
            key: 'wish price ' + id,
            done: x => set('prices', { ...wish.prices, [id]: `${x}` }),
          }),
        ]),
        many('Avoid recipes', 'without', recipes, 'A recipe that is no row'),
        many('Insist on recipes', 'only', recipes, 'What it gives is made by no other'),
        cheapestOption(),
        rowsOption(),
      ),
    ),
  ];
}

const recipes = () => game.ids.filter(id => kindOf(id) === 'recipe' && isReached(id));
const LEAST = { cost: 'what comes in', power: 'power', pollution: 'pollution', machines: 'machines' };
const cheapestOption = () => h('label.opt', null,
  h('span.dim', null, 'Take least of'),
  h('select.choice', { 'data-key': 'wish cheapest', onchange: e => set('cheapest', e.target.value) },
    Object.entries(LEAST).map(([k, text]) => h('option', { value: k, selected: k === wish.cheapest }, text)),
  ),
);
const rowsOption = () => h('label.opt', null,
  h('span.dim', null, 'Rows at most'),
  whole(
    {
      value: wish.rows,
      placeholder: '40',
      'data-key': 'wish rows',
      oninput: e => set('rows', e.target.value),
    },
    ROWS,
    true,
  ),
);

function beaconOption() {
  const b = wish.beacon, [first] = those(m => m.kind === 'beacon')();
  if (!b && !first) return null;
  /** @type {(key: string, label: string) => View} */
  const number = (key, label) => whole(
    {
      value: b[key],
      'aria-label': label,
      'data-key': 'beacon ' + key,
      oninput: e => {
        b[key] = e.target.value;
      },
    },
    BEACONS,
  );
  const start = () => set('beacon', {
    by: first,
    count: 8,
    share: 4,
    module: (get(first).modules || []).filter(isReached).at(-1) || get(first).modules?.[0],
  });
  return h('div.opt', null,
    h('span.dim', null, 'Beacons'),
    b
      ? [
        number('count', 'How many beacons'),
        ' shared by ',
        number('share', 'Shared by how many machines'),
        ' of ',
        h(
          'button.chip',
          {
            type: 'button',
            'data-key': 'beacon module',
            onclick: e => pick(e.currentTarget, {
              options: get(b.by).modules || [],
              hint: 'Full of',
              done: id => {
                b.module = id;
                show();
              },
            }),
          },
          icon(b.module),
          h('span.name', null, nameOf(b.module)),
        ),
        mark('×', 'No beacons', () => set('beacon', null)),
      ]
      : h(
        'button.quiet',
        {
          type: 'button',
          title: 'Beacons around each machine',
          'aria-label': 'Beacons around each machine',
          onclick: start,
        },
        '+',
      ),
  );
}
