// A wish: so much of a good, and how it may be made. The program finds the rows (docs/WISH.md).
import { h } from './dom.js';
import { Frac } from './exact.js';
import { game, get, isGood, isReached, kindOf } from './game.js';
import { icon, look, nameOf } from './look.js';
import { tellBeside } from './numbers.js';
import { pick } from './pick.js';
import { allScience, amountOf, makeWish, packsAmount, unitOf, wish } from './wishing.js';
import { options, set } from './wishoptions.js';

/**
 * The wish of which the card of a thing was left.
 *
 * @param {Id} id
 */
export function wishFor(id) {
  Object.assign(wish, { good: id, said: '', words: [] });
}

/**
 * The form of a wish.
 *
 * @returns {View}
 */
export function wishView() {
  const goods = () => game.ids
    .filter(id => (isGood(id) || kindOf(id) === 'tech' || id === 'special:electricity') && isReached(id))
    .map(id => ({ id, note: kindOf(id) === 'tech' ? 'research' : '' }));
  return h(
    'form.wish',
    {
      key: 'wish',
      onsubmit: e => {
        e.preventDefault();
        makeWish();
      },
    },
    h('h1', null, 'What do you wish for?'),
    h('p.dim', null,
      'Recipes and machines are found for it, and the cheapest plan of them. All of it can be changed afterwards.',
    ),
    h('div.sentence', null,
      h('input.amount', {
        value: wish.amount,
        'data-key': 'wish amount',
        'aria-label': 'How much',
        autocomplete: 'off',
        'aria-describedby': 'heard',
        oninput: e => {
          set('amount', e.target.value);
          tellBeside(e.target, amountOf().said);
        },
      }),
      unitView(),
      h(
        'button.choose',
        {
          type: 'button',
          id: 'good',
          'data-key': 'wish good',
          'aria-haspopup': 'dialog',
          onclick: e => pick(e.currentTarget, {
            options: goods(),
            current: wish.good,
            hint: 'An item, a fluid, a technology, electricity',
            done: id => set('good', id),
          }),
        },
        wish.good ? [icon(wish.good), h('span.name', null, nameOf(wish.good))] : h('span.dim', null, 'choose a good …'),
      ),
      h('button.main', { type: 'submit', id: 'make', disabled: !wish.good }, 'Plan it'),
    ),
    wish.said && refusedView(),
    options(),
    h('div.quick', null,
      h('span.dim', null, 'Or one of the science packs:'),
      game.packs.filter(isReached).map(id => h(
        'button.chip',
        { type: 'button', key: id, onclick: () => set('good', id) },
        icon(id),
        h('span.name', null, nameOf(id)),
      )),
    ),
    game.packs.some(isReached) && h('p.dim.note', null,
      'Or ',
      h('button.link', { type: 'button', id: 'science', onclick: allScience }, 'all of them at once'),
      ', ',
      packsAmount().said.replace(/^= /, ''),
      ' each.',
    ),
  );
}

// The unit of the amount: of time, or for an item belts of the kind that flows are counted in.
function unitView() {
  if (!wish.good || kindOf(wish.good) !== 'item' || !game.belts.length) {
    return h('span.dim', { key: 'unit' }, unitOf(wish.good));
  }
  return h(
    'select.choice',
    {
      key: 'units',
      'data-key': 'wish unit',
      'aria-label': 'Unit of the amount',
      onchange: e => set('inBelts', e.target.value === 'belts'),
    },
    h('option', { value: 'time', selected: !wish.inBelts }, unitOf(wish.good)),
    h('option', { value: 'belts', selected: wish.inBelts, title: nameOf(look.belt) },
      `belts of ${Frac.of(get(look.belt).belt).text} /s`,
    ),
  );
}

function refusedView() {
  const goods = [...new Set(wish.words)].filter(id => game.at.has(id) && isGood(id)).slice(0, 12);
  return h('div.verdict.bad', { role: 'alert' },
    h('div', null, h('b', null, '✗ '), wish.said),
    goods.length > 0 && h('div.tips', null,
      'Bring in instead of making:',
      goods.map(id => h(
        'button.tip',
        {
          type: 'button',
          key: id,
          onclick: () => {
            wish.imports = [...new Set([...wish.imports, id])];
            makeWish();
          },
        },
        icon(id),
        nameOf(id),
      )),
    ),
  );
}
