// What a recipe takes and gives, where it may be changed by fields; and things as a list.
import { say } from './changes.js';
import { h } from './dom.js';
import { game, get, isGood, isReached, rankOf } from './game.js';
import { amount, chip, nameOf, percent } from './look.js';
import { edit, pick } from './pick.js';
import { open } from './routes.js';

/**
 * Things as buttons that open their cards; those past `most` are folded away.
 *
 * @type {(ids: Id[] | undefined, most?: number, key?: string) => View | null}
 */
export const chips = (ids, most = 12, key = '') =>
  !ids?.length
    ? null
    : h('div.chips', null,
      ids.slice(0, most).map(id => chip(id, open)),
      ids.length > most && h('details', { key },
        h('summary', null, `${ids.length - most} more`),
        h('div.chips', null, ids.slice(most, 400).map(id => chip(id, open))),
      ),
    );

/**
 * What a recipe takes and gives; where it may be changed, by fields.
 *
 * @param {Thing} it
 * @param {boolean} [editable]
 * @returns {View}
 */
export function equation(it, editable) {
  /** @type {(what: string, p: Part, x: Frac | null) => void} */
  const put = (what, p, x) => say([what, it.id, p.good], x === null ? 'drop' : x);
  /** @type {(what: string) => Child} */
  const more = what => editable && h(
    'button.quiet',
    {
      type: 'button',
      title: `One more ${what}`,
      'aria-label': `One more ${what}`,
      'data-key': 'more ' + what,
      onclick: e => pick(e.currentTarget, {
        options: game.ids.filter(isGood),
        hint: `One more ${what}`,
        done: id => say([what, it.id, id], 1),
      }),
    },
    '+',
  );
  /** @type {(what: string, p: Part, i: number) => View} */
  const one = (what, p, i) => h('span.part', { key: what + p.good + i },
    editable
      ? edit(p.amount, {
        label: `${what} ${nameOf(p.good)}`,
        key: `${what} ${it.id} ${p.good}`,
        done: x => put(what, p, x.n ? x : null),
      })
      : amount(p.amount),
    chip(p.good, open),
    p.probability && h('small.dim', null, percent(p.probability).replace('+', '')),
    (p.low || p.high) && h('small.dim', null, `${p.low ?? ''}–${p.high ?? ''}°`),
  );
  return h('div.equation', null,
    h('div', null,
      (it.in || []).length ? it.in.map((p, i) => one('ingredient', p, i)) : h('span.dim', null, 'nothing'),
      more('ingredient'),
    ),
    h('span.arrow', null,
      h('span', { 'aria-label': 'gives' }, '→'),
      it.time && h('small', null,
        editable
          ? edit(it.time, { label: 'Seconds of a craft', key: 'time ' + it.id, done: x => say(['time', it.id], x) })
          : amount(it.time),
        ' s',
      ),
    ),
    h('div', null, (it.out || []).map((p, i) => one('product', p, i)), more('product')),
  );
}

/**
 * Recipes with what they take and give, the earliest first.
 *
 * @type {(ids: Id[] | undefined) => View | null}
 */
export const recipes = ids =>
  ids?.length
    ? h('div', null,
      [...ids]
        .sort((a, b) => (rankOf(a) || 1e9) - (rankOf(b) || 1e9))
        .slice(0, 30)
        .map(id => h('div.recipe' + (isReached(id) ? '' : '.lost'), { key: id },
          h('div.row', null, chip(id, open), h('small.dim', null, isReached(id) ? '' : 'not reached')),
          equation(get(id)),
        )),
    )
    : null;
