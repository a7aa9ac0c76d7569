// The explorer: all things of the game, by name and in the order in which they come within reach.
import { h } from './dom.js';
import { game, get, isReached, kindOf, KINDS, PLURAL, rankOf } from './game.js';
import { found, icon, nameOf, plain } from './look.js';
import { open } from './routes.js';
import { S, show } from './state.js';

const MOST_TILES = 240;
/** @type {{ query: string, kinds: Set<string>, stamp: string | null, shown: Id[] }} */
const view = { query: '', kinds: new Set(['item', 'fluid']), stamp: null, shown: [] };

/**
 * All things of the game, to search and to look through.
 *
 * @returns {View}
 */
export function exploreView() {
  const { kinds } = view, counts = Object.fromEntries(KINDS.map(k => [k, 0]));
  game.ids.forEach(id => counts[kindOf(id)]++);
  const stamp = [view.query, ...kinds, game.stamp].join('|');
  if (stamp !== view.stamp) {
    Object.assign(view, {
      stamp,
      shown: found(
        game.ids.filter(id => (!kinds.size || kinds.has(kindOf(id))) && (view.query || !get(id).hidden)),
        view.query,
        MOST_TILES,
      ),
    });
  }
  const { shown } = view;
  /** @type {(k: string) => void} */
  const toggle = k => {
    kinds.has(k) ? kinds.delete(k) : kinds.add(k);
    show();
  };
  return h('section.explore', { key: 'explore', 'aria-label': 'Explore the game' },
    h('div.bar', null,
      h('input.find', {
        type: 'search',
        placeholder: 'Search the game',
        'aria-label': 'Search the game',
        value: view.query,
        'data-key': 'explore',
        spellcheck: false,
        oninput: e => {
          view.query = e.target.value;
          show();
        },
        onkeydown: e => e.key === 'Enter' && shown[0] && open(shown[0]),
      }),
      KINDS
        .filter(k => counts[k])
        .map(k => h(
          'button.filter' + (kinds.has(k) ? '.now' : ''),
          { type: 'button', key: k, 'aria-pressed': String(kinds.has(k)), onclick: () => toggle(k) },
          kinds.has(k) ? '✓ ' : '',
          PLURAL[k],
          ' ',
          h('small', null, counts[k]),
        )),
    ),
    h('p.dim', null,
      'In the order in which they come within reach, with the round of it.',
      S.total ? ` ${S.total.reached} of ${S.total.nodes} can be had from nothing.` : '',
    ),
    h('div.tiles', null,
      shown.map(id => h(
        'button.tile-button' + (isReached(id) ? '' : '.lost'),
        { type: 'button', key: id, onclick: () => open(id), title: plain(id, 200) },
        icon(id),
        h('span.name', null, nameOf(id)),
        h('small.dim', { title: 'The round in which it comes within reach' }, rankOf(id) || 'never'),
      )),
    ),
    !shown.length && h('p.dim', null, 'Nothing of that name.'),
  );
}
