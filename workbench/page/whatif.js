// What if: milestones, grants, forbids and edits of the game, and what is lost by them.
import { change, closed, drop } from './changes.js';
import { h } from './dom.js';
import { game, isReached, kindOf } from './game.js';
import { chip, mark, nameOf, noteOf } from './look.js';
import { pick } from './pick.js';
import { open } from './routes.js';
import { line } from './script.js';
import { S } from './state.js';

const MOST_LOST = 120;

/**
 * Milestones, grants, forbids and edits, with what is out of reach by them.
 *
 * @returns {View}
 */
export function whatIfView() {
  const { model } = S;
  const lost = game.ids.filter(id => !isReached(id));
  const missing = game.packs.filter(p => !model.milestones.some(m => m.id === p));
  /** @type {(verb: string, hint: string) => View} */
  const add = (verb, hint) => h(
    'button.quiet',
    {
      type: 'button',
      title: hint,
      'aria-label': hint,
      'data-key': 'add ' + verb,
      onclick: e => pick(e.currentTarget, {
        options: game.ids.map(id => ({ id, note: noteOf(id) })),
        hint,
        done: id => change({ add: closed([line(verb, id)]) }),
      }),
    },
    '+',
  );
  /** @type {(id: Id, n: LineNumber, off: string) => View} */
  const held = (id, n, off) =>
    h('span.held', { key: id }, chip(id, open), mark('×', `${nameOf(id)}: no longer`, () => drop(n, line(off, id))));
  /** @type {(name: string, note: string, ...inside: Child[]) => View} */
  const panel = (name, note, ...inside) => h('section.panel', { key: name, 'aria-label': name },
    h('h2', null, name, inside.shift()),
    h('p.dim', null, note),
    inside,
  );
  return h('section.whatif', { key: 'whatif', 'aria-label': 'What if' },
    h('div.big', null,
      h('b', null, S.total ? S.total.reached : '–'),
      h('span', null, S.total ? `of ${S.total.nodes} things can be had` : ''),
    ),
    h('div.panels', null,
      panel(
        'Milestones',
        'Each card tells on which of them a thing hangs, whatever else is done.',
        add('milestone', 'Milestone: what?'),
        h('div.chips', null, model.milestones.map(m => held(m.id, m.line, 'unmilestone'))),
        missing.length > 0 && h(
          'button.quiet',
          {
            type: 'button',
            id: 'packs',
            onclick: () => change({ add: closed(missing.map(p => line('milestone', p))) }),
          },
          model.milestones.length ? `Add the other ${missing.length} science packs` : 'Take the science packs',
        ),
      ),
      panel(
        'Granted',
        'What a player holds from the start.',
        add('grant', 'Grant: what?'),
        h('div.chips', null, [...model.grants].map(([id, n]) => held(id, n, 'revoke'))),
      ),
      panel(
        'Forbidden',
        'What isn’t on the map, or what one won’t do.',
        add('forbid', 'Forbid: what?'),
        h('div.chips', null, [...model.forbids].map(([id, n]) => held(id, n, 'permit'))),
      ),
      panel(
        'Edits of the game',
        'Change amounts, times and unlocks on the card of a recipe.',
        null,
        model.edits.map(edited),
      ),
    ),
    lost.length > 0 && h('section.panel', { key: 'lost', 'aria-label': 'Out of reach' },
      h('h2', null, `Out of reach: ${lost.length}`),
      h('div.chips', null,
        lost
          .filter(i => ['item', 'fluid', 'tech', 'machine'].includes(kindOf(i)))
          .slice(0, MOST_LOST)
          .map(id => chip(id, open)),
      ),
    ),
  );
}

/**
 * @param {GameEdit} e
 * @returns {View}
 */
function edited(e) {
  const [verb, a, b, c] = e.words;
  const told = {
    ingredient: c === 'drop' ? ['takes no', b] : ['takes', b, c],
    product: c === 'drop' ? ['gives no', b] : ['gives', b, c],
    time: [`takes ${b} s`],
    enabled: [b === 'on' ? 'is there from the start' : 'is not there from the start'],
    unlock: [c === 'on' ? 'unlocks' : 'doesn’t unlock', b],
  }[verb];
  return h('div.held.wide', { key: e.line },
    chip(a, open),
    told.map(x => /^(item|fluid|recipe):/.test(x) ? chip(x, open) : h('span', null, x)),
    h('span.grow'),
    !S.model.hasUndo && mark('×', 'Take the edit back', () => drop(e.line)),
  );
}
