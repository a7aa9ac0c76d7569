// Where one is on the page: the tab, and what stands beside it.
import { run } from './answers.js';
import { keep, S, show, tableShown } from './state.js';

/**
 * Goes to a tab: `explore`, `what`, `wish`, or `table:` and the name of a table.
 *
 * @param {string} route
 */
export function go(route) {
  S.route = route;
  keep('route', route);
  const table = tableShown();
  document.querySelector('main')?.scrollTo(0, 0);
  show();
  if (table && S.plans.get(table.name)?.plan) S.rates = new Map();
  if (table) run(false);
}

/**
 * Opens the card of a thing.
 *
 * @param {Id} id
 */
export function open(id) {
  if (S.card && S.card !== id) S.cards.push(S.card);
  Object.assign(S, { card: id, side: 'card' });
  keep('card', id);
  keep('side', 'card');
  show();
  document.querySelector('aside')?.scrollTo(0, 0);
}

/**
 * Opens the card or the script beside the tab, or closes it.
 *
 * @param {string} what
 */
export function side(what) {
  S.side = S.side === what ? null : what;
  keep('side', S.side);
  show();
}
