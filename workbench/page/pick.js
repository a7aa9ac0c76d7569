// The list that opens under a button to pick one of many, small forms, and numbers that are edited where they stand.
import { draw, h } from './dom.js';
import { Frac } from './exact.js';
import { found, icon, look, nameOf, plain } from './look.js';
import { hear, tellBeside, typedOf } from './numbers.js';

const MOST_SHOWN = 80;
let close = () => {};
/**
 * Whether a list or a form is open.
 *
 * @type {() => boolean}
 */
export const isPicking = () => Boolean(document.querySelector('.picker'));

/** @type {(css: string, where?: ParentNode) => HTMLElement[]} */
const elements = (css, where = document) => Array.from(where.querySelectorAll(css));

/**
 * A box under a button that closes when one goes elsewhere; the focus goes back to the button, or to what stands in its
 * place by then.
 *
 * @param {HTMLElement} anchor
 * @param {string} label
 * @param {string} tag
 * @returns {Box}
 */
function under(anchor, label, tag) {
  close();
  const box = document.createElement('div');
  const again = anchor.dataset.key;
  /** @type {(e: UiEvent) => void} */
  const shield = e => {
    if (!box.contains(e.target)) close();
  };
  box.className = tag;
  box.setAttribute('role', 'dialog');
  box.setAttribute('aria-label', label);
  document.body.append(box);
  const leave = () => {
    if (!box.isConnected) return;
    box.remove();
    document.removeEventListener('pointerdown', shield, true);
    close = () => {};
    const back = anchor.isConnected
      ? anchor
      : again && elements('[data-key]').find(e => e.dataset.key === again);
    back?.focus({ preventScroll: true });
  };
  close = leave;
  setTimeout(() => box.isConnected && document.addEventListener('pointerdown', shield, true));
  const place = () => {
    const r = anchor.getBoundingClientRect(), wide = box.offsetWidth, high = box.offsetHeight;
    const over = r.bottom + high + 8 > innerHeight && r.top > high + 8;
    box.style.left = Math.max(8, Math.min(r.left, innerWidth - wide - 8)) + 'px';
    box.style.top = (over ? r.top - high - 4 : Math.max(8, Math.min(r.bottom + 4, innerHeight - high - 8))) + 'px';
  };
  return { box, leave, place };
}

/**
 * Picks one of many by mouse, arrows or letters. Options are ids, or {id, text, note}; `none` names a first entry that
 * picks null.
 *
 * @param {HTMLElement} anchor
 * @param {Picking} picking
 */
export function pick(anchor, { options, current, none, hint = 'Type to search', done }) {
  const { box, leave, place } = under(anchor, hint, 'picker');
  const all = options.map(o => typeof o === 'string' ? { id: o } : o), byId = new Map(all.map(o => [o.id, o]));
  let query = '', at = -1;
  /** @type {Option[]} */
  let shown = [];
  /** @type {(o: Option) => void} */
  const choose = o => {
    leave();
    done(o.id);
  };
  const filter = () => {
    shown = found([...byId.keys()], query, MOST_SHOWN).map(id => byId.get(id));
    if (none && !query) shown.unshift({ id: null, text: none });
  };
  /** @type {(o: Option, i: number) => View} */
  const option = (o, i) => h(
    'div.option' + (i === at ? '.at' : ''),
    {
      key: `${o.id}`,
      id: 'option-' + i,
      role: 'option',
      'aria-selected': String(i === at),
      title: o.id ? plain(o.id, 200) : '',
      onclick: () => choose(o),
      onmousemove: () => {
        if (at !== i) {
          at = i;
          paint();
        }
      },
    },
    o.id ? icon(o.id) : h('span.icon', { 'aria-hidden': 'true' }),
    h('span.name', null, o.text || nameOf(o.id)),
    o.note && h('small', null, o.note),
    o.id === current && current && h('small.now', null, '✓ now'),
  );
  const field = () => h('input.find', {
    type: 'search',
    role: 'combobox',
    'aria-expanded': 'true',
    'aria-controls': 'options',
    'aria-autocomplete': 'list',
    'aria-label': hint,
    placeholder: hint,
    autocomplete: 'off',
    spellcheck: false,
    'aria-activedescendant': at < 0 ? null : 'option-' + at,
    oninput: e => {
      query = e.target.value;
      at = 0;
      filter();
      paint();
    },
  });
  const paint = () => {
    draw(box, [
      field(),
      h('div.options', { role: 'listbox', id: 'options', 'aria-label': hint }, shown.map(option)),
      !shown.length && h('div.hint', null, 'Nothing of that name'),
    ]);
    box.querySelector('.option.at')?.scrollIntoView({ block: 'nearest' });
  };
  box.onkeydown = e => {
    const step = { ArrowDown: 1, ArrowUp: -1, PageDown: 8, PageUp: -8 }[e.key];
    if (step) {
      at = Math.max(0, Math.min(shown.length - 1, at + step));
      paint();
    } else if (e.key === 'Enter') {
      if (shown[at]) choose(shown[at]);
    } else if (e.key === 'Escape' || e.key === 'Tab') {
      leave();
    } else {
      return;
    }
    e.preventDefault();
    e.stopPropagation();
  };
  filter();
  at = Math.max(0, shown.findIndex(o => o.id === current));
  paint();
  place();
  elements('.find', box)[0].focus();
}

/**
 * A small form under a button. `fill` is told how to close it and how to draw it again, and gives what stands in it.
 *
 * @param {HTMLElement} anchor
 * @param {string} label
 * @param {(leave: () => void, paint: () => void) => Child[]} fill
 */
export function form(anchor, label, fill) {
  const { box, leave, place } = under(anchor, label, 'picker form');
  const paint = () => draw(box, fill(leave, paint));
  box.onkeydown = e => {
    if (e.key === 'Escape') {
      leave();
    } else if (e.key === 'Tab') {
      const all = elements('input,select,button', box);
      const i = all.findIndex(e => e === document.activeElement);
      const next = all[(i + (e.shiftKey ? all.length - 1 : 1)) % all.length];
      next?.focus();
    } else {
      return;
    }
    e.preventDefault();
    e.stopPropagation();
  };
  paint();
  place();
  elements('input,select,button', box)[0]?.focus();
}

/**
 * A named field of a form.
 *
 * @type {(text: string, props: Props) => View}
 */
export const field = (text, props) => h('label', null, h('span', null, text), h('input', { ...props }));
/**
 * A named choice of a form.
 *
 * @type {(text: string, options: Id[], value: Id, onchange: (id: Id) => any) => View}
 */
export const choose = (text, options, value, onchange) => h('label', null,
  h('span', null, text),
  h('select', { onchange: e => onchange(e.target.value) },
    options.map(id => h('option', { value: id, selected: id === value }, nameOf(id))),
  ),
);

/**
 * A number that is edited where it stands; `done` is told the fraction.
 *
 * @param {string} text
 * @param {Editing} editing
 * @returns {View}
 */
export function edit(text, { label, done, key, wide = false, sort = 'number' }) {
  const exact = Frac.of(text), shown = exact ? typedOf(exact, sort) : text;
  /** @type {(e: UiEvent) => void} */
  const finish = e => {
    const it = e.target, { x, said } = hear(it.value, sort);
    it.setAttribute('aria-invalid', String(!x));
    tellBeside(it, x ? '' : said);
    if (x && it.value !== shown) done(x);
  };
  return h('input.edit' + (wide ? '.broad' : '') + (text === '0' ? '.zero' : ''), {
    key,
    value: shown,
    title: exact ? `exactly ${sort === 'rate' ? exact.times(look.per) : exact}` : '',
    style: { '--letters': shown.length },
    inputMode: 'text',
    'aria-label': label,
    'aria-describedby': 'heard',
    'data-key': key,
    autocomplete: 'off',
    onchange: finish,
    oninput: e => {
      e.target.style.setProperty('--letters', e.target.value.length);
      tellBeside(e.target, e.target.value === shown ? '' : hear(e.target.value, sort).said);
    },
    onfocus: e => e.target.select(),
    onkeydown: e => {
      if (e.key === 'Enter') e.target.blur();
      if (e.key === 'Escape') {
        e.target.value = shown;
        tellBeside(e.target, '');
        e.target.blur();
      }
    },
  });
}

/**
 * A field of a whole number in a form or a wish, which is told what was typed; beside it stands what was understood.
 *
 * @param {Props} props
 * @param {Bounds} bounds
 * @param {boolean} [mayBeEmpty]
 * @returns {View}
 */
export const whole = (props, bounds, mayBeEmpty = false) => h('input.edit', {
  ...props,
  inputMode: 'numeric',
  autocomplete: 'off',
  'aria-describedby': 'heard',
  oninput: e => {
    const { value } = e.target, { x, said } = value || !mayBeEmpty ? hear(value, 'whole', bounds) : EMPTY;
    e.target.setAttribute('aria-invalid', String(!x && said !== ''));
    tellBeside(e.target, x && `${x}` === value ? '' : said);
    props.oninput(e);
  },
});
/** @type {Heard} */
const EMPTY = { x: null, unit: '', said: '' };
