// Elements that are drawn anew only where they changed.
//
// A view is a tree of plain objects, made by h(). draw() brings the elements of a parent to it: an element whose object
// is of the same tag and key stays, and only what differs of it is set. So what has the focus keeps it, half-typed text
// and scrolled lists stay, and a click that began before an answer came ends on the same element.

const SVG = new Set(['svg', 'g', 'path', 'rect', 'circle', 'text', 'image', 'title']);
const PROPERTIES = new Set([
  'value', 'checked', 'disabled', 'selected', 'spellcheck', 'tabIndex', 'type', 'title', 'placeholder', 'id', 'href',
  'src', 'alt', 'min', 'max', 'size', 'inputMode', 'autocomplete', 'download', 'multiple',
]);

/**
 * h('button.soft', {onclick, key}, ...children). A `key` tells it among its siblings.
 *
 * @param {string} tag
 * @param {Props | null} [props]
 * @param {...Child} children
 * @returns {View}
 */
export function h(tag, props, ...children) {
  const [name, ...classes] = tag.split('.');
  return {
    name: name || 'div',
    classes: classes.join(' '),
    props: props || {},
    key: props?.key,
    children: children.flat(9).filter(c => c !== null && c !== undefined && c !== false && c !== ''),
  };
}

/**
 * A part that is made anew only where its stamp differs.
 *
 * @type {(key: string, stamp: any, make: () => View) => View}
 */
export const memo = (key, stamp, make) => ({ memo: true, key, stamp, make });

/**
 * Brings the children of an element to what is given.
 *
 * @param {any} parent
 * @param {Child[]} children
 */
export function draw(parent, children) {
  if (!parent.$children) parent.replaceChildren();
  reconcile(parent, children.flat(9).filter(Boolean), parent.namespaceURI === 'http://www.w3.org/2000/svg');
}

/** @type {(c: Child) => View} */
const normal = c => typeof c === 'object' ? c : { text: String(c) };
/** @type {(v: View) => string} */
const sortOf = v => v.memo ? 'memo' : v.text !== undefined ? '#' : v.name;

/**
 * @param {any} parent
 * @param {Child[]} given
 * @param {boolean} svg
 */
function reconcile(parent, given, svg) {
  /** @type {View[]} */
  const before = parent.$children || [];
  /** @type {Map<any, View>} */
  const keyed = new Map();
  /** @type {View[]} */
  const loose = [];
  for (const v of before) v.key !== undefined ? keyed.set(v.key, v) : loose.push(v);
  const next = given.map(normal), used = new Set();
  let at = 0;
  const pairs = next.map(v => {
    let old = null;
    if (v.key !== undefined) {
      old = keyed.get(v.key);
    } else {
      while (at < loose.length && sortOf(loose[at]) !== sortOf(v)) at++;
      old = loose[at++];
    }
    if (!old || used.has(old) || sortOf(old) !== sortOf(v)) return [v, null];
    used.add(old);
    return [v, old];
  });
  for (const v of before) if (!used.has(v)) v.el.remove();
  const drawn = pairs.map(([v, old]) => old ? update(v, old, svg) : create(v, svg));
  parent.$children = drawn;
  drawn.forEach((v, i) => {
    if (parent.childNodes[i] !== v.el) parent.insertBefore(v.el, parent.childNodes[i] || null);
  });
}

/**
 * @param {View} v
 * @param {boolean} svg
 * @returns {View}
 */
function create(v, svg) {
  if (v.memo) {
    v.made = create(normal(v.make()), svg);
    v.el = v.made.el;
  } else if (v.text !== undefined) {
    v.el = document.createTextNode(v.text);
  } else {
    const inSvg = v.name === 'svg' || (svg && SVG.has(v.name));
    v.el = inSvg ? document.createElementNS('http://www.w3.org/2000/svg', v.name) : document.createElement(v.name);
    if (v.classes) v.el.setAttribute('class', v.classes);
    for (const [k, x] of Object.entries(v.props)) set(v.el, k, x, undefined, inSvg);
    reconcile(v.el, v.children, inSvg);
    v.props.drawn?.(v.el);
  }
  return v;
}

/**
 * @param {View} v
 * @param {View} old
 * @param {boolean} svg
 * @returns {View}
 */
function update(v, old, svg) {
  if (v.memo) {
    if (v.stamp === old.stamp) return old;
    const made = normal(v.make());
    v.made = sortOf(made) === sortOf(old.made) ? update(made, old.made, svg) : replace(made, old.made, svg);
    v.el = v.made.el;
    return v;
  }
  v.el = old.el;
  if (v.text !== undefined) {
    if (v.text !== old.text) v.el.data = v.text;
    return v;
  }
  const inSvg = v.name === 'svg' || (svg && SVG.has(v.name));
  if (v.classes !== old.classes) v.el.setAttribute('class', v.classes);
  for (const k of Object.keys(old.props)) if (!(k in v.props)) set(v.el, k, undefined, old.props[k], inSvg);
  for (const [k, x] of Object.entries(v.props)) if (x !== old.props[k]) set(v.el, k, x, old.props[k], inSvg);
  reconcile(v.el, v.children, inSvg);
  v.props.drawn?.(v.el);
  return v;
}

/**
 * @param {View} made
 * @param {View} old
 * @param {boolean} svg
 * @returns {View}
 */
function replace(made, old, svg) {
  create(made, svg);
  old.el.replaceWith(made.el);
  return made;
}

/**
 * @param {any} el
 * @param {string} k
 * @param {any} x
 * @param {any} before
 * @param {boolean} svg
 */
function set(el, k, x, before, svg) {
  if (k === 'key' || k === 'drawn') return;
  const none = x === undefined || x === null || x === false;
  if (k.startsWith('on')) {
    // (what it gives back would say whether the event goes on)
    el[k] = none ? null : /** @type {(e: Event) => void} */ e => void x(e);
  } else if (k === 'style') {
    for (const [p, value] of Object.entries(x || {})) {
      if (value !== before?.[p]) el.style.setProperty(p, value);
    }
  } else if (k === 'value') {
    // (what is half typed stays)
    if (!(document.activeElement === el && before !== undefined && el.value !== String(before))) {
      el.value = none ? '' : x;
    }
  } else if (!svg && PROPERTIES.has(k) && k in el) {
    if (none && typeof el[k] === 'string') {
      el.removeAttribute(k);
    } else {
      el[k] = none ? false : x;
    }
  } else if (none) {
    el.removeAttribute(k);
  } else {
    el.setAttribute(k, x === true ? 'true' : x);
  }
}
