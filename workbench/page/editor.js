// The script beside the plan: a text that is edited freely, with what is refused marked at its line, and what would
// mend it.
import { become } from './changes.js';
import { curesOfLine } from './cures.js';
import { h } from './dom.js';
import { savePage } from './exports.js';
import { newFile, openFile } from './files.js';
import { icon, plain } from './look.js';
import { tellBeside } from './numbers.js';
import { field, form } from './pick.js';
import { side } from './routes.js';
import { linesOf, typedAs } from './script.js';
import { S, show } from './state.js';
import { toast } from './toast.js';

// milliseconds without a key before what is typed counts
const WAIT = 350;
const MOST_MARKS = 5000, MOST_TOLD = 30, LINE = 19;
/** @type {number | null} */
let typing = null;

/** Ends the waiting: what is typed counts now. */
export function settleTyping() {
  /** @type {HTMLTextAreaElement | null} */
  const area = document.querySelector('.editor textarea');
  clearTimeout(typing);
  typing = null;
  if (area && area.value !== typedAs(S.script)) {
    become(S.script.includes('\r\n') ? area.value.replace(/\n/g, '\r\n') : area.value);
  }
}

/**
 * Whether something is typed that doesn't count yet.
 *
 * @type {() => boolean}
 */
export const isTyping = () => typing !== null;

/**
 * The script as a text that is edited, with its files and what is refused.
 *
 * @returns {View}
 */
export function scriptView() {
  const refused = [...S.refused];
  return h('div.script', { key: 'script' },
    h('div.cardhead', null,
      files(),
      h('small.dim', null, `${linesOf(S.script).length} lines`),
      refused.length > 0 && h('small.bad', null, `✗ ${refused.length} refused`),
      h('span.grow'),
      h(
        'button.quiet',
        { type: 'button', title: 'All plans of the script as one file of HTML, to keep or to send', onclick: savePage },
        'Save as page',
      ),
      h(
        'button.tool',
        { type: 'button', title: 'Close (e)', 'aria-label': 'Close the script', onclick: () => side('script') },
        '×',
      ),
    ),
    editor(),
    refused.length > 0 && h('div.problems', { role: 'region', 'aria-label': 'Refused lines', tabindex: '0' },
      refused.slice(0, MOST_TOLD).map(([n]) => problem(n)),
    ),
  );
}

/**
 * @param {LineNumber} n
 * @returns {View}
 */
function problem(n) {
  const { line: at, why, cures } = curesOfLine(n);
  return h('div.problem', { key: n },
    h('button.link', { type: 'button', title: 'Go there', onclick: () => goTo(at) }, `Line ${at}`),
    h('span.why', null, why),
    h('span.tips', null,
      cures.map(c => h('button.tip', { type: 'button', key: c.text, onclick: c.act }, c.id ? icon(c.id) : '', c.text)),
    ),
  );
}

/** @param {LineNumber} n */
function goTo(n) {
  /** @type {HTMLTextAreaElement | null} */
  const area = document.querySelector('.editor textarea');
  const before = linesOf(S.script).slice(0, n - 1).join('\n').length + (n > 1 ? 1 : 0);
  area.focus();
  area.setSelectionRange(before, before);
  area.scrollTop = (n - 6) * LINE;
}

// The scripts of the folder.
function files() {
  /** @type {(e: UiEvent) => void} */
  const make = e => form(e.currentTarget, 'A new script', leave => {
    const it = { name: '', copy: false };
    const finish = async () => {
      try {
        await newFile(it.name.trim(), it.copy ? S.script : '');
        leave();
      } catch (fault) {
        tellBeside(document.querySelector('[data-key="new name"]'), `✗ ${fault.message}`);
      }
    };
    return [
      h('h3', null, 'A new script'),
      field('Name', {
        type: 'text',
        'data-key': 'new name',
        maxLength: 90,
        oninput: x => {
          it.name = x.target.value;
        },
      }),
      field('A copy of this one', {
        type: 'checkbox',
        onchange: x => {
          it.copy = x.target.checked;
        },
      }),
      h('div.acts', null, h('button.main', { type: 'button', onclick: finish }, 'Make it')),
    ];
  });
  return [
    h(
      'select.files',
      {
        key: 'files',
        'aria-label': 'The script of the folder',
        'data-key': 'files',
        onchange: e => {
          settleTyping();
          openFile(e.target.value).catch(fault => toast(fault.message, { bad: true }));
        },
      },
      S.files.map(name => h('option', { key: name, value: name, selected: name === S.file }, plain(name))),
    ),
    h(
      'button.quiet',
      {
        type: 'button',
        key: 'new',
        'data-key': 'new',
        title: 'A new script in this folder',
        'aria-label': 'A new script',
        onclick: make,
      },
      '+',
    ),
  ];
}

function editor() {
  /** @type {(e: UiEvent) => void} */
  const onscroll = e => {
    for (const it of e.target.parentNode.querySelectorAll('.marks, .gutter')) it.scrollTop = e.target.scrollTop;
    e.target.parentNode.querySelector('.marks').scrollLeft = e.target.scrollLeft;
  };
  const oninput = () => {
    clearTimeout(typing);
    typing = setTimeout(settleTyping, WAIT);
    show();
  };
  /** @type {HTMLTextAreaElement | null} */
  const area = document.querySelector('.editor textarea');
  const text = typing !== null && area ? area.value : S.script;
  const all = text.split('\n').slice(0, MOST_MARKS);
  const old = linesOf(S.script);
  /**
   * (a mark stands only at a line that is still the one that was refused)
   *
   * @type {(l: string, i: number) => string | null}
   */
  const told = (l, i) => {
    const words = S.refused.get(i + 1);
    return words && old[i] === l ? curesOfLine(i + 1).why : null;
  };
  const marks = all.map(told);
  return h('div.editor', null,
    h('div.gutter', { 'aria-hidden': 'true' },
      all.map((_, i) => h('div' + (marks[i] ? '.bad' : ''), null, marks[i] ? '✗ ' : '', i + 1)),
    ),
    h('div.marks', { 'aria-hidden': 'true' },
      all.map((l, i) => h('div' + (marks[i] ? '.bad' : ''), null,
        marks[i] ? [h('span', null, plain(l, 500)), h('b', null, marks[i])] : '',
      )),
    ),
    h('textarea', {
      spellcheck: false,
      'aria-label': `The script ${plain(S.file)}`,
      'aria-invalid': String(S.refused.size > 0),
      'data-key': 'script',
      wrap: 'off',
      onscroll,
      oninput,
      onblur: settleTyping,
      drawn: /** @param {HTMLTextAreaElement} it */ it => {
        if (typing === null && it.value !== typedAs(S.script)) it.value = S.script;
      },
    }),
  );
}
