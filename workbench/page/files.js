// The scripts of the folder, and what other tabs and editors do to them meanwhile.
import { answering, run, working } from './answers.js';
import { call, greet } from './calls.js';
import { keepHistory, settleHistory } from './changes.js';
import { modelOf } from './model.js';
import { typedAs } from './script.js';
import { keep, kept, S, show, tableShown } from './state.js';
import { toast } from './toast.js';

/**
 * Another tab or an editor saved first. Nothing is written until the player has chosen; both texts are there until
 * then, and mine in the history afterwards.
 *
 * @param {ScriptFile} theirs
 */
export function meet(theirs) {
  S.conflict = { theirs: theirs.script, version: theirs.version };
}

/**
 * Takes one of the two texts; the other stays in the history.
 *
 * @param {'mine' | 'theirs'} way
 */
export function settle(way) {
  const { theirs, version } = S.conflict, mine = S.script;
  S.conflict = null;
  S.version = version;
  S.past.push(way === 'mine' ? theirs : mine);
  S.script = way === 'mine' ? mine : theirs;
  if (way !== 'mine') S.saved = theirs;
  keepHistory();
  return run(way === 'mine');
}

/** Keeps my text as a script of its own, and goes on with theirs. */
export async function settleBeside() {
  const base = S.file.replace(/\.txt$/, '');
  let k = 1;
  const nameOfMine = () => `${base} (mine${k > 1 ? ' ' + k : ''}).txt`;
  while (S.files.includes(nameOfMine())) k++;
  await working(async () => {
    S.files = (await call('create', { file: nameOfMine(), script: S.script })).files;
    toast(`Your text is ${nameOfMine()} now.`);
    await settle('theirs');
  });
}

/**
 * What is half typed isn't the script yet, and is nobody's but the player's all the same.
 *
 * @returns {boolean}
 */
function isHalfTyped() {
  /** @type {HTMLTextAreaElement | null} */
  const area = document.querySelector('.editor textarea');
  return Boolean(area) && area.value !== typedAs(S.script);
}

/** Looks whether script and dump are still those that were read. */
export async function lookAround() {
  if (!S.version || answering() || S.conflict || S.alone || await greet() !== 200) return;
  const now = await call('version', { file: S.file }).catch(() => null);
  if (!now || answering() || S.conflict) return;
  if (now.version !== S.version) {
    const theirs = await call('read', { file: S.file });
    if (S.script !== S.saved || isHalfTyped()) {
      meet(theirs);
      return show();
    }
    S.past.push(S.script);
    Object.assign(S, { script: theirs.script, saved: theirs.script, version: theirs.version, files: theirs.files });
    keepHistory();
    toast('The script was changed elsewhere: here it is.');
    run(false);
  } else if (now.stamp !== S.stamp) {
    Object.assign(S, { stamp: now.stamp, ranksOf: null, catalogOf: null });
    toast('The dump is a new one: reading it.');
    run(false);
  }
}

/**
 * Opens a script of the folder.
 *
 * @type {(file: string) => Promise<void>}
 */
export const openFile = file => working(async () => {
  await answering();
  begin(await call('read', { file }));
  await run(S.script !== S.saved);
});
/**
 * A new script, with a text to begin with.
 *
 * @type {(name: string, text: string) => Promise<void>}
 */
export const newFile = (name, text) => working(async () => {
  const file = /\.txt$/.test(name) ? name : name + '.txt';
  await call('create', { file, script: text });
  await openFile(file);
});

/** What couldn't be saved when the page was left stands in it again; where the file is another by now, one chooses. */
function takeUnsaved() {
  const mine = kept('unsaved ' + S.file, null);
  if (!mine || mine.script === S.script) return;
  if (mine.version !== S.version) meet({ ...S, script: S.script });
  S.script = mine.script;
  keep('unsaved ' + S.file, null);
}

/**
 * Begins with a script that was read.
 *
 * @param {ScriptFile} it
 */
export function begin(it) {
  settleHistory();
  Object.assign(S, {
    file: it.file,
    files: it.files,
    script: it.script,
    saved: it.script,
    version: it.version,
    refused: new Map(),
    plans: new Map(),
    rates: new Map(),
    past: kept('past ' + it.file, []),
    future: kept('future ' + it.file, []),
    ranksOf: null,
    conflict: null,
  });
  takeUnsaved();
  S.model = modelOf(S.script);
  keep('file', S.file);
  if (!S.route || (S.route.startsWith('table:') && !tableShown())) {
    S.route = S.model.tables.size ? 'table:' + [...S.model.tables.keys()][0] : 'wish';
  }
}
