// Calls of the server, with the token that it printed.

const GONE = 'the workbench’s server doesn’t answer';
let token = '';
// Whether the server was lost: nothing is asked then until it has said who it is (greet).
let isLost = false;
/** @type {(status: number) => void} */
let tellLost = () => {};
/** @type {(status: number) => void} */
const lose = status => {
  isLost = true;
  tellLost(status);
};

/**
 * Says what is done where the server doesn't answer (0), or takes the token for another's (403).
 *
 * @param {(status: number) => void} how
 */
export function onLost(how) {
  tellLost = how;
}

/**
 * Takes the token from behind # of the address, where it is never sent, and keeps it for this tab. In its place a word
 * may stand there that is good for it once.
 */
export async function takeToken() {
  const given = location.hash.slice(1);
  if (given) history.replaceState(null, '', '/');
  if (given.startsWith('once-')) {
    token = (await call('enter', { word: given.slice(5) })).token;
  } else {
    token = given.length > 7 ? given : sessionStorage.getItem('token') || '';
  }
  // (what another folder's page left in this tab isn't ours)
  if (sessionStorage.getItem('token') !== token) sessionStorage.clear();
  sessionStorage.setItem('token', token);
}

/**
 * Where the server has the picture of a thing.
 *
 * @type {(kind: string, name: string) => string}
 */
export const picturePath = (kind, name) => `/picture/${token}/${kind}/${encodeURIComponent(name)}`;

// (the address of another server in the same tab changes only what is behind #)
window.addEventListener('hashchange', () => location.hash.length > 8 && location.reload());

/** @type {(bytes: ArrayBuffer | Uint8Array) => string} */
const hex = bytes => Array.from(new Uint8Array(bytes), b => b.toString(16).padStart(2, '0')).join('');

/**
 * Whether who answers at this address has the token. Nobody learns it by that: so it is asked before calls are made
 * again, for others may listen here meanwhile. 0 where nobody answers, 403 where it is another, 200 where it is ours.
 *
 * @returns {Promise<number>}
 */
export async function greet() {
  const question = hex(crypto.getRandomValues(new Uint8Array(16))), text = new TextEncoder();
  const how = { name: 'HMAC', hash: 'SHA-256' };
  const key = await crypto.subtle.importKey('raw', text.encode(token), how, false, ['sign']);
  const proof = hex(await crypto.subtle.sign('HMAC', key, text.encode(`${location.host} ${question}`)));
  const said = await fetch('/hello/' + question).then(r => r.text(), () => null);
  const status = said === null ? 0 : said === proof ? 200 : 403;
  isLost = false;
  if (status !== 200) lose(status);
  return status;
}

/**
 * The answer to a call; an error with its status where it is refused, 0 where nobody answers.
 *
 * @param {string} what
 * @param {object} [asked]
 * @returns {Promise<Answer>}
 */
export async function call(what, asked = {}) {
  const headers = { 'Content-Type': 'application/json', 'X-Workbench-Token': token };
  /** @type {(status: number, why: string) => Error} */
  const refused = (status, why) => {
    if (!isLost && (!status || status === 403)) lose(status);
    return Object.assign(new Error(why), { status });
  };
  let response, reply;
  if (isLost) throw refused(0, GONE);
  try {
    response = await fetch('/api/' + what, { method: 'POST', headers, body: JSON.stringify(asked) });
    reply = await response.json();
  } catch {
    throw refused(0, GONE);
  }
  if (!response.ok) throw refused(response.status, reply.error);
  return reply;
}

/**
 * Gives a text to the browser's downloads.
 *
 * @param {string} name
 * @param {string} text
 * @param {string} type
 */
export function download(name, text, type) {
  const link = document.createElement('a');
  link.href = URL.createObjectURL(new Blob([text], { type }));
  link.download = name;
  link.click();
  setTimeout(() => URL.revokeObjectURL(link.href), 10000);
}
