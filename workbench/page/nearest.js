// Words that are spelt most like one.
import { kindOf, rawOf } from './game.js';

/**
 * Of some words those that are spelt most like one.
 *
 * @param {string} text
 * @param {string[]} all
 * @returns {string[]}
 */
export function nearest(text, all) {
  if (!text || text.length > 100) return [];
  const most = Math.max(2, Math.floor(rawOf(text).length / 3)), kind = kindOf(text);
  const near = all
    .filter(x => Math.abs(rawOf(x).length - rawOf(text).length) <= most)
    .map(/** @returns {[number, string]} */ x => [distance(rawOf(text), rawOf(x), most), x])
    .filter(([d]) => d <= most)
    .sort((a, b) => a[0] - b[0])
    .map(([, x]) => x);
  const same = near.filter(x => kindOf(x) === kind);
  return (same.length ? same : near).slice(0, 3);
}

/**
 * @param {string} a
 * @param {string} b
 * @param {number} most
 * @returns {number}
 */
function distance(a, b, most) {
  if (Math.abs(a.length - b.length) > most) return most + 1;
  let row = Array.from({ length: b.length + 1 }, (_, i) => i);
  for (let i = 1; i <= a.length; i++) {
    const next = [i];
    for (let j = 1; j <= b.length; j++) {
      next[j] = Math.min(row[j] + 1, next[j - 1] + 1, row[j - 1] + (a[i - 1] === b[j - 1] ? 0 : 1));
    }
    row = next;
    if (Math.min(...row) > most) return most + 1;
  }
  return row[b.length];
}
