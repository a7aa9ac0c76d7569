// Exact fractions as the programs print them, and the decimals that are shown of them: the page's own reckoning, and
// all of it.

/** A fraction in lowest terms. */
export class Frac {
  /**
   * @param {bigint} n
   * @param {bigint} [d]
   */
  constructor(n, d = 1n) {
    this.n = n;
    this.d = d;
  }

  /**
   * A fraction of a text as a script has it: `n`, `n/d`, or a decimal, of which 15 digits and 15 places count, halves
   * away from 0.
   *
   * @param {string} text
   * @returns {Frac | null}
   */
  static of(text) {
    const whole = /^(-?\d+)\/(\d+)$/.exec(text);
    if (whole) return BigInt(whole[2]) ? Frac.low(BigInt(whole[1]), BigInt(whole[2])) : null;
    const found = /^(-?)(\d*)(?:\.(\d*))?(?:[eE]([+-]?\d{1,3}))?$/.exec(text.trim());
    if (!found || !(found[2] || found[3]) || text.length > 400) return null;
    const digits = ((found[2] || '') + (found[3] || '')).replace(/^0+(?=.)/, '');
    let places = (found[3] || '').length - (Number(found[4]) || 0), n = BigInt(digits);
    const drop = Math.max(digits.length - 15, places - 15, 0);
    if (drop) {
      const k = 10n ** BigInt(drop);
      n = (n + k / 2n) / k;
      places -= drop;
    }
    if (found[1]) n = -n;
    return places > 0 ? Frac.low(n, 10n ** BigInt(places)) : new Frac(n * 10n ** BigInt(-places));
  }

  /**
   * A fraction in lowest terms of two numbers, of which the lower one is above 0.
   *
   * @param {bigint} n
   * @param {bigint} d
   * @returns {Frac}
   */
  static low(n, d) {
    let a = n < 0n ? -n : n, b = d;
    while (b) [a, b] = [b, a % b];
    return a ? new Frac(n / a, d / a) : new Frac(0n);
  }

  /**
   * @param {Frac | number} k
   * @returns {Frac}
   */
  times(k) {
    return k instanceof Frac ? Frac.low(this.n * k.n, this.d * k.d) : Frac.low(this.n * BigInt(k), this.d);
  }

  /**
   * @param {Frac | number} k
   * @returns {Frac}
   */
  over(k) {
    return k instanceof Frac ? Frac.low(this.n * k.d, this.d * k.n) : Frac.low(this.n, this.d * BigInt(k));
  }

  /**
   * @param {Frac} x
   * @returns {Frac}
   */
  plus(x) {
    return Frac.low(this.n * x.d + x.n * this.d, this.d * x.d);
  }

  get isZero() {
    return this.n === 0n;
  }

  get number() {
    return this.d === 1n
      ? Number(this.n)
      : Number(this.n * 1000000000n / this.d) / 1e9 || Number(this.n) / Number(this.d);
  }

  toString() {
    return this.d === 1n ? `${this.n}` : `${this.n}/${this.d}`;
  }

  /**
   * Rounded to so many places, halves up, without zeros behind.
   *
   * @param {number} places
   * @returns {string}
   */
  fixed(places) {
    const negative = this.n < 0n;
    const k = 10n ** BigInt(places);
    const size = ((negative ? -this.n : this.n) * k * 2n + this.d) / (this.d * 2n);
    const whole = `${size / k}`.replace(/\B(?=(\d{3})+$)/g, '\u2009');
    const part = `${size % k}`.padStart(places, '0').replace(/0+$/, '');
    return (negative && size ? '−' : '') + whole + (part && places ? '.' + part : '');
  }

  /** With four digits that count. */
  get text() {
    const size = Math.abs(this.number);
    if (size >= 1000) return this.fixed(0);
    if (size >= 100) return this.fixed(1);
    if (size >= 10) return this.fixed(2);
    return size >= 0.1 || !size ? this.fixed(3) : this.fixed(Math.min(12, 3 - Math.floor(Math.log10(size))));
  }
}

export const ZERO = new Frac(0n);
/**
 * The sum of fractions; null where one is unknown.
 *
 * @type {(all: Figure[]) => Figure}
 */
export const sum = all => all.reduce((a, b) => a && b ? a.plus(b) : null, ZERO);
