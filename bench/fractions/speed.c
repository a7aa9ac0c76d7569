/* The same calls in C: __int128, Euclid's loop, and the checked products and sums of gcc. */
#include <stdint.h>
#include <stdio.h>
#include <stdlib.h>
#include <time.h>

typedef __int128 i128;
typedef unsigned __int128 u128;
typedef struct { i128 n; u128 d; } ratio;

enum { COUNT = 1001 };

static u128 gcd(u128 a, u128 b) {
    while (b) { u128 r = a % b; a = b; b = r; }
    return a;
}
static u128 size(i128 a) { return a < 0 ? -(u128)a : (u128)a; }
static const u128 LIMIT = (u128)1 << 127;

static int mul(ratio x, ratio y, ratio *out) {
    u128 l = gcd(size(x.n), y.d), r = gcd(size(y.n), x.d);
    i128 n;
    u128 d;
    if (__builtin_mul_overflow(x.n / (i128)l, y.n / (i128)r, &n) || size(n) >= LIMIT) return 0;
    if (__builtin_mul_overflow(x.d / r, y.d / l, &d) || d >= LIMIT) return 0;
    out->n = n;
    out->d = d;
    return 1;
}
static int add(ratio x, ratio y, ratio *out) {
    u128 g = gcd(x.d, y.d), l;
    i128 a, b, n;
    if (__builtin_mul_overflow(x.d, y.d / g, &l) || l >= LIMIT) return 0;
    if (__builtin_mul_overflow(x.n, (i128)(y.d / g), &a) || size(a) >= LIMIT) return 0;
    if (__builtin_mul_overflow(y.n, (i128)(x.d / g), &b) || size(b) >= LIMIT) return 0;
    if (__builtin_add_overflow(a, b, &n) || size(n) >= LIMIT) return 0;
    g = gcd(size(n), l);
    out->n = n / (i128)g;
    out->d = l / g;
    return 1;
}
static int sub(ratio x, ratio y, ratio *out) { y.n = -y.n; return add(x, y, out); }
static int sub_mul(ratio t, ratio u, ratio v, ratio *out) {
    ratio p;
    return mul(u, v, &p) && sub(t, p, out);
}
static int parts(u128 a, u128 b, u128 c, u128 d) {
    for (;;) {
        u128 q = a / b, r = c / d, s, t;
        if (q != r) return q < r ? -1 : 1;
        s = a % b;
        t = c % d;
        if (!s || !t) return s == t ? 0 : s < t ? -1 : 1;
        a = d; c = b; b = t; d = s;
    }
}
static int cmp(ratio x, ratio y) {
    i128 a, b;
    if (!__builtin_mul_overflow(x.n, (i128)y.d, &a) && !__builtin_mul_overflow(y.n, (i128)x.d, &b))
        return a < b ? -1 : a > b;
    if (x.n < 0) return y.n < 0 ? parts(size(y.n), y.d, size(x.n), x.d) : -1;
    return y.n < 0 ? 1 : parts(size(x.n), x.d, size(y.n), y.d);
}

static uint64_t next(uint64_t s) { return s * 6364136223846793005u + 1442695040888963407u; }
static int64_t part(uint64_t s, int bits) { return (int64_t)((s >> 4) % ((uint64_t)1 << bits)) + 1; }
static ratio fraction(uint64_t s, int bits) {
    i128 n = part(next(s), bits);
    u128 d = part(next(next(s)), bits), g = gcd(n, d);
    ratio r = { s % 3 ? n / (i128)g : -(n / (i128)g), d / g };
    return r;
}
static ratio all[COUNT];
static double now(void) {
    struct timespec t;
    clock_gettime(CLOCK_MONOTONIC, &t);
    return t.tv_sec * 1e9 + t.tv_nsec;
}
static void print(i128 v) {
    char text[50], *p = text + 49;
    u128 s = size(v);
    *p = 0;
    do { *--p = '0' + (int)(s % 10); s /= 10; } while (s);
    if (v < 0) *--p = '-';
    puts(p);
}
#define TIME(NAME, FIRST, CALL) do { \
    u128 sum = 0; \
    double start = now(); \
    for (int k = 0; k < times; k++) for (int i = FIRST; i < COUNT; i++) { CALL; } \
    printf("%s %d %d ", NAME, bits, (int)((now() - start) * 10 / (times * 1000.0))); \
    print((i128)sum); \
} while (0)
#define TAKE(E) ratio r; if (E) sum += (u128)r.n + r.d; else sum += 1

int main(void) {
    int sizes[] = { 20, 40, 60, 100 };
    for (int j = 0; j < 4; j++) {
        int bits = sizes[j], times = bits == 100 ? 300 : 1000;
        uint64_t seed = 42;
        for (int i = 0; i < COUNT; i++) {
            seed = next(next(next(seed)));
            if (bits <= 60) all[i] = fraction(seed, bits);
            else if (!mul(fraction(seed, 50), fraction(next(seed), 50), &all[i])) all[i] = (ratio){ 1, 1 };
        }
        TIME("mul", 1, TAKE(mul(all[i - 1], all[i], &r)));
        TIME("add", 1, TAKE(add(all[i - 1], all[i], &r)));
        TIME("sub", 1, TAKE(sub(all[i - 1], all[i], &r)));
        TIME("sub_mul", 2, TAKE(sub_mul(all[i - 2], all[i - 1], all[i], &r)));
        TIME("cmp", 0, if (cmp(all[i], all[(i + k) % COUNT]) < 0) sum += i);
    }
    return 0;
}
