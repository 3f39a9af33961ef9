/*
 * How little time the checks of a fill take in C, where nothing is proved: tables in static memory that nobody zeroes, indices
 * that nobody checks, and checks 3 to 6 in one pass over the records. docs/SPEED.md says what the figures are for.
 *
 *     (cd crates/library && rt lib)
 *     mkdir -p target
 *     cc -O3 -I include compare/trial/checks.c crates/library/out/liblibrary.a -lm -o target/checks
 *     target/checks SHEET...
 *
 * For each sheet: nanoseconds of the checks here, and of a fill of no samples by the port, which makes the same checks and tables.
 * What is left out makes it faster: check 7, which no sheet of 16 records can fail, and the order of checks 3 to 6 for a sheet
 * with several faults. The needs are held to the port's.
 */
#include "player.h"

#include <stdio.h>
#include <stdlib.h>
#include <string.h>
#include <time.h>

/* How many options a kind has, how many numbers it uses, what its chain holds, what it is: as crates/sheet/src/kinds.rt. */
#define ROW(options, numbers, chain, class) ((options) | (numbers) << 8 | (chain) << 16 | (class) << 24)
static const unsigned KINDS[53] = {
    [1] = ROW(1, 0, 1, 3), /* Sine */
    [2] = ROW(1, 0, 2, 3), /* Square */
    [3] = ROW(1, 0, 1, 3), /* Sawtooth */
    [4] = ROW(1, 0, 1, 3), /* Triangle */
    [5] = ROW(1, 1, 2, 3), /* Fm */
    [6] = ROW(2, 2, 1, 3), /* Super */
    [7] = ROW(1, 2, 0, 3), /* Impact */
    [8] = ROW(1, 5, 0, 3), /* Env */
    [9] = ROW(3, 0, 0, 3), /* Noise */
    [10] = ROW(1, 2, 0, 3), /* Dust */
    [11] = ROW(1, 0, 3, 3), /* Mix */
    [12] = ROW(1, 0, 3, 3), /* Mul */
    [13] = ROW(1, 0, 3, 3), /* Chain */
    [21] = ROW(1, 0, 1, 3), /* Gain */
    [22] = ROW(1, 1, 1, 3), /* Lowpass */
    [23] = ROW(1, 1, 1, 3), /* Highpass */
    [24] = ROW(1, 1, 1, 3), /* Bandpass */
    [25] = ROW(1, 1, 1, 3), /* Notch */
    [26] = ROW(1, 2, 1, 3), /* Peak */
    [27] = ROW(1, 1, 1, 3), /* Lowshelf */
    [28] = ROW(1, 1, 1, 3), /* Highshelf */
    [29] = ROW(1, 2, 0, 3), /* Delay */
    [30] = ROW(1, 2, 0, 3), /* Reverb */
    [31] = ROW(1, 1, 4, 3), /* Modal */
    [32] = ROW(6, 0, 1, 3), /* Drive */
    [33] = ROW(1, 2, 0, 3), /* Tremolo */
    [34] = ROW(1, 3, 0, 3), /* Chorus */
    [35] = ROW(1, 5, 0, 3), /* Compress */
    [41] = ROW(1, 1, 0, 2), /* Const */
    [42] = ROW(2, 3, 0, 2), /* Slide */
    [43] = ROW(4, 3, 0, 2), /* Lfo */
    [44] = ROW(1, 1, 5, 2), /* Arp */
    [45] = ROW(1, 7, 0, 2), /* EnvMod */
    [46] = ROW(1, 5, 0, 2), /* Rand */
    [51] = ROW(1, 3, 0, 4), /* Mode */
    [52] = ROW(1, 1, 0, 5), /* Step */
};

enum { MIX = 11, MUL = 12, CHAIN = 13 };

struct record {
    uint8_t kind, first, next, role, begin, after, last, from;
    unsigned cell, word, block;
};

struct plan {
    struct record r[257];
    uint64_t cells, registers, scratch;
};

static uint64_t word(const uint8_t *p) { uint64_t x; memcpy(&x, p, 8); return x; }
static unsigned half(const uint8_t *p) { unsigned x; memcpy(&x, p, 4); return x; }
static float number(const uint8_t *p) { float x; memcpy(&x, p, 4); return x; }
static int is_processor(uint8_t k) { return (uint8_t)(k - 21) <= 14; }

/* 1, 2, then 3 to 6 and the owners, then whether only processors follow, then roles, places, 8 and 9. */
__attribute__((noinline)) static int check(const uint8_t *s, size_t length, const struct player_needed *lent,
                                           const float *cells, const uint64_t *regs, uint64_t position, struct plan *p)
{
    if (length < 24) return 1;
    unsigned n = s[0] | s[1] << 8, rate = half(s + 4);
    if (length != 24 + 40ull * n || n < 1 || n > 256) return 1;
    if (rate < 8000 || rate > 192000 || s[2] | s[3]) return 2;

    struct record *r = p->r;
    uint8_t wanted[256], place[256], count[256], owner[256]; /* 255: a chain of any length */
    uint64_t linked[4] = {1, 0, 0, 0}, twice = 0;
    unsigned links = 0;
    wanted[0] = 3; place[0] = 1; count[0] = 255; owner[0] = 0;
    const uint8_t *q = s + 24;
    for (unsigned i = 0; i < n; i++, q += 40) {
        uint64_t w = word(q);
        unsigned k = w & 255;
        if (k > 52) return 3;
        unsigned t = KINDS[k], used = t >> 8 & 255, chain = t >> 16 & 255;
        if ((w >> 8 & 255) >= (t & 255) || w >> 48) return 3;
        if (used < 7) {
            unsigned a = used + 2 < 6 ? used + 2 : 6, b = used + 4 < 6 ? used + 4 : 6;
            if (word(q + 8 + 4 * used) | word(q + 8 + 4 * a) | word(q + 8 + 4 * b) | word(q + 32)) return 3;
        } else if (used < 8 && half(q + 36)) return 3;
        unsigned f = w >> 16 & 0xffff, x = w >> 32 & 0xffff;
        if ((f && f <= i) | (f >= n) | (x && x <= i) | (x >= n) | (!i && x)) return 4;
        if (f) { uint64_t b = 1ull << (f & 63); twice |= linked[f >> 6] & b; linked[f >> 6] |= b; links++; }
        if (x) { uint64_t b = 1ull << (x & 63); twice |= linked[x >> 6] & b; linked[x >> 6] |= b; links++; }
        if (t >> 24 != wanted[i] || (!x && count[i] != 255 && place[i] != count[i]) || (!f && chain && chain < 3)) return 6;
        wanted[f] = chain < 2 ? 2 : chain; count[f] = chain > 2 ? 255 : chain; place[f] = 1; owner[f] = i;
        wanted[x] = wanted[i]; count[x] = count[i]; place[x] = place[i] + 1; owner[x] = owner[i];
        r[i].kind = k; r[i].first = f; r[i].next = x;
    }
    if (twice || links != n - 1) return 5;

    for (unsigned j = n; j-- > 0;) {
        unsigned x = r[j].next;
        r[j].last = x == 0 || (is_processor(r[x].kind) && r[x].last);
        r[j].from = r[j].last ? j : r[x].from;
    }

    unsigned c = 0, g = 0, z = 0;
    q = s + 24;
    for (unsigned i = 0; i < n; i++, q += 40) {
        struct record *e = &r[i], *o = &r[owner[i]];
        unsigned l = 0;
        if (i == 0) e->role = is_processor(e->kind) ? 1 : 2;
        else if (o->role < 2) e->role = 0;
        else if (o->kind == MIX || o->kind == MUL) e->role = is_processor(e->kind) ? 1 : 2;
        else e->role = o->kind != CHAIN || e->last ? 2 : 0;
        e->begin = e->role < 2 ? 0 : e->kind == CHAIN ? r[e->first].from : e->first;
        e->after = e->role ? e->next : 0;
        e->cell = c; e->word = g; e->block = z;
        if (e->role < 2) continue;
        switch (e->kind) {
        case 1: case 2: case 3: c += 1; break;
        case 4: case 5: c += 2; break;
        case 6: l = half(q + 8); c += 2 * (l < 1 ? 1 : l > 16 ? 16 : l); break;
        case 9: c += q[1] == 0 ? 0 : q[1] == 1 ? 7 : 1; g += 1; break;
        case 10: c += 1; g += 1; break;
        case MIX: case MUL: z += 256; break;
        case 22: case 23: case 24: case 25: case 26: case 27: case 28: c += 11; break;
        case 29: {
            float d = number(q + 8) < 30 ? number(q + 8) : 30;
            l = d * rate >= 1 ? (unsigned)(d * rate) : 1;
            if (g >= lent->registers) return 8;
            if (regs[g] >= l) return 9;
            c += l; g += 1;
            break;
        }
        case 30: {
            static const float tuned[10] = {1116, 1188, 1277, 1356, 1422, 1491, 556, 441, 341, 225};
            float scale = (float)rate / 44100.0f;
            if (g + 10 > lent->registers) return 8;
            for (int k = 0; k < 10; k++) {
                l = tuned[k] * scale >= 1 ? (unsigned)(tuned[k] * scale) : 1;
                if (regs[g + k] >= l) return 9;
                c += l;
            }
            c += 6; g += 10;
            break;
        }
        case 31:
            for (unsigned j = e->first; j; j = r[j].next) c += 5;
            break;
        case 32: case 35: c += 4; break;
        case 34: {
            float d = number(q + 12) < 0 ? 0 : number(q + 12) > 1 ? 1 : number(q + 12);
            l = (unsigned)(0.015f * rate + d * 0.010f * rate) + 2;
            if (g >= lent->registers) return 8;
            if (regs[g] >= l) return 9;
            c += l; g += 1;
            break;
        }
        case 46:
            if (c + 3 > lent->cells) return 8;
            if (!(cells[c + 2] >= 0 && cells[c + 2] < 1)) return 9;
            c += 3; g += 1;
            break;
        }
    }
    r[n].cell = c; r[n].word = g; r[n].block = z;
    p->cells = c; p->registers = g; p->scratch = z;
    if (c > lent->cells || g > lent->registers || z > lent->scratch) return 8;
    return position > 1ull << 62 ? 9 : 0;
}

static double now(void)
{
    struct timespec t;
    clock_gettime(CLOCK_MONOTONIC, &t);
    return t.tv_sec * 1e9 + t.tv_nsec;
}

enum { PASSES = 40, CALLS = 50000 };

static int time_sheet(const char *path)
{
    static uint8_t s[24 + 40 * 256];
    static struct plan p;
    FILE *f = fopen(path, "rb");
    if (!f) return 1;
    size_t length = fread(s, 1, sizeof s, f);
    fclose(f);
    struct player_needed d = player_needs(s, length);
    float *cells = calloc(d.cells + 1, 4), *scratch = calloc(d.scratch + 1, 4), out[1];
    uint64_t *regs = calloc(d.registers + 1, 8);
    struct player_controls fresh = {0, 1, 1, 1, 1};
    struct player_answered a = player_build(s, length, fresh, cells, d.cells, regs, d.registers, scratch, d.scratch);
    double here = 1e18, port = 1e18;
    int answers = a.answer;
    for (int pass = 0; pass < PASSES; pass++) {
        double t = now();
        for (int i = 0; i < CALLS; i++) {
            answers |= check(s, length, &d, cells, regs, i, &p);
            __asm__ volatile("" ::"r"(&p) : "memory");
        }
        t = (now() - t) / CALLS;
        if (t < here) here = t;
        t = now();
        for (int i = 0; i < CALLS; i++) {
            a = player_fill(s, length, a.controls, out, 0, cells, d.cells, regs, d.registers, scratch, d.scratch);
            answers |= a.answer;
        }
        t = (now() - t) / CALLS;
        if (t < port) port = t;
    }
    int same = !answers && p.cells == d.cells && p.registers == d.registers && p.scratch == d.scratch;
    printf("%-36s here %5.1f  port %5.1f  %s\n", path, here, port, same ? "same needs" : "NOT THE SAME");
    free(cells); free(scratch); free(regs);
    return !same;
}

int main(int argc, char **argv)
{
    int bad = 0;
    for (int i = 1; i < argc; i++) bad |= time_sheet(argv[i]);
    return bad;
}
