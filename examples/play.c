/*
 * Plays a voice for four seconds, with moves between fills of 64, 7 and 300 samples, and writes a WAV file.
 *
 *     (cd crates/library && rt lib)
 *     mkdir -p target
 *     cc -O2 -I include examples/play.c crates/library/out/liblibrary.a -lm -o target/play_c
 *     target/play_c examples/supersaw_pad.sheet > pad.wav
 */
#include "player.h"

#include <math.h>
#include <stdio.h>
#include <stdlib.h>

#define SECONDS 4
#define LONGEST 300

struct voice {
    uint8_t sheet[24 + 40 * 256 + 1]; /* a byte more than any sheet, so that one too long stays so */
    size_t length;
    struct player_controls controls;
    struct player_needed needed;
    float *cells;
    uint64_t *registers;
    float *scratch;
};

static void fail(const char *what, int answer)
{
    fprintf(stderr, "%s is refused by %d\n", what, answer);
    exit(1);
}

/* One element more than the needs, so that no pointer is null. */
static void *lend(uint64_t count, size_t size)
{
    void *memory = calloc(count + 1, size);
    if (!memory) {
        fprintf(stderr, "out of memory\n");
        exit(1);
    }
    return memory;
}

static void start(struct voice *v)
{
    struct player_controls none = {0, 1, 1, 1, 1};
    v->needed = player_needs(v->sheet, v->length);
    if (v->needed.refusal)
        fail("the sheet", v->needed.refusal);
    v->cells = lend(v->needed.cells, sizeof *v->cells);
    v->registers = lend(v->needed.registers, sizeof *v->registers);
    v->scratch = lend(v->needed.scratch, sizeof *v->scratch);
    struct player_answered a = player_build(v->sheet, v->length, none, v->cells, v->needed.cells, v->registers,
                                            v->needed.registers, v->scratch, v->needed.scratch);
    if (a.answer)
        fail("build", a.answer);
    v->controls = a.controls;
}

static void fill(struct voice *v, float *out, size_t n)
{
    struct player_answered a = player_fill(v->sheet, v->length, v->controls, out, n, v->cells, v->needed.cells,
                                           v->registers, v->needed.registers, v->scratch, v->needed.scratch);
    if (a.answer)
        fail("fill", a.answer);
    v->controls = a.controls;
}

/* A fifth up in the second second, a bend in the third, a darker filter in the last. */
static void move(struct voice *v, uint64_t rate)
{
    uint64_t second = v->controls.position / rate;
    v->controls = player_pitch(v->controls, second == 0 ? 1.0f : 1.5f, 0.001f);
    v->controls = player_bend(v->controls, second == 2 ? 1.06f : 1.0f);
    uint8_t answer = player_cutoff(v->sheet, v->length, second == 3 ? 0.5f : 1.0f, v->cells, v->needed.cells,
                                   v->registers, v->needed.registers, v->scratch, v->needed.scratch);
    if (answer)
        fail("cutoff", answer);
}

static void put(uint32_t x, int bytes)
{
    for (; bytes > 0; bytes--, x >>= 8)
        putchar(x & 255);
}

/* Mono, 16 bits. */
static void put_header(uint32_t rate, uint32_t samples)
{
    fputs("RIFF", stdout);
    put(36 + 2 * samples, 4);
    fputs("WAVEfmt ", stdout);
    put(16, 4);
    put(1, 2);
    put(1, 2);
    put(rate, 4);
    put(2 * rate, 4);
    put(2, 2);
    put(16, 2);
    fputs("data", stdout);
    put(2 * samples, 4);
}

/* Rounded to the nearest of 65,535 steps, halves away from zero; a NaN is silence. */
static void put_sample(float x)
{
    float y = x > 1 ? 1 : x < -1 ? -1 : x == x ? x : 0;
    put((uint32_t)(int32_t)roundf(y * 32767.0f), 2);
}

int main(int argc, char **argv)
{
    static struct voice v;
    static const size_t lengths[] = {64, 7, 300};
    float out[LONGEST];
    FILE *file = argc == 2 ? fopen(argv[1], "rb") : NULL;
    if (!file) {
        fprintf(stderr, "usage: play SHEET > FILE.wav\n");
        return 2;
    }
    v.length = fread(v.sheet, 1, sizeof v.sheet, file);
    fclose(file);
    start(&v);
    uint32_t rate = v.sheet[4] | v.sheet[5] << 8 | v.sheet[6] << 16 | (uint32_t)v.sheet[7] << 24;
    uint64_t samples = (uint64_t)rate * SECONDS;
    put_header(rate, (uint32_t)samples);
    for (size_t turn = 0; v.controls.position < samples; turn++) {
        size_t n = lengths[turn % 3];
        if (n > samples - v.controls.position)
            n = samples - v.controls.position;
        move(&v, rate);
        fill(&v, out, n);
        for (size_t k = 0; k < n; k++)
            put_sample(out[k]);
    }
    return fflush(stdout) ? 1 : 0;
}
