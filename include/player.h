/*
 * The sound core's calls, for a player program. Link crates/library/out/liblibrary.a, which
 * `rt lib` makes in crates/library. Of the C library it wants memcpy and memset.
 *
 * A voice is a patch sheet (read only), its controls (a struct that goes in and comes out by value)
 * and three pieces of memory that the player owns and lends for the time of a call: cells, registers
 * and scratch. The core has no memory of its own, allocates nothing, keeps no pointer after a call,
 * and calls nothing of the system; so voices may be played from several threads at once, each with
 * its own memory.
 *
 * What a caller owes the core, and nothing checks:
 * - each pointer is not null, is aligned for its type, and points to as many initialised elements as
 *   the length says, counted in elements (calloc serves; with a length of 0 any address does);
 * - the slices of one call do not overlap;
 * - nobody else writes to them during the call.
 * Everything else may be anything: any bytes for a sheet, any numbers for controls and moves, any
 * contents of the memory, any length of output. Every call ends, and touches only what it was lent.
 *
 * A call that is refused answers a number below, the controls come back as they were given, and
 * nothing lent is altered. The lowest number that applies is answered; 0 is acceptance.
 *
 * A performance can be cut into fills of any lengths: the samples and the state are the same.
 */
#ifndef PLAYER_H
#define PLAYER_H

#include <stddef.h>
#include <stdint.h>

#ifdef __cplusplus
extern "C" {
#endif

/* The answers. Which call makes which checks is said at the call. */
enum player_answer {
    PLAYER_OK = 0,
    PLAYER_LENGTH = 1,   /* the sheet is not 24 + 40 N bytes long, or N is outside 1 to 256 */
    PLAYER_HEADER = 2,   /* the sample rate is outside 8,000 to 192,000, or bytes 2 to 3 are not 0 */
    PLAYER_RECORD = 3,   /* a record has an unknown kind or option, or a byte set that its kind does not use */
    PLAYER_LINK = 4,     /* a link does not climb or leaves the sheet, or record 0 has a next */
    PLAYER_LINKED = 5,   /* a record other than 0 is linked by no link or by more than one */
    PLAYER_CHAIN = 6,    /* a chain has the wrong kinds or number of records, or record 0 is not a node */
    PLAYER_DEPTH = 7,    /* nodes nest deeper than 16 */
    PLAYER_MEMORY = 8,   /* cells, registers or scratch are shorter than the sheet needs */
    PLAYER_STATE = 9,    /* the position is above 2^62, or the lent memory holds no state of this voice:
                            a ring place outside its line, or a Rand phase outside 0 to 1 */
    PLAYER_POSITION = 10 /* the position plus the length of the output is above 2^62 */
};

/* Where a voice stands, in samples since it was built, and how it is tuned. Each sample moves pitch by
 * (target - pitch) * glide; the oscillators sound at their own frequencies times pitch times bend. */
struct player_controls {
    uint64_t position;
    float pitch;
    float target;
    float glide;
    float bend;
};

/* What `player_build` and `player_fill` return. */
struct player_answered {
    uint8_t answer;
    struct player_controls controls;
};

/* How many elements a sheet needs to be lent; zeros where `refusal` is not 0. */
struct player_needed {
    uint8_t refusal;
    uint64_t cells;
    uint64_t registers;
    uint64_t scratch;
};

/* How much memory the sheet needs. Checks 1 to 7. */
struct player_needed player_needs(const uint8_t *sheet, size_t sheet_length);

/* Starts a voice: the needed cells and registers as a new voice has them, the needed scratch zeros, and
 * fresh controls (position 0, the others 1). Memory past the needs is left alone. Checks 1 to 8.
 * `controls` are those that come back where the sheet is refused. */
struct player_answered player_build(const uint8_t *sheet, size_t sheet_length,
                                    struct player_controls controls,
                                    float *cells, size_t cells_length,
                                    uint64_t *registers, size_t registers_length,
                                    float *scratch, size_t scratch_length);

/* Writes the next `out_length` samples to `out`, and returns the controls after them. The needed scratch is
 * zeros afterwards; memory past the needs is left alone. A length of 0 changes nothing. Checks 1 to 10. */
struct player_answered player_fill(const uint8_t *sheet, size_t sheet_length,
                                   struct player_controls controls,
                                   float *out, size_t out_length,
                                   float *cells, size_t cells_length,
                                   uint64_t *registers, size_t registers_length,
                                   float *scratch, size_t scratch_length);

/* Aims the pitch at `scale` (below 0 and NaN count as 0) and lets each sample go `coefficient` of the way
 * that is left (clamped to 2^-126 to 1; NaN counts as 1, which is at once). Never refused. */
struct player_controls player_pitch(struct player_controls controls, float scale, float coefficient);

/* Sets the bend, a factor beside the pitch, as it is. Never refused. */
struct player_controls player_bend(struct player_controls controls, float x);

/* Sets the scale of every filter's cutoff to `x`: brightness. Returns the answer; only cells are written.
 * Checks 1 to 8. */
uint8_t player_cutoff(const uint8_t *sheet, size_t sheet_length, float x,
                      float *cells, size_t cells_length,
                      const uint64_t *registers, size_t registers_length,
                      const float *scratch, size_t scratch_length);

#ifdef __cplusplus
}
#endif

#endif
