/* Tri-dexel stock rays: the C interface of libtridexel.a.
 *
 * docs/LAYOUT.md has every layout cell by cell, the limits behind each refusal, what each call leaves in each buffer, and worked examples. Sections of it are
 * cited as "LAYOUT 6".
 *
 * Every function takes arbitrary numbers and bytes, always returns, allocates nothing and keeps nothing between calls. The result is the number of a
 * refusal (LAYOUT 14), 0 where the call is accepted. A refused call leaves every buffer and every number as it was; the one exception is named at
 * tridexel_sweep. A number is given exactly when its cause holds and none before it, in the order named at the function, does.
 *
 *   1 a description or units out of limits, a budget of 0 too   2 more rays, or cells along an axis, than max_rays   3 twice the rays exceed max_intervals
 *   5 beam               6 tool                               7 chord or guard                        8 a visit beyond the budget
 *   9 more changed rays than allowed   10 more intervals than max_intervals   11 a list or store not sound, part of an item over
 *  12 a buffer shorter than needed     13 a bad change        14 base generation differs              15 generation at its maximum
 *  16 log full at a hit                17 a log entry that names no ray          19 a place that is NaN
 *  18 is given by the program merge_ray alone
 *   4 is retired: no description gets it, and no other cause will have the number; a `case 4` on the result of a call can go (LAYOUT 14)
 *
 * A slice is a pointer and the number of its items; the pointer of an empty slice is that of any object, not NULL. Slices and numbers that are written
 * overlap no other of the call. Numbers are IEEE 754 binary64; lengths are millimetres, volumes cubic millimetres. Calls are made in the default floating-point
 * environment: rounding to nearest, subnormals kept (not flushed to zero, as the start-up code of -ffast-math has them).
 *
 * Stack: a call of tridexel_commit_log touches at most 40 KB, one of any other function at most 52 KB (on lists of some thousand pairs below 3 KB as built for
 * x86-64). This is no part of the proofs; examples/stack.c measures each function on a thread of 64 KB.
 *
 * "As it was" is equality of doubles in the proofs, which know one NaN; the payloads of NaNs in a buffer that a call does not write are kept because it
 * does not write them, which the tests show.
 */
#ifndef TRIDEXEL_H
#define TRIDEXEL_H

#include <stddef.h>
#include <stdint.h>

#ifdef __cplusplus
extern "C" {
#endif

/* ---- span lists: doubles lo, hi per pair; LAYOUT 3 says when a list is sound. */

/* The sound list of arbitrary pairs: those without lo < hi (NaN too) are dropped, touching ones joined. `out` needs as many pairs as `spans` has.
 * Accepted: `*pairs` pairs stand at the start of `out`, every cell past them is plus zero. Refusals: 12, 11 (part of a pair over). */
uint32_t tridexel_normalize(const double *spans, size_t spans_len, double *out, size_t out_len, size_t *pairs);

/* The sound list of the points of a that are not in b; of the points in both. `out` needs as many pairs as both lists together; it is left as by
 * tridexel_normalize. Refusals: 12, 11 (a list not sound). */
uint32_t tridexel_subtract(const double *a, size_t a_len, const double *b, size_t b_len, double *out, size_t out_len, size_t *pairs);
uint32_t tridexel_intersect(const double *a, size_t a_len, const double *b, size_t b_len, double *out, size_t out_len, size_t *pairs);

/* Whether each point of inner is in outer; whether some point is in both. `*yes` becomes 1 or 0. Refusal: 11 (a list not sound). */
uint32_t tridexel_contains(const double *outer, size_t outer_len, const double *inner, size_t inner_len, uint32_t *yes);
uint32_t tridexel_overlaps(const double *a, size_t a_len, const double *b, size_t b_len, uint32_t *yes);

/* The cells that tridexel_merge needs of `work`, for so many pairs of the ray and of its hits. */
#define TRIDEXEL_MERGE_WORK(ray_pairs, hit_pairs) (2 * (4 * (size_t)(ray_pairs) + 8 * (size_t)(hit_pairs)))

/* One ray: possible loses the inner hits, certain the outer and the inner ones. lo and hi are the ray's bounds. For possible [0] and certain [1],
 * `moved` becomes 1 where the list changed, else 0, and `pairs` its number of pairs. A list that did not move is the caller's own; the new ones stand
 * at the start of `work`, possible's before certain's, and plus zero past them (LAYOUT 11). Refusals: 12, 11 (part of a pair over; a ray not valid within
 * its bounds). */
uint32_t tridexel_merge(const double *possible, size_t possible_len, const double *certain, size_t certain_len, double lo, double hi,
                        const double *outer, size_t outer_len, const double *inner, size_t inner_len, double *work, size_t work_len,
                        uint32_t moved[2], size_t pairs[2]);

/* Why a place on a ray shows as it does after log entries were merged into the ray. Exactly one reason is the true one. With the first two
 * the place is air, not in possible after the entries; with the next two it is possible and not certain, with the last it is certain. */
enum {
  TRIDEXEL_NOT_POSSIBLE = 1, /* not possible before */
  TRIDEXEL_REMOVED,          /* possible before and removed, by the first entry whose inner pair holds the place */
  TRIDEXEL_MADE_UNCERTAIN,   /* certain before and no longer, in no inner pair, through the first entry whose outer pair holds the place */
  TRIDEXEL_NOT_CERTAIN,      /* possible but not certain before, and in no inner pair */
  TRIDEXEL_STILL_CERTAIN
};

/* The reason for `place`, a coordinate along the ray; linear time in pairs and entries. lo and hi are the ray's bounds (LAYOUT 5). possible and certain are its
 * lists before the entries (LAYOUT 6), copied before the commit, which overwrites the store. `log` has the entries that name the ray (LAYOUT 8), in the order
 * in which they were merged. Each one handed in counts as one of this ray, whatever its axis and index are: a whole log gives reasons of no ray. A place in
 * space lies on up to three rays, and each answers for itself. Which lists and entries to take over several commits: LAYOUT 11; examples/why.c does it.
 * A pair holds p where lo <= p < hi, so both zeros are one point and a pair without lo < hi holds none. `*reason` becomes a number from above; `*entry`
 * becomes, for TRIDEXEL_REMOVED and TRIDEXEL_MADE_UNCERTAIN, the number k of the entry, counted from 1, which begins at cell 6(k - 1) of `log`, else 0.
 * Refusals: 11 (part of an entry or of a pair over; a ray not valid within its bounds), 19. 12 has no cause: no buffer is lent to be written. */
uint32_t tridexel_trace(const double *possible, size_t possible_len, const double *certain, size_t certain_len, double lo, double hi, const double *log,
                        size_t log_len, double place, uint32_t *reason, size_t *entry);

/* ---- stocks */

typedef struct {
  double x, y, z;
} tridexel_vec3;

/* A blank's description (LAYOUT 4). `units` beside it are the two bytes "mm". */
typedef struct {
  uint32_t version; /* 1 */
  tridexel_vec3 min_mm, max_mm;
  double cell_size_mm;
  uint64_t max_rays;
  uint64_t max_intervals;
} tridexel_spec;

/* Cells and steps along x, y, z; how rays are numbered: LAYOUT 5. Refusals: 1, 2, 3. */
uint32_t tridexel_grid(tridexel_spec spec, const uint8_t *units, size_t units_len, uint64_t cells[3], double steps[3]);

/* The lent store of a stock is `spans`, `links` and `heads` (LAYOUT 6); cells past those that it needs are neither read nor written. The generation and the
 * interval total are two numbers that the caller keeps (LAYOUT 7). */

/* The rays of a grid of these cells; the cells that `spans` needs, and `links` as many; the cells that `heads` needs. */
#define TRIDEXEL_RAYS(cells) ((size_t)((cells)[0] * (cells)[1] + (cells)[1] * (cells)[2] + (cells)[2] * (cells)[0]))
#define TRIDEXEL_RECORD_CELLS(max_intervals) (2 * (size_t)(max_intervals))
#define TRIDEXEL_HEAD_CELLS(rays) (2 * (size_t)(rays))

/* Lays the uncut stock: one full pair in each list. The cells may hold anything before. Refusals: 1 to 3, 12. */
uint32_t tridexel_fill(tridexel_spec spec, const uint8_t *units, size_t units_len, double *spans, size_t spans_len, uint64_t *links, size_t links_len,
                       uint64_t *heads, size_t heads_len, uint64_t *generation, uint64_t *intervals);

/* Ten numbers: certain and possible by the rays along x, then y, then z; remaining lower, upper; removed lower, upper (LAYOUT 13).
 * Refusals: 1 to 3, 12, 11. */
uint32_t tridexel_volume(tridexel_spec spec, const uint8_t *units, size_t units_len, const double *spans, size_t spans_len, const uint64_t *links,
                         size_t links_len, const uint64_t *heads, size_t heads_len, uint64_t intervals, double volume[10]);

/* Commits a change list made on the stock at generation `base`: six numbers per change in `changes`, its lists end to end in `pairs` (LAYOUT 9).
 * Accepted: the store has the new lists, the generation steps, `*changed` becomes the number of changes. Refusals: 1 to 3, 12, 11, 14, 13, 10, 15. */
uint32_t tridexel_commit_changes(tridexel_spec spec, const uint8_t *units, size_t units_len, double *spans, size_t spans_len, uint64_t *links,
                                 size_t links_len, uint64_t *heads, size_t heads_len, uint64_t *generation, uint64_t *intervals, uint64_t base,
                                 const uint64_t *changes, size_t changes_len, const double *pairs, size_t pairs_len, uint64_t *changed);

/* The cells that tridexel_commit_log needs of `work`. */
#define TRIDEXEL_LOG_WORK(max_intervals, entries) (12 * (size_t)(max_intervals) + 36 * (size_t)(entries))

/* Commits a log, six doubles per entry (LAYOUT 8): possible loses the inner hits of each ray, certain the outer and the inner ones; at most `allowance`
 * rays may change. Accepted: the store has the new lists, the generation steps, `*changed` becomes the number of changed rays, `work` is all plus zero.
 * Refusals: 1 to 3, 12, 11, 15, 17, 9, 10. */
uint32_t tridexel_commit_log(tridexel_spec spec, const uint8_t *units, size_t units_len, double *spans, size_t spans_len, uint64_t *links,
                             size_t links_len, uint64_t *heads, size_t heads_len, uint64_t *generation, uint64_t *intervals, const double *log,
                             size_t log_len, uint64_t allowance, double *work, size_t work_len, uint64_t *changed);

/* ---- the lateral sweep */

/* The direction from the tool's tip toward the spindle. */
enum { TRIDEXEL_POS_X, TRIDEXEL_NEG_X, TRIDEXEL_POS_Y, TRIDEXEL_NEG_Y, TRIDEXEL_POS_Z, TRIDEXEL_NEG_Z };

/* Shapes, and their own numbers m, n (angles in radians): LAYOUT 10. */
enum {
  TRIDEXEL_FLAT,
  TRIDEXEL_BALL,
  TRIDEXEL_BULL,    /* m: corner radius */
  TRIDEXEL_DRILL,   /* m: point angle */
  TRIDEXEL_CHAMFER, /* m: included angle, n: tip diameter */
  TRIDEXEL_BEAM,    /* refused with 5 */
  TRIDEXEL_PROBE,
  TRIDEXEL_LOLLIPOP,
  TRIDEXEL_DOVETAIL /* m: flank angle */
};

/* A cutter's numbers beside its shape; what they are for each shape: LAYOUT 10. Where there is no neck its diameter is the shank's. */
typedef struct {
  double diameter_mm, cutting_length_mm, overall_length_mm, neck_diameter_mm, shank_diameter_mm;
  double radius, tip_height, slope, shoulder;
} tridexel_cutter;

/* The cells of a log of so many entries, and of so many chords. */
#define TRIDEXEL_LOG_CELLS(entries) (6 * (size_t)(entries))
#define TRIDEXEL_CHORD_CELLS(chords) (8 * (size_t)(chords))

/* The rays across the tool that a list of chords hits. A chord is eight doubles: world ends a and b, the error e, the plan length (hypot of the two
 * differences across the tool axis; LAYOUT 10). Accepted: `*entries` log entries (LAYOUT 8) stand in `log` in visiting order, every cell past them is
 * plus zero, `*visits` is the number of rays visited. A number that names no axis or no shape is 6. Refusals: 1 to 3, 12, 11, 5, 6, 7, then per visit 8
 * before 16; 8 and 16 leave the whole log plus zero, every other refusal leaves it as it was. */
uint32_t tridexel_sweep(tridexel_spec spec, const uint8_t *units, size_t units_len, const double *spans, size_t spans_len, const uint64_t *links,
                        size_t links_len, const uint64_t *heads, size_t heads_len, uint64_t intervals, uint64_t axis, uint64_t shape, double m, double n,
                        tridexel_cutter cutter, double guard, const double *chords, size_t chords_len, uint64_t budget, double *log, size_t log_len,
                        size_t *entries, uint64_t *visits);

#ifdef __cplusplus
}
#endif

#endif
