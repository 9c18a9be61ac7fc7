/* Why a place shows as air, in C: a blank is laid and its store kept, two chords are swept and committed one after the other, and the rays through some
 * places are traced over the entries of both logs. Fails where a reason is not what the ray's lists show after the commits. */
#include "../include/tridexel.h"
#include <inttypes.h>
#include <math.h>
#include <stdio.h>
#include <stdlib.h>
#include <string.h>

/* the corners of the blank */
#define LOW 0, 0, 0
#define HIGH 20, 20, 10
enum { RAYS = 1000, INTERVALS = 4000, ENTRIES = 2000 };

typedef struct {
  double spans[TRIDEXEL_RECORD_CELLS(INTERVALS)];
  uint64_t links[TRIDEXEL_RECORD_CELLS(INTERVALS)], heads[TRIDEXEL_HEAD_CELLS(RAYS)];
} store;

typedef struct {
  double cells[TRIDEXEL_RECORD_CELLS(INTERVALS)];
  size_t len;
} list;

static const uint8_t MM[2] = {'m', 'm'};
static const double MIN[3] = {LOW}, MAX[3] = {HIGH};
static const tridexel_spec SPEC = {.version = 1, .min_mm = {LOW}, .max_mm = {HIGH}, .cell_size_mm = 1, .max_rays = RAYS, .max_intervals = INTERVALS};
static const size_t RECORDS = TRIDEXEL_RECORD_CELLS(INTERVALS);
static const char *WORDS[] = {"", "not possible before", "removed by", "made uncertain by", "possible, not certain before", "still certain"};

/* The stock, and its store as it was before the first of the logs. */
static store now, before;
static uint64_t generation, intervals, cells[3];
static double steps[3];
static size_t heads_len;

/* The logs that were committed, end to end. */
static double logs[TRIDEXEL_LOG_CELLS(ENTRIES)], work[TRIDEXEL_LOG_WORK(INTERVALS, ENTRIES)];
static size_t logged;

static void expect(const char *what, uint32_t refused) {
  if (refused) {
    printf("%s: refused %" PRIu32 "\n", what, refused);
    exit(1);
  }
}

/* Sweeps a ball cutter along a chord and commits the log, which stays behind those before it. A refused log would have to be left out. */
static void cut(const double *chord) {
  tridexel_cutter ball = {.diameter_mm = 6, .cutting_length_mm = 12, .overall_length_mm = 40, .neck_diameter_mm = 6, .shank_diameter_mm = 6,
                          .radius = 3, .tip_height = 3, .slope = 0, .shoulder = 12};
  double *log = logs + TRIDEXEL_LOG_CELLS(logged);
  size_t entries;
  uint64_t visits, changed;
  expect("sweep", tridexel_sweep(SPEC, MM, sizeof MM, now.spans, RECORDS, now.links, RECORDS, now.heads, heads_len, intervals, TRIDEXEL_POS_Z, TRIDEXEL_BALL,
                                 0, 0, ball, 0.001, chord, TRIDEXEL_CHORD_CELLS(1), 10000, log, TRIDEXEL_LOG_CELLS(ENTRIES - logged), &entries, &visits));
  expect("commit", tridexel_commit_log(SPEC, MM, sizeof MM, now.spans, RECORDS, now.links, RECORDS, now.heads, heads_len, &generation, &intervals, log,
                                       TRIDEXEL_LOG_CELLS(entries), UINT64_MAX, work, TRIDEXEL_LOG_WORK(INTERVALS, entries), &changed));
  logged += entries;
  printf("cut     %zu entries, %" PRIu64 " rays changed, generation %" PRIu64 "\n", entries, changed, generation);
}

/* List j of a store: possible of ray r is list 2r, certain is list 2r + 1 (LAYOUT 6). */
static void read_list(const store *s, size_t j, list *out) {
  out->len = 0;
  for (uint64_t k = s->heads[j]; k; k = s->links[2 * (k - 1)]) {
    out->cells[out->len++] = s->spans[2 * (k - 1)];
    out->cells[out->len++] = s->spans[2 * (k - 1) + 1];
  }
}

static int holds(const list *l, double p) {
  for (size_t i = 0; i < l->len; i += 2)
    if (l->cells[i] <= p && p < l->cells[i + 1]) return 1;
  return 0;
}

/* The grid cell of a coordinate within the blank (LAYOUT 5). */
static size_t cell(int axis, double x) {
  double c = floor((x - MIN[axis]) / steps[axis]), last = cells[axis] - 1;
  return c < 0 ? 0 : c < last ? c : last;
}

/* Traces the ray along an axis that a place lies on. The tool stands along z: rays along z have no entries (LAYOUT 10). */
static void why(int axis, const double *place) {
  static list possible, certain, possible_now, certain_now;
  static double own[TRIDEXEL_LOG_CELLS(ENTRIES)];
  int u = (axis + 1) % 3, v = (axis + 2) % 3;
  if (!(MIN[u] <= place[u] && place[u] < MAX[u] && MIN[v] <= place[v] && place[v] < MAX[v])) return;
  size_t offset[3] = {0, cells[1] * cells[2], cells[1] * cells[2] + cells[2] * cells[0]};
  size_t index = cell(v, place[v]) * cells[u] + cell(u, place[u]), ray = offset[axis] + index, named = 0, entry;
  for (size_t i = 0; i < logged; i++)
    if (logs[6 * i] == axis && logs[6 * i + 1] == index) memcpy(own + 6 * named++, logs + 6 * i, 6 * sizeof *own);
  read_list(&before, 2 * ray, &possible), read_list(&before, 2 * ray + 1, &certain);
  uint32_t reason;
  expect("trace", tridexel_trace(possible.cells, possible.len, certain.cells, certain.len, MIN[axis], MAX[axis], own, TRIDEXEL_LOG_CELLS(named), place[axis],
                                 &reason, &entry));
  printf("  along %c, index %3zu, entries %zu: %s", "xyz"[axis], index, named, WORDS[reason]);
  const double *e = entry ? own + 6 * (entry - 1) : own;
  if (entry) printf(" entry %zu, outer %.3f to %.3f, inner %.3f to %.3f", entry, e[2], e[3], e[4], e[5]);
  read_list(&now, 2 * ray, &possible_now), read_list(&now, 2 * ray + 1, &certain_now);
  int shows = holds(&possible_now, place[axis]), surely = holds(&certain_now, place[axis]);
  printf("; %s\n", surely ? "material" : shows ? "may be material" : "air");
  if (shows != (reason >= TRIDEXEL_MADE_UNCERTAIN) || surely != (reason == TRIDEXEL_STILL_CERTAIN)) exit(1);
}

int main(void) {
  expect("grid", tridexel_grid(SPEC, MM, sizeof MM, cells, steps));
  heads_len = TRIDEXEL_HEAD_CELLS(TRIDEXEL_RAYS(cells));
  expect("fill", tridexel_fill(SPEC, MM, sizeof MM, now.spans, RECORDS, now.links, RECORDS, now.heads, heads_len, &generation, &intervals));
  before = now; /* the commits overwrite the lists */
  cut((double[]){0, 10, 6, 20, 10, 6, 0.01, hypot(20, 0)});
  cut((double[]){4, 4, 5, 16, 13, 5, 0.01, hypot(12, 9)});
  const double places[][3] = {{10.25, 10.5, 8.5}, {12.25, 13.2, 7.5}, {2.25, 7.1, 7.5}, {21, 10.5, 8.5}};
  for (size_t i = 0; i < sizeof places / sizeof *places; i++) {
    printf("place %g, %g, %g\n", places[i][0], places[i][1], places[i][2]);
    for (int axis = 0; axis < 3; axis++) why(axis, places[i]);
  }
  return 0;
}
