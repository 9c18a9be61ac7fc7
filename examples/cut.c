/* A cell's day in C: a blank is laid, a ball cutter's chord is swept, its log committed, and the volumes are read. */
#include "../include/tridexel.h"
#include <inttypes.h>
#include <math.h>
#include <stdio.h>
#include <stdlib.h>

static const uint8_t MM[2] = {'m', 'm'};

static void *room(size_t items) {
  void *p = calloc(items, 8);
  if (!p) {
    fputs("no memory\n", stderr);
    exit(2);
  }
  return p;
}

static void expect(const char *what, uint32_t refused) {
  if (refused) {
    printf("%s: refused %" PRIu32 "\n", what, refused);
    exit(1);
  }
}

int main(void) {
  tridexel_spec spec = {.version = 1, .min_mm = {0, 0, 0}, .max_mm = {20, 20, 10}, .cell_size_mm = 1, .max_rays = 10000, .max_intervals = 10000};
  uint64_t cells[3];
  double steps[3];
  expect("grid", tridexel_grid(spec, MM, sizeof MM, cells, steps));
  size_t rays = TRIDEXEL_RAYS(cells);
  size_t records = TRIDEXEL_RECORD_CELLS(spec.max_intervals), heads_len = TRIDEXEL_HEAD_CELLS(rays);
  printf("grid    %" PRIu64 " x %" PRIu64 " x %" PRIu64 " cells, %zu rays\n", cells[0], cells[1], cells[2], rays);

  double *spans = room(records);
  uint64_t *links = room(records), *heads = room(heads_len);
  uint64_t generation, intervals;
  expect("fill", tridexel_fill(spec, MM, sizeof MM, spans, records, links, records, heads, heads_len, &generation, &intervals));
  printf("fill    generation %" PRIu64 ", %" PRIu64 " intervals\n", generation, intervals);

  tridexel_cutter ball = {.diameter_mm = 6, .cutting_length_mm = 12, .overall_length_mm = 40, .neck_diameter_mm = 6, .shank_diameter_mm = 6,
                          .radius = 3, .tip_height = 3, .slope = 0, .shoulder = 0};
  double chord[TRIDEXEL_CHORD_CELLS(1)] = {0, 10, 6, 20, 10, 6, 0.01, hypot(20, 0)};
  size_t log_len = TRIDEXEL_LOG_CELLS(10000), entries;
  double *log = room(log_len);
  uint64_t visits;
  expect("sweep", tridexel_sweep(spec, MM, sizeof MM, spans, records, links, records, heads, heads_len, intervals, TRIDEXEL_POS_Z, TRIDEXEL_BALL, 0, 0,
                                 ball, 0.001, chord, TRIDEXEL_CHORD_CELLS(1), 100000, log, log_len, &entries, &visits));
  printf("sweep   %" PRIu64 " rays visited, %zu hits\n", visits, entries);

  size_t work_len = TRIDEXEL_LOG_WORK(spec.max_intervals, entries);
  double *work = room(work_len);
  uint64_t changed;
  expect("commit", tridexel_commit_log(spec, MM, sizeof MM, spans, records, links, records, heads, heads_len, &generation, &intervals, log, TRIDEXEL_LOG_CELLS(entries), UINT64_MAX, work,
                                       work_len, &changed));
  printf("commit  %" PRIu64 " rays changed, generation %" PRIu64 ", %" PRIu64 " intervals\n", changed, generation, intervals);

  uint32_t refused = tridexel_commit_log(spec, MM, sizeof MM, spans, records, links, records, heads, heads_len, &generation, &intervals, log, TRIDEXEL_LOG_CELLS(entries) - 1, UINT64_MAX,
                                         work, work_len, &changed);
  printf("part of an entry over: refused %" PRIu32 ", generation still %" PRIu64 "\n", refused, generation);

  double v[10];
  expect("volume", tridexel_volume(spec, MM, sizeof MM, spans, records, links, records, heads, heads_len, intervals, v));
  printf("rays along x: certain %.3f, possible %.3f of 4000 mm3\n", v[0], v[1]);
  free(spans), free(links), free(heads), free(log), free(work);
  return 0;
}
