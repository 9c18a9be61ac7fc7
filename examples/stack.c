/* The stack of every entry. Each call is made on a thread of its own whose stack, 64 KB, is painted and stands above memory that may not be touched; what is painted no more
 * afterwards was touched. Fails where the log commit touches more than 40 KB or another entry more than 52 KB, and where a call does not answer the number that is due.
 *   stack [--bytes] [KB]    with the bytes touched by each call; on stacks of so many KB, to measure a call for which 64 are too few */
#define _GNU_SOURCE
#include "../include/tridexel.h"
#include <inttypes.h>
#include <math.h>
#include <pthread.h>
#include <setjmp.h>
#include <signal.h>
#include <stdio.h>
#include <stdlib.h>
#include <string.h>
#include <sys/mman.h>

enum { KB = 1024, STACK = 64 * KB, LIMIT = 52 * KB, LOG_LIMIT = 40 * KB, UNMAPPED = 1024 * KB, PAINT = 0xa5 };
/* entries of a log, more than 3,072 of them on one ray in the second; pairs of a list; cells along each axis of the blank, its side */
enum { ENTRIES = 5000, PAIRS = 5000, CELLS = 20, RAYS = 3 * CELLS * CELLS, SIDE = 1000 };

static const uint8_t MM[2] = {'m', 'm'};

static void *room(size_t items) {
  void *p = calloc(items, 8);
  if (!p) {
    fputs("no memory\n", stderr);
    exit(2);
  }
  return p;
}

/* ---- what the calls are given: two lists, a store, a log and a work buffer; and what they answer beside the refusal */

static double comb[2 * PAIRS], hits[2 * PAIRS], *spans, *log_of, *work;
static uint64_t *links, *heads, generation, intervals, allowance, changed, visits, cells[3];
static size_t spans_len, work_len, pairs, two[2], entries, by_entry;
/* for each world axis, whose plan lengths differ */
static double chords[3][16];
static tridexel_spec spec = {.version = 1, .max_mm = {SIDE, SIDE, SIDE}, .cell_size_mm = SIDE / CELLS, .max_rays = RAYS};
static double many[6 * ENTRIES], one[6 * ENTRIES], swing[6 * ENTRIES], steps[3], volumes[10];
static uint32_t yes, moved[2], reason;

/* A place among `of` for each i, in no order; `of` is not a multiple of 7919. */
static size_t shuffled(size_t i, size_t of) { return i * 7919 % of; }

/* Lists of pairs apart, the second in no order; logs whose hits are in no order and most of which leave all their ends: on many rays, a third of the entries on one of them,
 * and all on one; two chords. */
static void make_inputs(void) {
  for (size_t i = 0; i < PAIRS; i++) {
    size_t at = shuffled(i, PAIRS);
    comb[2 * i] = 0.2 * i, comb[2 * i + 1] = 0.2 * i + 0.1;
    hits[2 * i] = 0.2 * at + 0.05, hits[2 * i + 1] = 0.2 * at + 0.15;
  }
  for (size_t i = 0; i < ENTRIES; i++) {
    size_t ray = i % 3 ? shuffled(i, RAYS) : RAYS / 2;
    double lo = 0.2 * shuffled(i, ENTRIES) + 0.04, inner = i % 5 ? lo + 0.08 : lo;
    double entry[6] = {ray / (CELLS * CELLS), ray % (CELLS * CELLS), lo, lo + 0.04, inner, inner + 0.04};
    memcpy(many + 6 * i, entry, sizeof entry);
    entry[0] = 1, entry[1] = 7;
    memcpy(one + 6 * i, entry, sizeof entry);
    size_t turned = i < RAYS ? RAYS - 1 - i : i < 2 * RAYS ? i - RAYS : RAYS - 1;
    entry[0] = turned / (CELLS * CELLS), entry[1] = turned % (CELLS * CELLS);
    memcpy(swing + 6 * i, entry, sizeof entry);
  }
  for (size_t axis = 0; axis < 3; axis++) {
    static const double ends[2][7] = {{50, 60, 500, 800, 700, 510, 0.01}, {800, 700, 510, 820, 950, 500, 0.01}};
    size_t x = (axis + 1) % 3, y = (axis + 2) % 3;
    for (size_t k = 0; k < 2; k++) {
      memcpy(chords[axis] + 8 * k, ends[k], sizeof ends[k]);
      chords[axis][8 * k + 7] = hypot(ends[k][3 + x] - ends[k][x], ends[k][3 + y] - ends[k][y]);
    }
  }
}

/* An uncut store with this interval budget, and what a commit of this log needs on it. */
static void lay(uint64_t max_intervals, double *log, uint64_t allowed) {
  free(spans), free(links), free(heads), free(work);
  spec.max_intervals = max_intervals, log_of = log, allowance = allowed;
  spans_len = TRIDEXEL_RECORD_CELLS(max_intervals), work_len = TRIDEXEL_LOG_WORK(max_intervals, ENTRIES);
  spans = room(spans_len), links = room(spans_len), heads = room(TRIDEXEL_HEAD_CELLS(RAYS)), work = room(work_len);
  if (tridexel_fill(spec, MM, 2, spans, spans_len, links, spans_len, heads, 2 * RAYS, &generation, &intervals)) {
    fputs("the store is not filled\n", stderr);
    exit(2);
  }
}

/* ---- the calls */

static uint32_t nothing(void) { return 0; }
static uint32_t normalize(void) { return tridexel_normalize(hits, 2 * PAIRS, work, work_len, &pairs); }
static uint32_t subtract(void) { return tridexel_subtract(comb, 2 * PAIRS, comb, 2 * PAIRS - 2, work, work_len, &pairs); }
static uint32_t intersect(void) { return tridexel_intersect(comb, 2 * PAIRS, comb, 2 * PAIRS - 2, work, work_len, &pairs); }
static uint32_t contains(void) { return tridexel_contains(comb, 2 * PAIRS, comb, 2 * PAIRS - 2, &yes); }
static uint32_t overlaps(void) { return tridexel_overlaps(comb, 2 * PAIRS, comb + 2, 2 * PAIRS - 2, &yes); }
static uint32_t merge(void) {
  return tridexel_merge(comb, 2 * PAIRS, comb, 2 * PAIRS, 0, SIDE, hits, 2 * PAIRS, hits, PAIRS, work, work_len, moved, two);
}
/* A place in the last pair and in no hit, so that every pair and every entry is looked at. */
static uint32_t trace(void) {
  return tridexel_trace(comb, 2 * PAIRS, comb, 2 * PAIRS, 0, SIDE, many, 6 * ENTRIES, comb[2 * PAIRS - 2], &reason, &by_entry);
}
static uint32_t grid(void) { return tridexel_grid(spec, MM, 2, cells, steps); }
static uint32_t fill(void) { return tridexel_fill(spec, MM, 2, spans, spans_len, links, spans_len, heads, 2 * RAYS, &generation, &intervals); }
static uint32_t volume(void) { return tridexel_volume(spec, MM, 2, spans, spans_len, links, spans_len, heads, 2 * RAYS, intervals, volumes); }

static uint32_t commit_changes(void) {
  static const uint64_t changes[12] = {0, 3, 1, 1, 2, 1, 2, 5, 1, 1, 1, 0};
  static const double lists[] = {0, SIDE, 0, SIDE, 0, 100, 200, SIDE, 0, 50, 0, SIDE, 0, SIDE, 0, 900};
  return tridexel_commit_changes(spec, MM, 2, spans, spans_len, links, spans_len, heads, 2 * RAYS, &generation, &intervals, generation, changes, 12, lists,
                                 sizeof lists / sizeof *lists, &changed);
}

static uint32_t commit_log(void) {
  return tridexel_commit_log(spec, MM, 2, spans, spans_len, links, spans_len, heads, 2 * RAYS, &generation, &intervals, log_of, 6 * ENTRIES, allowance, work, work_len, &changed);
}

/* Two chords of every shape but the beam along every axis; the first number that is not 0. */
static uint32_t sweep(void) {
  static const tridexel_cutter cutter = {.diameter_mm = 200, .cutting_length_mm = 400, .overall_length_mm = 600, .neck_diameter_mm = 150, .shank_diameter_mm = 150,
                                         .radius = 100, .tip_height = 100, .slope = 0.5, .shoulder = 400};
  for (uint64_t axis = TRIDEXEL_POS_X; axis <= TRIDEXEL_NEG_Z; axis++)
    for (uint64_t shape = TRIDEXEL_FLAT; shape <= TRIDEXEL_DOVETAIL; shape++) {
      uint32_t refused = tridexel_sweep(spec, MM, 2, spans, spans_len, links, spans_len, heads, 2 * RAYS, intervals, axis, shape, 1, 50, cutter, 0.001, chords[axis / 2], 16,
                                        UINT64_MAX, work, work_len, &entries, &visits);
      if (refused && shape != TRIDEXEL_BEAM)
        return refused;
    }
  return 0;
}

/* ---- a call on a painted stack */

static int bytes;
static size_t stack_len = STACK;
static unsigned char *stack;
static sigjmp_buf out;
static uint32_t (*volatile call)(void);
/* of the last call: its answer and the bytes that it touched, one more than the stack has where that was too short */
static volatile uint32_t answer;
static volatile size_t touched;

/* A fault below the stack ends the call; any other ends the program. */
static void fault(int number, siginfo_t *told, void *context) {
  (void)context;
  unsigned char *at = told->si_addr;
  if (at < stack && at >= stack - UNMAPPED)
    siglongjmp(out, 1);
  signal(number, SIG_DFL);
}

static void *on_stack(void *signals) {
  volatile unsigned char here = 0;
  stack_t own = {.ss_sp = signals, .ss_size = 64 * KB};
  sigaltstack(&own, NULL);
  if (sigsetjmp(out, 1)) {
    touched = stack_len + 1;
    return NULL;
  }
  answer = call();
  size_t low = 0;
  while (stack[low] == PAINT)
    low++;
  touched = (size_t)((uintptr_t)&here - (uintptr_t)(stack + low));
  return NULL;
}

static void on_painted_stack(uint32_t (*what)(void)) {
  unsigned char *all = mmap(NULL, UNMAPPED + stack_len, PROT_NONE, MAP_PRIVATE | MAP_ANONYMOUS, -1, 0);
  void *signals = room(8 * KB);
  stack = all + UNMAPPED, call = what;
  pthread_attr_t attributes;
  pthread_t thread;
  if (all == MAP_FAILED || mprotect(stack, stack_len, PROT_READ | PROT_WRITE) || pthread_attr_init(&attributes) || pthread_attr_setstack(&attributes, stack, stack_len)) {
    fputs("no such stack\n", stderr);
    exit(2);
  }
  memset(stack, PAINT, stack_len);
  if (pthread_create(&thread, &attributes, on_stack, signals) || pthread_join(thread, NULL)) {
    fputs("no thread\n", stderr);
    exit(2);
  }
  pthread_attr_destroy(&attributes);
  munmap(all, UNMAPPED + stack_len);
  free(signals);
}

static int failed;

/* Makes the call and prints its line. */
static void measure(const char *name, uint32_t due, size_t limit, uint32_t (*what)(void)) {
  on_painted_stack(what);
  int over = touched > limit, past = touched > stack_len;
  printf("%-76s ", name);
  if (past)
    printf("past the stack of %zu KB", stack_len / KB);
  else
    printf("answer %2" PRIu32 "  %s %zu KB", answer, over ? "above" : "within", limit / KB);
  if ((bytes || over) && !past)
    printf("  %6zu bytes", touched);
  if (!past && answer != due)
    printf("  in place of %" PRIu32, due);
  putchar('\n');
  failed |= over || past || answer != due;
}

static void measure_log(const char *name, uint32_t due, double *log, uint64_t max_intervals, uint64_t allowed) {
  lay(max_intervals, log, allowed);
  measure(name, due, LOG_LIMIT, commit_log);
}

/* The rays that a log changes and the intervals after it, by a commit with both budgets out of reach. */
static void needs(double *log, uint64_t *rays, uint64_t *most) {
  lay(2 * RAYS + 3 * ENTRIES, log, ENTRIES);
  if (commit_log()) {
    fputs("the log is not committed\n", stderr);
    exit(2);
  }
  *rays = changed, *most = intervals;
}

static void measure_logs(void) {
  uint64_t rays, most, on_one, most_on_one, on_swing, most_on_swing;
  needs(many, &rays, &most), needs(one, &on_one, &most_on_one), needs(swing, &on_swing, &most_on_swing);
  printf("%d entries on %" PRIu64 " rays, and on %" PRIu64 "\n", ENTRIES, rays, on_one);
  measure_log("tridexel_commit_log, budgets out of reach", 0, many, 2 * RAYS + 3 * ENTRIES, ENTRIES);
  measure_log("tridexel_commit_log, 9 at once", 9, many, most, 0);
  measure_log("tridexel_commit_log, 9 at the last ray", 9, many, most, rays - 1);
  measure_log("tridexel_commit_log, 10 at the last ray", 10, many, most - 1, rays);
  measure_log("tridexel_commit_log, both budgets reached exactly", 0, many, most, rays);
  measure_log("tridexel_commit_log, all entries on one ray, budgets out of reach", 0, one, 2 * RAYS + 3 * ENTRIES, ENTRIES);
  measure_log("tridexel_commit_log, all entries on one ray, 9", 9, one, most_on_one, 0);
  measure_log("tridexel_commit_log, all entries on one ray, 10", 10, one, most_on_one - 1, on_one);
  measure_log("tridexel_commit_log, all entries on one ray, both budgets reached exactly", 0, one, most_on_one, on_one);
  measure_log("tridexel_commit_log, rays down, then up, both budgets reached exactly", 0, swing, most_on_swing, on_swing);
}

int main(int count, char **words) {
  for (int i = 1; i < count; i++)
    if (strcmp(words[i], "--bytes") == 0)
      bytes = 1;
    else
      stack_len = strtoul(words[i], NULL, 10) * KB;
  struct sigaction action = {.sa_sigaction = fault, .sa_flags = SA_SIGINFO | SA_ONSTACK};
  sigaction(SIGSEGV, &action, NULL);
  make_inputs();
  lay(2 * RAYS + 3 * ENTRIES, many, ENTRIES);
  on_painted_stack(nothing); /* the first thread also touches what the loader needs to bind a function late */
  measure("tridexel_normalize", 0, LIMIT, normalize);
  measure("tridexel_subtract", 0, LIMIT, subtract);
  measure("tridexel_intersect", 0, LIMIT, intersect);
  measure("tridexel_contains", 0, LIMIT, contains);
  measure("tridexel_overlaps", 0, LIMIT, overlaps);
  measure("tridexel_merge", 0, LIMIT, merge);
  measure("tridexel_trace", 0, LIMIT, trace);
  measure("tridexel_grid", 0, LIMIT, grid);
  measure("tridexel_fill", 0, LIMIT, fill);
  measure("tridexel_volume", 0, LIMIT, volume);
  measure("tridexel_commit_changes", 0, LIMIT, commit_changes);
  measure("tridexel_sweep, every axis and shape", 0, LIMIT, sweep);
  measure_logs();
  free(spans), free(links), free(heads), free(work);
  return failed;
}
