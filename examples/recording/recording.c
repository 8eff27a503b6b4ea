/* Locks and a queue of Concurrency Kit, and Peterson's lock with and without its fence, each recorded on the machine it runs on
 * and written as a script for scm_monitor, a trace for each run. See README.md beside this file. */
#define _GNU_SOURCE
#include "ck_recorded.h"

#include <inttypes.h>
#include <pthread.h>
#include <sched.h>
#include <time.h>

enum {
  MOST_THREADS = 4,
  MOST_ACCESSES = 20000, /* of a thread in a trace */
  RING_SLOTS = 4,
  SPINS_BEFORE_YIELDING = 10000,
  BUDGET = 1000000,
};

/* A cell of its own cache line. */
#define APART _Alignas(64)

struct program {
  const char *name;
  unsigned threads;
  void (*name_cells)(void);
  void (*set_up)(void);
  void (*execute)(unsigned thread, unsigned rounds);
  bool (*holds)(unsigned rounds); /* what the program promises, looked at when its threads are at their end */
};

static void name_cell(const volatile void *at, size_t bytes, const char *name, unsigned number) {
  char numbered[SCM_RECORD_LONGEST_NAME + 1];
  snprintf(numbered, sizeof numbered, number == UINT32_MAX ? "%s" : "%s-%u", name, number);
  if (scm_record_name(at, bytes, numbered) != SCM_RECORD_DONE)
    abort();
}

#define NAME(cell, name) name_cell(&(cell), sizeof(cell), name, UINT32_MAX)
#define NAME_OF_MANY(cell, name, number) name_cell(&(cell), sizeof(cell), name, number)

/* ---- What the locks guard: a counter that each holder reads and then writes */

static APART uint32_t counter;

static void count(void) {
  uint32_t seen = scm_plain_load(&counter);
  scm_plain_store(&counter, seen + 1);
}

static bool all_counted(unsigned rounds) { return counter == MOST_THREADS * rounds; }
static bool both_counted(unsigned rounds) { return counter == 2 * rounds; }

/* ---- Concurrency Kit's ticket lock */

static APART ck_spinlock_ticket_t ticket;

static void ticket_cells(void) {
  NAME(ticket.next, "next");
  NAME(ticket.position, "position");
  NAME(counter, "counter");
}

static void ticket_set_up(void) {
  ck_spinlock_ticket_init(&ticket);
  counter = 0;
}

static void ticket_execute(unsigned thread, unsigned rounds) {
  (void)thread;
  for (unsigned round = 0; round < rounds; round++) {
    ck_spinlock_ticket_lock(&ticket);
    count();
    ck_spinlock_ticket_unlock(&ticket);
  }
}

/* ---- Its MCS lock */

static APART ck_spinlock_mcs_t mcs;
static struct {
  APART ck_spinlock_mcs_context_t node;
} nodes[MOST_THREADS];

static void mcs_cells(void) {
  NAME(mcs, "queue");
  NAME(counter, "counter");
  for (unsigned thread = 0; thread < MOST_THREADS; thread++) {
    NAME_OF_MANY(nodes[thread].node.locked, "locked", thread);
    NAME_OF_MANY(nodes[thread].node.next, "next", thread);
  }
}

static void mcs_set_up(void) {
  ck_spinlock_mcs_init(&mcs);
  memset(nodes, 0, sizeof nodes);
  counter = 0;
}

static void mcs_execute(unsigned thread, unsigned rounds) {
  ck_spinlock_mcs_context_t *node = &nodes[thread].node;
  for (unsigned round = 0; round < rounds; round++) {
    /* The lock makes the same two stores again, as plain C, which no macro reaches; no other thread has the node yet. */
    scm_plain_store(&node->locked, true);
    scm_plain_store(&node->next, NULL);
    ck_spinlock_mcs_lock(&mcs, node);
    count();
    ck_spinlock_mcs_unlock(&mcs, node);
  }
}

/* ---- Its lock for readers and writers: writers keep two cells equal */

static APART ck_rwlock_t rwlock;
static APART uint32_t left, right;
static APART atomic_bool torn; /* not recorded */

static void rwlock_cells(void) {
  NAME(rwlock.writer, "writer");
  NAME(rwlock.n_readers, "readers");
  NAME(left, "left");
  NAME(right, "right");
}

static void rwlock_set_up(void) {
  ck_rwlock_init(&rwlock);
  left = right = 0;
  atomic_store(&torn, false);
}

static void rwlock_execute(unsigned thread, unsigned rounds) {
  for (unsigned round = 0; round < rounds; round++) {
    if (thread % 2 == 0) {
      ck_rwlock_write_lock(&rwlock);
      scm_plain_store(&left, scm_plain_load(&left) + 1);
      scm_plain_store(&right, scm_plain_load(&right) + 1);
      ck_rwlock_write_unlock(&rwlock);
    } else {
      ck_rwlock_read_lock(&rwlock);
      if (scm_plain_load(&left) != scm_plain_load(&right))
        atomic_store(&torn, true);
      ck_rwlock_read_unlock(&rwlock);
    }
  }
}

static bool never_torn(unsigned rounds) { return !atomic_load(&torn) && left == right && left == MOST_THREADS / 2 * rounds; }

/* ---- Its bounded queue, of one producer and one consumer */

static APART ck_ring_t ring;
static APART ck_ring_buffer_t slots[RING_SLOTS];
static APART atomic_bool out_of_order; /* not recorded */

static void ring_cells(void) {
  scm_record_only_named();
  NAME(ring.c_head, "head");
  NAME(ring.p_tail, "tail");
  for (unsigned slot = 0; slot < RING_SLOTS; slot++)
    NAME_OF_MANY(slots[slot].value, "slot", slot);
}

static void ring_set_up(void) {
  ck_ring_init(&ring, RING_SLOTS);
  memset(slots, 0, sizeof slots);
  atomic_store(&out_of_order, false);
}

static inline void ring_run(unsigned thread, unsigned rounds, bool is_fenced) {
  for (uintptr_t item = 1; item <= rounds; item++) {
    void *taken = (void *)item;
    while (thread == 0 ? !ck_ring_enqueue_spsc(&ring, slots, (void *)item) : !ck_ring_dequeue_spsc(&ring, slots, &taken))
      ck_pr_stall();
    if ((uintptr_t)taken != item)
      atomic_store(&out_of_order, true);
    if (is_fenced)
      ck_pr_fence_strict_memory();
  }
}

static void ring_execute(unsigned thread, unsigned rounds) { ring_run(thread, rounds, false); }
static void ring_fenced_execute(unsigned thread, unsigned rounds) { ring_run(thread, rounds, true); }

static bool in_order(unsigned rounds) {
  (void)rounds;
  return !atomic_load(&out_of_order);
}

/* ---- Peterson's lock, which needs a fence between its stores and its loads, even on x86 */

static APART atomic_uint wants[2], turn;

static void peterson_cells(void) {
  NAME_OF_MANY(wants[0], "wants", 0);
  NAME_OF_MANY(wants[1], "wants", 1);
  NAME(turn, "turn");
  NAME(counter, "counter");
}

static void peterson_set_up(void) {
  wants[0] = wants[1] = turn = 0;
  counter = 0;
}

static inline void peterson_round(unsigned me, bool is_fenced) {
  unsigned other = 1 - me;
  scm_atomic_store_explicit(&wants[me], 1, memory_order_release);
  scm_atomic_store_explicit(&turn, other, memory_order_release);
  if (is_fenced)
    atomic_thread_fence(memory_order_seq_cst);
  while (scm_atomic_load_explicit(&wants[other], memory_order_acquire) == 1 &&
         scm_atomic_load_explicit(&turn, memory_order_acquire) == other)
    ck_pr_stall();
  count();
  scm_atomic_store_explicit(&wants[me], 0, memory_order_release);
}

static void peterson_execute(unsigned thread, unsigned rounds) {
  for (unsigned round = 0; round < rounds; round++)
    peterson_round(thread, false);
}

static void peterson_fenced_execute(unsigned thread, unsigned rounds) {
  for (unsigned round = 0; round < rounds; round++)
    peterson_round(thread, true);
}

static const struct program PROGRAMS[] = {
    {"ticket", MOST_THREADS, ticket_cells, ticket_set_up, ticket_execute, all_counted},
    {"mcs", MOST_THREADS, mcs_cells, mcs_set_up, mcs_execute, all_counted},
    {"rwlock", MOST_THREADS, rwlock_cells, rwlock_set_up, rwlock_execute, never_torn},
    {"ring", 2, ring_cells, ring_set_up, ring_execute, in_order},
    {"ring-fenced", 2, ring_cells, ring_set_up, ring_fenced_execute, in_order},
    {"peterson", 2, peterson_cells, peterson_set_up, peterson_execute, both_counted},
    {"peterson-fenced", 2, peterson_cells, peterson_set_up, peterson_fenced_execute, both_counted},
};

enum { PROGRAMS_COUNT = sizeof PROGRAMS / sizeof *PROGRAMS };

/* ---- The runs of one program */

static struct {
  const struct program *program;
  unsigned traces, rounds;
  atomic_uint met;
  unsigned broken, unwritten; /* runs: that broke what the program promises; that the recorder couldn't hold */
  const char *why_unwritten;
  size_t accesses, longest, calls;
} runs;

/* Waits until all threads stand here for the n-th time. */
static void meet(unsigned n) {
  atomic_fetch_add(&runs.met, 1);
  for (unsigned spins = 1; atomic_load(&runs.met) < n * runs.program->threads; spins++)
    if (spins % SPINS_BEFORE_YIELDING == 0)
      sched_yield();
}

static void fail(const char *what) {
  fprintf(stderr, "recording: %s\n", what);
  exit(1);
}

static void begin_trace(void) {
  runs.program->set_up();
  int status = scm_record_begin(runs.program->threads, MOST_ACCESSES);
  if (status != SCM_RECORD_DONE)
    fail(scm_record_message(status));
}

static void end_trace(unsigned trace) {
  char name[32];
  size_t count = scm_record_count();
  scm_record_end();
  snprintf(name, sizeof name, "run-%u", trace);
  size_t calls = count + runs.program->threads + 3;
  bool is_room = calls <= SCM_RECORD_MOST_CALLS - runs.calls;
  int status = is_room ? scm_record_write(stdout, runs.program->name, name, BUDGET) : SCM_RECORD_DONE;
  if (status == SCM_RECORD_WRITE_FAILED)
    fail(scm_record_message(status));
  if (is_room && status == SCM_RECORD_DONE) {
    runs.calls += calls;
  } else {
    runs.unwritten++;
    runs.why_unwritten = is_room ? scm_record_message(status) : "a script has room for 1048576 calls";
  }
  runs.broken += !runs.program->holds(runs.rounds);
  runs.accesses += count;
  runs.longest = count > runs.longest ? count : runs.longest;
}

static void *run_all(void *argument) {
  unsigned thread = (unsigned)(uintptr_t)argument;
  for (unsigned trace = 0; trace < runs.traces; trace++) {
    if (thread == 0)
      begin_trace();
    meet(3 * trace + 1);
    meet(3 * trace + 2); /* who waited long at the first one may have lost its processor */
    runs.program->execute(thread, runs.rounds);
    meet(3 * trace + 3);
    if (thread == 0)
      end_trace(trace);
  }
  return NULL;
}

static void record(const struct program *program, unsigned traces, unsigned rounds) {
  pthread_t threads[MOST_THREADS];
  runs.program = program;
  runs.traces = traces;
  runs.rounds = rounds;
  program->name_cells();
  for (uintptr_t thread = 0; thread < program->threads; thread++)
    if (pthread_create(&threads[thread], NULL, run_all, (void *)thread) != 0)
      fail("a thread couldn't be started");
  for (unsigned thread = 0; thread < program->threads; thread++)
    pthread_join(threads[thread], NULL);
  scm_record_free();
  fprintf(stderr, "%s: %u runs, %zu accesses, %zu in the longest; %u runs broke the program's own promise", program->name, traces,
          runs.accesses, runs.longest, runs.broken);
  if (runs.unwritten != 0)
    fprintf(stderr, "; %u aren't written: %s", runs.unwritten, runs.why_unwritten);
  fprintf(stderr, "\n");
}

/* ---- What recording costs: the time of an access that is recorded, and of the same one that isn't */

static double seconds(void) {
  struct timespec time;
  clock_gettime(CLOCK_MONOTONIC, &time);
  return (double)time.tv_sec + (double)time.tv_nsec * 1e-9;
}

#define NANOSECONDS(access)                                                                                                \
  __extension__({                                                                                                          \
    double best_ = 1e9;                                                                                                    \
    for (unsigned try_ = 0; try_ < 20; try_++) {                                                                           \
      if (scm_record_begin(1, SCM_RECORD_MOST_ACCESSES) != SCM_RECORD_DONE)                                                \
        fail("no memory");                                                                                                 \
      double began_ = seconds();                                                                                           \
      for (unsigned i_ = 0; i_ < SCM_RECORD_MOST_ACCESSES; i_++)                                                           \
        (void)(access);                                                                                                    \
      double took_ = (seconds() - began_) * 1e9 / SCM_RECORD_MOST_ACCESSES;                                                \
      best_ = took_ < best_ ? took_ : best_;                                                                               \
    }                                                                                                                      \
    best_;                                                                                                                 \
  })

static void cost(void) {
  static APART atomic_uint cell;
  printf("nanoseconds an access, one thread, the best of 20 times 1000000\n");
  printf("%-24s %6s %9s\n", "", "alone", "recorded");
  printf("%-24s %6.1f %9.1f\n", "load", NANOSECONDS(atomic_load(&cell)), NANOSECONDS(scm_atomic_load(&cell)));
  printf("%-24s %6.1f %9.1f\n", "store, release", NANOSECONDS((atomic_store_explicit(&cell, 1, memory_order_release), 0)),
         NANOSECONDS((scm_atomic_store_explicit(&cell, 1, memory_order_release), 0)));
  printf("%-24s %6.1f %9.1f\n", "store, seq_cst", NANOSECONDS((atomic_store(&cell, 1), 0)), NANOSECONDS((scm_atomic_store(&cell, 1), 0)));
  printf("%-24s %6.1f %9.1f\n", "fetch_add", NANOSECONDS(atomic_fetch_add(&cell, 1)), NANOSECONDS(scm_atomic_fetch_add(&cell, 1)));
  scm_record_free();
}

static void usage(void) {
  fprintf(stderr, "usage: recording PROGRAM [RUNS [ROUNDS]] | recording cost\nprograms:");
  for (unsigned i = 0; i < PROGRAMS_COUNT; i++)
    fprintf(stderr, " %s", PROGRAMS[i].name);
  fprintf(stderr, "\n");
  exit(2);
}

static unsigned number(const char *word) {
  char *end;
  unsigned long value = strtoul(word, &end, 10);
  if (*word < '0' || *word > '9' || *end != '\0' || value == 0 || value > 1000000)
    usage();
  return (unsigned)value;
}

int main(int words, char **word) {
  if (words < 2 || words > 4)
    usage();
  unsigned traces = words > 2 ? number(word[2]) : 200, rounds = words > 3 ? number(word[3]) : 20;
  const struct program *program = NULL;
  for (unsigned i = 0; i < PROGRAMS_COUNT; i++)
    if (strcmp(word[1], PROGRAMS[i].name) == 0)
      program = &PROGRAMS[i];
  if (program != NULL)
    record(program, traces, rounds);
  else if (strcmp(word[1], "cost") == 0 && words == 2)
    cost();
  else
    usage();
  if (fflush(stdout) != 0 || ferror(stdout))
    fail("writing failed");
  return 0;
}
