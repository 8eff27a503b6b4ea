/* Runs small concurrent programs on the machine it stands on, many times each, and prints what their two threads loaded
 * and stored as a script for scm_monitor. Each run is a trace of its own, which is opened, asked about and closed; the
 * session's name is the program's, so that each verdict says what it is about. See README.md beside this file. */
#include <pthread.h>
#include <sched.h>
#include <stdatomic.h>
#include <stdbool.h>
#include <stdint.h>
#include <stdio.h>
#include <stdlib.h>
#include <string.h>

enum {
  THREADS = 2,
  ACCESSES = 2,                  /* of each thread in a run */
  CALLS_OF_A_RUN = 9,            /* open, two claims, four accesses, ask, close */
  MOST_CALLS = 1048576,          /* what the monitor's journal has room for in one script */
  SPINS_BEFORE_YIELDING = 10000, /* for where there are fewer free processors than threads */
};

/* Each cell has a cache line of its own, and so has what each thread saw. */
struct cell {
  _Alignas(64) atomic_uint value;
};

struct seen {
  _Alignas(64) uint32_t values[ACCESSES];
};

struct run {
  struct cell x, y;
  struct seen seen[THREADS];
};

/* An access in the monitor's words. What a load or an exchange saw is the last word of its line. */
struct access {
  const char *words;
  bool reads;
};

struct program {
  const char *name;
  struct access accesses[THREADS][ACCESSES];
  void (*execute[THREADS])(struct run *run, uint32_t *seen);
};

static void store(struct cell *cell, uint32_t value) {
  atomic_store_explicit(&cell->value, value, memory_order_relaxed);
}

static uint32_t load(struct cell *cell) {
  return atomic_load_explicit(&cell->value, memory_order_relaxed);
}

/* Keeps the compiler from changing the order of two accesses; the processor may. */
static void keep_order_in_code(void) { atomic_signal_fence(memory_order_seq_cst); }

static void fence(void) { atomic_thread_fence(memory_order_seq_cst); }

/* Store buffering: each thread stores to one cell and loads the other. */
static void buffer_x(struct run *run, uint32_t *seen) {
  store(&run->x, 1);
  keep_order_in_code();
  seen[1] = load(&run->y);
}

static void buffer_y(struct run *run, uint32_t *seen) {
  store(&run->y, 1);
  keep_order_in_code();
  seen[1] = load(&run->x);
}

static void buffer_x_fenced(struct run *run, uint32_t *seen) {
  store(&run->x, 1);
  fence();
  seen[1] = load(&run->y);
}

static void buffer_y_fenced(struct run *run, uint32_t *seen) {
  store(&run->y, 1);
  fence();
  seen[1] = load(&run->x);
}

/* The same with atomic exchanges in place of the stores. */
static void exchange_x(struct run *run, uint32_t *seen) {
  seen[0] = atomic_exchange(&run->x.value, 1);
  seen[1] = atomic_load(&run->y.value);
}

static void exchange_y(struct run *run, uint32_t *seen) {
  seen[0] = atomic_exchange(&run->y.value, 1);
  seen[1] = atomic_load(&run->x.value);
}

/* Message passing: one thread stores data and then a flag, the other loads the flag and then the data. */
static void send(struct run *run, uint32_t *seen) {
  (void)seen;
  store(&run->x, 1);
  keep_order_in_code();
  store(&run->y, 1);
}

static void receive(struct run *run, uint32_t *seen) {
  seen[0] = load(&run->y);
  keep_order_in_code();
  seen[1] = load(&run->x);
}

static void send_released(struct run *run, uint32_t *seen) {
  (void)seen;
  store(&run->x, 1);
  atomic_store_explicit(&run->y.value, 1, memory_order_release);
}

static void receive_acquired(struct run *run, uint32_t *seen) {
  seen[0] = atomic_load_explicit(&run->y.value, memory_order_acquire);
  seen[1] = load(&run->x);
}

/* Both threads count on one cell. */
static void count(struct run *run, uint32_t *seen) {
  seen[0] = atomic_fetch_add(&run->x.value, 1);
  seen[1] = atomic_fetch_add(&run->x.value, 1);
}

static const struct program PROGRAMS[] = {
    {"store-buffering", {{{"sw x 1", false}, {"lw y", true}}, {{"sw y 1", false}, {"lw x", true}}}, {buffer_x, buffer_y}},
    {"store-buffering-fences",
     {{{"sw x 1", false}, {"lw y", true}}, {{"sw y 1", false}, {"lw x", true}}},
     {buffer_x_fenced, buffer_y_fenced}},
    {"store-buffering-exchanges",
     {{{"amoswap.w x 1", true}, {"lw y", true}}, {{"amoswap.w y 1", true}, {"lw x", true}}},
     {exchange_x, exchange_y}},
    {"message-passing", {{{"sw x 1", false}, {"sw y 1", false}}, {{"lw y", true}, {"lw x", true}}}, {send, receive}},
    {"message-passing-release",
     {{{"sw x 1", false}, {"sw y 1", false}}, {{"lw y", true}, {"lw x", true}}},
     {send_released, receive_acquired}},
    {"fetch-and-add",
     {{{"amoadd.w x 1", true}, {"amoadd.w x 1", true}}, {{"amoadd.w x 1", true}, {"amoadd.w x 1", true}}},
     {count, count}},
};

enum { PROGRAMS_COUNT = sizeof PROGRAMS / sizeof PROGRAMS[0] };

/* The runs of one program, and how often a thread was ready to begin one. */
struct batch {
  const struct program *program;
  struct run *runs;
  unsigned count;
  atomic_uint ready;
};

struct thread {
  struct batch *batch;
  unsigned number;
};

/* Waits until both threads stand before this run, so that they execute it at about the same time. */
static void meet(struct batch *batch, unsigned run) {
  atomic_fetch_add(&batch->ready, 1);
  for (unsigned spins = 0; atomic_load(&batch->ready) < THREADS * (run + 1); spins++)
    if (spins > SPINS_BEFORE_YIELDING)
      sched_yield();
}

static void *execute_all(void *argument) {
  const struct thread *thread = argument;
  struct batch *batch = thread->batch;
  for (unsigned run = 0; run < batch->count; run++) {
    uint32_t seen[ACCESSES] = {0};
    meet(batch, run);
    batch->program->execute[thread->number](&batch->runs[run], seen);
    memcpy(batch->runs[run].seen[thread->number].values, seen, sizeof seen);
  }
  return NULL;
}

static void fail(const char *what) {
  fprintf(stderr, "recorder: %s\n", what);
  exit(1);
}

static void execute(struct batch *batch) {
  pthread_t handles[THREADS];
  struct thread threads[THREADS];
  for (unsigned number = 0; number < THREADS; number++) {
    threads[number] = (struct thread){batch, number};
    if (pthread_create(&handles[number], NULL, execute_all, &threads[number]) != 0)
      fail("a thread couldn't be started");
  }
  for (unsigned number = 0; number < THREADS; number++)
    pthread_join(handles[number], NULL);
}

static void print_run(const struct program *program, const struct run *run, unsigned number) {
  const char *name = program->name;
  printf("%s open run-%u %d 100 x:w=0 y:w=0\n", name, number, THREADS);
  for (unsigned thread = 0; thread < THREADS; thread++) {
    printf("%s claim run-%u %u\n", name, number, thread);
    for (unsigned k = 0; k < ACCESSES; k++) {
      const struct access *access = &program->accesses[thread][k];
      printf("%s do run-%u %u %s", name, number, thread, access->words);
      if (access->reads)
        printf(" %u", (unsigned)run->seen[thread].values[k]);
      putchar('\n');
    }
  }
  printf("%s ask run-%u\n%s close run-%u\n", name, number, name, number);
}

static void record(const struct program *program, unsigned count) {
  struct run *runs = aligned_alloc(_Alignof(struct run), count * sizeof *runs);
  if (runs == NULL)
    fail("no memory");
  memset(runs, 0, count * sizeof *runs);
  struct batch batch = {program, runs, count, 0};
  execute(&batch);
  for (unsigned run = 0; run < count; run++)
    print_run(program, &runs[run], run);
  free(runs);
}

static void usage(void) {
  fprintf(stderr, "usage: recorder RUNS [PROGRAM]\nprograms:");
  for (unsigned i = 0; i < PROGRAMS_COUNT; i++)
    fprintf(stderr, " %s", PROGRAMS[i].name);
  fprintf(stderr, "; without a name all of them\none script has room for %d runs\n", MOST_CALLS / CALLS_OF_A_RUN);
  exit(2);
}

int main(int words, char **word) {
  if (words < 2 || words > 3)
    usage();
  char *end;
  unsigned long count = strtoul(word[1], &end, 10);
  unsigned long chosen = 0;
  for (unsigned i = 0; i < PROGRAMS_COUNT; i++)
    if (words == 2 || strcmp(word[2], PROGRAMS[i].name) == 0)
      chosen++;
  if (*end != '\0' || count == 0 || chosen == 0 || count > MOST_CALLS / CALLS_OF_A_RUN / chosen)
    usage();
  for (unsigned i = 0; i < PROGRAMS_COUNT; i++)
    if (words == 2 || strcmp(word[2], PROGRAMS[i].name) == 0)
      record(&PROGRAMS[i], (unsigned)count);
  if (fflush(stdout) != 0 || ferror(stdout))
    fail("writing failed");
  return 0;
}
