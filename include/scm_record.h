/* Records what the threads of a program load and store, and writes it as a script for scm_monitor.
 *
 *   scm_record_name(&flag, sizeof flag, "flag");    name the cells that you have names for
 *   scm_record_begin(2, 100000);                    room for 2 threads, 100,000 accesses each
 *   .. start the threads; they use scm_atomic_load(&flag) in place of atomic_load(&flag), and so on; join them ..
 *   scm_record_end();
 *   status = scm_record_write(stdout, "a", "t", 1000000);
 *   if (status != SCM_RECORD_DONE) fprintf(stderr, "%s\n", scm_record_message(status));
 *
 * Or scm_record_ask, with scm.h before this header, answers without a script.
 *
 * C11 or C++17, GCC or Clang, on a system where a weak symbol of several files is one (ELF, Mach-O).
 *
 * What is recorded. Aligned accesses of 4 or 8 bytes, of values without padding: in C by the macros scm_atomic_.., named like
 * those of <stdatomic.h>, in C++ by scm::atomic<T> in place of std::atomic<T>, in both by scm_plain_load and scm_plain_store,
 * and by scm_record_load, _store and _read_write for what has its own instructions. Fences are no accesses. An access that you
 * leave as it is isn't recorded: where it is a load no verdict becomes wrong, but a missing store makes the trace one about
 * nothing. So does a cell that is stored to by bytes, by another process or by the system, an access from a signal handler,
 * and a store in a library that has a recorder for itself: that is opened while the program runs, unless the program is linked
 * with -rdynamic; or is linked with -Bsymbolic, or with a version script that keeps scm_record_state and scm_record_own local.
 * What a cell is made with (a constructor of scm::atomic, atomic_init) isn't recorded: one that is made while recording, and
 * has a name or stands where another one was, as a node in freed memory does, needs a store before it is read.
 *
 * How. A thread has a buffer of its own from its first access on; an access takes a time stamp from the processor's counter
 * and a store into that buffer, no lock, no system call and no allocation. The lines of the script stand in about the order of
 * their happening: each thread's in its own order, and all by their stamps, but that a load waits for the store that it saw,
 * and a store for loads of the old value shortly after it. Without such a counter (other than x86, ARM64 and RISC-V) threads
 * stand one after another. The order makes no verdict wrong; a good one has long traces decided. Recording takes time, and so
 * changes how threads meet: examples/recording measures how much.
 *
 * What doesn't fit is told. At most 32 threads, 64 cells, and fewer accesses than a monitor takes calls; where a thread too many
 * came, a buffer was too short or an address isn't a cell, nothing is written and the status says why. */
#ifndef SCM_RECORD_H
#define SCM_RECORD_H

#ifdef __cplusplus
#include <atomic>
#include <type_traits>
#else
#include <stdatomic.h>
#endif
#include <stdbool.h>
#include <stddef.h>
#include <stdint.h>
#include <stdio.h>
#include <stdlib.h>
#include <string.h>

#if !defined(__GNUC__)
#error "scm_record.h needs GCC or Clang"
#endif

enum {
  SCM_RECORD_MOST_THREADS = 32,
  SCM_RECORD_MOST_CELLS = 64,
  SCM_RECORD_MOST_ACCESSES = 1000000, /* of a thread */
  SCM_RECORD_MOST_BUDGET = 1000000,
  SCM_RECORD_MOST_CALLS = 1 << 20, /* of a script: with those that open, claim, ask and close */
  SCM_RECORD_LONGEST_NAME = 32,
  SCM_RECORD_LONGEST_LINE = 4096,
  SCM_RECORD_PLACES = 256, /* of the table of cells by address */
};

/* Steps of the processor's counter in which a store comes to be seen by the others. */
#if defined(__x86_64__) || defined(__i386__)
enum { SCM_RECORD_SHORTLY = 300 };
#else
enum { SCM_RECORD_SHORTLY = 30 };
#endif
/* Accesses of a thread that are looked through for one shortly after a store: with a slow counter, or none, all would be. */
enum { SCM_RECORD_SOON = 100 };

enum {
  SCM_RECORD_DONE,
  SCM_RECORD_NO_MEMORY,
  SCM_RECORD_BAD_ROOM,
  SCM_RECORD_BAD_NAME,
  SCM_RECORD_TOO_MANY_THREADS,
  SCM_RECORD_BUFFER_FULL,
  SCM_RECORD_TOO_MANY_CELLS,
  SCM_RECORD_BAD_ADDRESS,
  SCM_RECORD_NOTHING,
  SCM_RECORD_WRITE_FAILED,
  SCM_RECORD_TOO_MANY_ACCESSES,
  SCM_RECORD_BAD_BUDGET,
};

static inline const char *scm_record_message(int status) {
  static const char *const messages[] = {
      "done",
      "no memory",
      "room is for 1 to 32 threads, and for 1 to 1000000 accesses of each",
      "a name has 1 to 32 bytes of a-z, 0-9, _ and -, and each cell one of its own",
      "more threads made accesses than there was room for",
      "a thread made more accesses than its buffer has room for",
      "more than 64 cells were accessed",
      "an access isn't an aligned one of 4 or 8 bytes, or overlaps another cell",
      "nothing was recorded",
      "writing failed, or the monitor refused a line",
      "more accesses than a monitor takes: 1048576 calls, with those that open, claim, ask and close",
      "a budget is 1 to 1000000",
  };
  return status >= 0 && status < (int)(sizeof messages / sizeof *messages) ? messages[status] : "no such status";
}

enum { SCM_RECORD_LOAD, SCM_RECORD_STORE, SCM_RECORD_READ_WRITE };

struct scm_record_access {
  uint64_t time;
  const volatile void *at;
  uint64_t first, second; /* what was loaded or stored; the old value and the new one */
  uint32_t bytes;
  uint8_t kind;
};

struct scm_record_buffer {
  struct scm_record_access *accesses;
  size_t count; /* beyond the room: how many were made, not how many are held */
  char own_cache_lines[112];
};

struct scm_record_cell {
  const volatile void *at;
  uint64_t first;
  uint32_t bytes;
  bool is_known; /* what it held at first */
  char name[SCM_RECORD_LONGEST_NAME + 1];
};

struct scm_record_state {
  uint32_t recording, last; /* the number of the recording that is on, or 0, and of the last one */
  uint32_t threads, joined;
  size_t room;
  bool only_named;
  uint32_t named;
  struct scm_record_cell cells[SCM_RECORD_MOST_CELLS]; /* those with a name of the caller */
  struct scm_record_buffer buffers[SCM_RECORD_MOST_THREADS];
};

/* The buffer of a thread, in the recording of this number. */
struct scm_record_own {
  uint32_t recording;
  struct scm_record_buffer *buffer;
};

#ifdef __cplusplus
extern "C" {
#endif
__attribute__((weak, visibility("default"))) struct scm_record_state scm_record_state;
__attribute__((weak, visibility("default"))) __thread struct scm_record_own scm_record_own;
#ifdef __cplusplus
}
#endif

/* ---- Recording */

static inline uint64_t scm_record_time(void) {
#if defined(__x86_64__) || defined(__i386__)
  unsigned processor;
  return __builtin_ia32_rdtscp(&processor); /* unlike rdtsc it waits for the loads before it */
#elif defined(__aarch64__)
  uint64_t time;
  __asm__ volatile("mrs %0, cntvct_el0" : "=r"(time));
  return time;
#elif defined(__riscv) && __riscv_xlen == 64
  uint64_t time;
  __asm__ volatile("rdtime %0" : "=r"(time));
  return time;
#else
  return 0;
#endif
}

/* Takes a buffer for the calling thread, where a recording is on. It comes by itself with the thread's first access; called
 * before, it takes that time away from it. Threads are numbered as they come. */
static inline void scm_record_join(void) {
  struct scm_record_own *own = &scm_record_own;
  uint32_t recording = __atomic_load_n(&scm_record_state.recording, __ATOMIC_ACQUIRE);
  if (own->recording == recording)
    return;
  own->recording = recording;
  own->buffer = NULL;
  if (recording == 0)
    return;
  uint32_t number = __atomic_fetch_add(&scm_record_state.joined, 1, __ATOMIC_RELAXED);
  if (number < scm_record_state.threads)
    own->buffer = &scm_record_state.buffers[number];
}

/* The number within so many bytes. */
static inline uint64_t scm_record_cut(uint64_t value, size_t bytes) { return bytes == 4 ? (uint32_t)value : value; }

/* Records an access that was just made. */
static inline void scm_record_access(unsigned kind, const volatile void *at, size_t bytes, uint64_t first, uint64_t second) {
  uint64_t time = scm_record_time();
  if (__builtin_expect(scm_record_own.recording != __atomic_load_n(&scm_record_state.recording, __ATOMIC_RELAXED), 0))
    scm_record_join();
  struct scm_record_buffer *buffer = scm_record_own.buffer;
  if (buffer == NULL)
    return;
  size_t place = buffer->count++;
  if (place >= scm_record_state.room)
    return;
  struct scm_record_access *access = &buffer->accesses[place];
  access->time = time;
  access->at = at;
  access->first = scm_record_cut(first, bytes);
  access->second = scm_record_cut(second, bytes);
  access->kind = (uint8_t)kind;
  access->bytes = bytes < UINT32_MAX ? (uint32_t)bytes : UINT32_MAX;
}

static inline void scm_record_load(const volatile void *at, size_t bytes, uint64_t value) {
  scm_record_access(SCM_RECORD_LOAD, at, bytes, value, 0);
}

static inline void scm_record_store(const volatile void *at, size_t bytes, uint64_t value) {
  scm_record_access(SCM_RECORD_STORE, at, bytes, value, 0);
}

/* The old value was read and the new one written in one step. */
static inline void scm_record_read_write(const volatile void *at, size_t bytes, uint64_t old_value, uint64_t new_value) {
  scm_record_access(SCM_RECORD_READ_WRITE, at, bytes, old_value, new_value);
}

/* The 4 or 8 bytes of a value as a number. */
static inline uint64_t scm_record_bits(const void *value, size_t bytes) {
  uint32_t word = 0;
  uint64_t double_word = 0;
  if (bytes == sizeof word) {
    memcpy(&word, value, sizeof word);
    return word;
  }
  memcpy(&double_word, value, bytes < sizeof double_word ? bytes : sizeof double_word);
  return double_word;
}

/* ---- Before and after: one thread calls these, while no other one makes accesses */

static inline bool scm_record_is_name(const char *name) {
  size_t length = strlen(name);
  return length >= 1 && length <= SCM_RECORD_LONGEST_NAME && strspn(name, "abcdefghijklmnopqrstuvwxyz0123456789_-") == length;
}

/* Names a cell, for this recording and those after it. What it holds when a recording begins is its first value there; it
 * must be memory then. A cell without a name is called by its address, and its first value is unknown, as that of one that got its
 * name while the recording was on. A cell that is named again has the new name. */
static inline int scm_record_name(const volatile void *at, size_t bytes, const char *name) {
  struct scm_record_state *state = &scm_record_state;
  if (!scm_record_is_name(name))
    return SCM_RECORD_BAD_NAME;
  if (bytes != 4 && bytes != 8)
    return SCM_RECORD_BAD_ADDRESS;
  uint32_t number = 0;
  while (number < state->named && state->cells[number].at != at)
    number++;
  if (number == SCM_RECORD_MOST_CELLS)
    return SCM_RECORD_TOO_MANY_CELLS;
  struct scm_record_cell *cell = &state->cells[number];
  if (number == state->named || cell->bytes != bytes)
    cell->is_known = false; /* until a recording begins */
  if (number == state->named)
    state->named++;
  cell->at = at;
  cell->bytes = (uint32_t)bytes;
  strcpy(cell->name, name);
  return SCM_RECORD_DONE;
}

/* From now on only the named cells are written, and accesses to others are left out: an inconsistent trace of some of the
 * cells is one of all, and a consistent one says nothing about those left out. */
static inline void scm_record_only_named(void) { scm_record_state.only_named = true; }

static inline void scm_record_end(void) { __atomic_store_n(&scm_record_state.recording, 0, __ATOMIC_RELEASE); }

/* Gives the memory back, and forgets the names. */
static inline void scm_record_free(void) {
  struct scm_record_state *state = &scm_record_state;
  scm_record_end();
  for (unsigned number = 0; number < SCM_RECORD_MOST_THREADS; number++) {
    free(state->buffers[number].accesses);
    state->buffers[number].accesses = NULL;
  }
  state->threads = state->joined = state->named = 0;
  state->room = 0;
  state->only_named = false;
}

static inline int scm_record_make_room(unsigned threads, size_t accesses) {
  struct scm_record_state *state = &scm_record_state;
  for (unsigned number = 0; number < SCM_RECORD_MOST_THREADS; number++) {
    struct scm_record_buffer *buffer = &state->buffers[number];
    buffer->count = 0;
    if (accesses == state->room && number < threads && buffer->accesses != NULL)
      continue;
    free(buffer->accesses);
    buffer->accesses = NULL;
    if (number >= threads)
      continue;
    size_t bytes = accesses * sizeof *buffer->accesses;
    buffer->accesses = (struct scm_record_access *)malloc(bytes);
    if (buffer->accesses == NULL)
      return SCM_RECORD_NO_MEMORY;
    memset(buffer->accesses, 0, bytes); /* so that no page is met for the first time on the way */
  }
  return SCM_RECORD_DONE;
}

/* Begins a recording, with room for this many threads and accesses of each. What was recorded before is gone. */
static inline int scm_record_begin(unsigned threads, size_t accesses) {
  struct scm_record_state *state = &scm_record_state;
  scm_record_end();
  state->threads = state->joined = 0;
  if (threads < 1 || threads > SCM_RECORD_MOST_THREADS || accesses < 1 || accesses > SCM_RECORD_MOST_ACCESSES)
    return SCM_RECORD_BAD_ROOM;
  int status = scm_record_make_room(threads, accesses);
  state->threads = status == SCM_RECORD_DONE ? threads : 0;
  state->room = status == SCM_RECORD_DONE ? accesses : 0;
  if (status != SCM_RECORD_DONE)
    return status;
  for (uint32_t number = 0; number < state->named; number++) {
    struct scm_record_cell *cell = &state->cells[number];
    cell->first = scm_record_bits((const void *)cell->at, cell->bytes);
    cell->is_known = true;
  }
  state->last = state->last == UINT32_MAX ? 1 : state->last + 1;
  __atomic_store_n(&state->recording, state->last, __ATOMIC_RELEASE);
  return SCM_RECORD_DONE;
}

/* ---- The script */

/* The cells of a recording, how many accesses are of them, and where in them an address stands, from 1 on. */
struct scm_record_cells {
  struct scm_record_cell cells[SCM_RECORD_MOST_CELLS];
  unsigned count;
  size_t accesses;
  uint8_t places[SCM_RECORD_PLACES];
};

static inline uint8_t *scm_record_place(struct scm_record_cells *cells, const volatile void *at) {
  size_t place = ((uintptr_t)at * UINT64_C(0x9E3779B97F4A7C15) >> 32) % SCM_RECORD_PLACES;
  while (cells->places[place] != 0 && cells->cells[cells->places[place] - 1].at != at)
    place = (place + 1) % SCM_RECORD_PLACES;
  return &cells->places[place];
}

/* The cell that has a byte among these, or NULL. */
static inline const struct scm_record_cell *scm_record_overlapped(const struct scm_record_cells *cells, const volatile void *at, size_t bytes) {
  for (unsigned number = 0; number < cells->count; number++) {
    const struct scm_record_cell *cell = &cells->cells[number];
    if ((uintptr_t)at < (uintptr_t)cell->at + cell->bytes && (uintptr_t)cell->at < (uintptr_t)at + bytes)
      return cell;
  }
  return NULL;
}

static inline int scm_record_add_cell(struct scm_record_cells *cells, const struct scm_record_cell *cell) {
  uint8_t *place = scm_record_place(cells, cell->at);
  if (*place != 0)
    return cells->cells[*place - 1].bytes == cell->bytes ? SCM_RECORD_DONE : SCM_RECORD_BAD_ADDRESS;
  if ((cell->bytes != 4 && cell->bytes != 8) || (uintptr_t)cell->at % cell->bytes != 0)
    return SCM_RECORD_BAD_ADDRESS;
  if (scm_record_overlapped(cells, cell->at, cell->bytes) != NULL)
    return SCM_RECORD_BAD_ADDRESS;
  if (cells->count == SCM_RECORD_MOST_CELLS)
    return SCM_RECORD_TOO_MANY_CELLS;
  for (unsigned number = 0; number < cells->count; number++)
    if (strcmp(cell->name, cells->cells[number].name) == 0)
      return SCM_RECORD_BAD_NAME;
  cells->cells[cells->count++] = *cell;
  *place = (uint8_t)cells->count;
  return SCM_RECORD_DONE;
}

static inline unsigned scm_record_threads(void) {
  return scm_record_state.joined < scm_record_state.threads ? scm_record_state.joined : scm_record_state.threads;
}

/* How many accesses were made; none are missing where scm_record_write is done. */
static inline size_t scm_record_count(void) {
  size_t count = 0;
  for (unsigned number = 0; number < scm_record_threads(); number++)
    count += scm_record_state.buffers[number].count;
  return count;
}

static inline int scm_record_cells_of(const struct scm_record_buffer *buffer, struct scm_record_cells *cells) {
  if (buffer->count > scm_record_state.room)
    return SCM_RECORD_BUFFER_FULL;
  for (size_t place = 0; place < buffer->count; place++) {
    const struct scm_record_access *access = &buffer->accesses[place];
    struct scm_record_cell cell = {access->at, 0, access->bytes, false, ""};
    if (scm_record_state.only_named && *scm_record_place(cells, access->at) == 0 &&
        scm_record_overlapped(cells, access->at, access->bytes) == NULL)
      continue;
    snprintf(cell.name, sizeof cell.name, "m%llx", (unsigned long long)(uintptr_t)access->at);
    int status = scm_record_add_cell(cells, &cell);
    if (status != SCM_RECORD_DONE)
      return status;
    cells->accesses++;
  }
  return SCM_RECORD_DONE;
}

static inline int scm_record_all_cells(struct scm_record_cells *cells) {
  const struct scm_record_state *state = &scm_record_state;
  memset(cells, 0, sizeof *cells);
  if (state->joined > state->threads)
    return SCM_RECORD_TOO_MANY_THREADS;
  int status = SCM_RECORD_DONE;
  for (uint32_t number = 0; status == SCM_RECORD_DONE && number < state->named; number++)
    status = scm_record_add_cell(cells, &state->cells[number]);
  for (unsigned number = 0; status == SCM_RECORD_DONE && number < scm_record_threads(); number++)
    status = scm_record_cells_of(&state->buffers[number], cells);
  if (status == SCM_RECORD_DONE && cells->accesses == 0)
    return SCM_RECORD_NOTHING;
  if (status == SCM_RECORD_DONE && cells->accesses + scm_record_threads() + 3 > SCM_RECORD_MOST_CALLS)
    return SCM_RECORD_TOO_MANY_ACCESSES;
  return status;
}

/* Takes a line without its line feed; false where it can't. */
typedef bool scm_record_taker(void *taker, const char *line, size_t length);

/* What the lines of a script have in common. */
struct scm_record_script {
  scm_record_taker *take;
  void *taker;
  const char *session, *trace;
  uint64_t budget;
  struct scm_record_cells cells;
};

static inline bool scm_record_take_open(const struct scm_record_script *script) {
  char line[SCM_RECORD_LONGEST_LINE];
  int length = snprintf(line, sizeof line, "%s open %s %u %llu", script->session, script->trace, scm_record_threads(),
                        (unsigned long long)script->budget);
  for (unsigned number = 0; number < script->cells.count; number++) {
    const struct scm_record_cell *cell = &script->cells.cells[number];
    length += snprintf(line + length, sizeof line - (size_t)length, " %s:%c=", cell->name, cell->bytes == 4 ? 'w' : 'd');
    length += cell->is_known ? snprintf(line + length, sizeof line - (size_t)length, "%llu", (unsigned long long)cell->first)
                             : snprintf(line + length, sizeof line - (size_t)length, "?");
  }
  return script->take(script->taker, line, (size_t)length);
}

static inline bool scm_record_take_claim(const struct scm_record_script *script, unsigned thread) {
  char line[128];
  int length = snprintf(line, sizeof line, "%s claim %s %u", script->session, script->trace, thread);
  return script->take(script->taker, line, (size_t)length);
}

static inline bool scm_record_take_access(const struct scm_record_script *script, unsigned thread,
                                          const struct scm_record_access *access, const char *name) {
  char line[256];
  unsigned long long first = access->first, second = access->second;
  int length = snprintf(line, sizeof line, "%s do %s %u ", script->session, script->trace, thread);
  if (access->kind == SCM_RECORD_READ_WRITE)
    length += snprintf(line + length, sizeof line - (size_t)length, "rw %s %llu %llu", name, first, second);
  else
    length += snprintf(line + length, sizeof line - (size_t)length, "%c%c %s %llu", access->kind == SCM_RECORD_LOAD ? 'l' : 's',
                       access->bytes == 4 ? 'w' : 'd', name, first);
  return script->take(script->taker, line, (size_t)length);
}

/* How far the lines of a script have come: the next access of each thread, and what the cells hold. */
struct scm_record_front {
  size_t next[SCM_RECORD_MOST_THREADS];
  uint64_t contents[SCM_RECORD_MOST_CELLS];
  bool is_known[SCM_RECORD_MOST_CELLS];
};

/* The next access of a thread, or NULL. */
static inline const struct scm_record_access *scm_record_next(const struct scm_record_front *front, unsigned thread) {
  const struct scm_record_buffer *buffer = &scm_record_state.buffers[thread];
  return front->next[thread] < buffer->count ? &buffer->accesses[front->next[thread]] : NULL;
}

/* Whether the access finds what it read. */
static inline bool scm_record_fits(struct scm_record_script *script, const struct scm_record_front *front, const struct scm_record_access *access) {
  uint8_t place = *scm_record_place(&script->cells, access->at);
  return place == 0 || access->kind == SCM_RECORD_STORE || !front->is_known[place - 1] || front->contents[place - 1] == access->first;
}

/* Whether the thread read the present value of the cell until shortly after this time. */
static inline bool scm_record_still_reads(const struct scm_record_front *front, unsigned thread, const volatile void *at, uint64_t value, uint64_t time) {
  const struct scm_record_buffer *buffer = &scm_record_state.buffers[thread];
  for (size_t place = front->next[thread]; place < buffer->count && place - front->next[thread] < SCM_RECORD_SOON; place++) {
    const struct scm_record_access *access = &buffer->accesses[place];
    if (access->time > time + SCM_RECORD_SHORTLY)
      return false;
    if (access->at == at)
      return access->kind != SCM_RECORD_STORE && access->first == value;
  }
  return false;
}

/* A thread whose next access comes before this one, which changes its cell, since it read the old value: a store is seen by
 * the others some time after its stamp. Else the thread itself. */
static inline unsigned scm_record_reader_before(struct scm_record_script *script, const struct scm_record_front *front, unsigned thread) {
  const struct scm_record_access *change = scm_record_next(front, thread);
  uint8_t place = *scm_record_place(&script->cells, change->at);
  uint64_t value = change->kind == SCM_RECORD_READ_WRITE ? change->second : change->first;
  if (place == 0 || change->kind == SCM_RECORD_LOAD || !front->is_known[place - 1] || front->contents[place - 1] == value)
    return thread;
  for (unsigned other = 0; other < scm_record_threads(); other++) {
    const struct scm_record_access *next = scm_record_next(front, other);
    /* A thread that waits for a store may have made nearly all its accesses by then: they aren't looked through. */
    if (other != thread && next != NULL && scm_record_fits(script, front, next) &&
        scm_record_still_reads(front, other, change->at, front->contents[place - 1], change->time))
      return other;
  }
  return thread;
}

/* The thread whose next access has the earliest stamp: of those that find what they read, where one does. The number of threads
 * where none has a next access. */
static inline unsigned scm_record_earliest(struct scm_record_script *script, const struct scm_record_front *front) {
  unsigned threads = scm_record_threads(), earliest = threads;
  bool earliest_fits = false;
  uint64_t time = 0;
  for (unsigned thread = 0; thread < threads; thread++) {
    const struct scm_record_access *access = scm_record_next(front, thread);
    if (access == NULL)
      continue;
    bool fits = scm_record_fits(script, front, access);
    if (earliest != threads && (fits != earliest_fits ? !fits : access->time >= time))
      continue;
    earliest = thread;
    earliest_fits = fits;
    time = access->time;
  }
  return earliest;
}

/* Hands the thread's next access over. */
static inline bool scm_record_advance(struct scm_record_script *script, struct scm_record_front *front, unsigned thread) {
  const struct scm_record_access *access = scm_record_next(front, thread);
  uint8_t place = *scm_record_place(&script->cells, access->at);
  front->next[thread]++;
  if (place == 0)
    return true;
  front->contents[place - 1] = access->kind == SCM_RECORD_READ_WRITE ? access->second : access->first;
  front->is_known[place - 1] = true;
  return scm_record_take_access(script, thread, access, script->cells.cells[place - 1].name);
}

/* Hands all accesses over, in about the order of their happening. */
static inline bool scm_record_take_accesses(struct scm_record_script *script) {
  struct scm_record_front front;
  memset(&front, 0, sizeof front);
  for (unsigned number = 0; number < script->cells.count; number++) {
    front.contents[number] = script->cells.cells[number].first;
    front.is_known[number] = script->cells.cells[number].is_known;
  }
  for (unsigned thread; (thread = scm_record_earliest(script, &front)) < scm_record_threads();)
    if (!scm_record_advance(script, &front, scm_record_reader_before(script, &front, thread)))
      return false;
  return true;
}

/* Hands all lines but the question over, in order: open, a claim for each thread, the accesses. Nothing is handed over where
 * the recording has a fault. */
static inline int scm_record_hand_over(scm_record_taker *take, void *taker, const char *session, const char *trace, uint64_t budget) {
  struct scm_record_script script;
  script.take = take;
  script.taker = taker;
  script.session = session;
  script.trace = trace;
  script.budget = budget;
  if (!scm_record_is_name(session) || !scm_record_is_name(trace))
    return SCM_RECORD_BAD_NAME;
  if (budget < 1 || budget > SCM_RECORD_MOST_BUDGET)
    return SCM_RECORD_BAD_BUDGET;
  int status = scm_record_all_cells(&script.cells);
  if (status != SCM_RECORD_DONE)
    return status;
  bool taken = scm_record_take_open(&script);
  for (unsigned thread = 0; taken && thread < scm_record_threads(); thread++)
    taken = scm_record_take_claim(&script, thread);
  return taken && scm_record_take_accesses(&script) ? SCM_RECORD_DONE : SCM_RECORD_WRITE_FAILED;
}

static inline bool scm_record_write_line(void *out, const char *line, size_t length) {
  return fwrite(line, 1, length, (FILE *)out) == length && putc('\n', (FILE *)out) != EOF;
}

/* Writes the script: the trace of this name is opened with this budget, reported, asked about and closed. */
static inline int scm_record_write(FILE *out, const char *session, const char *trace, uint64_t budget) {
  int status = scm_record_hand_over(scm_record_write_line, out, session, trace, budget);
  if (status == SCM_RECORD_DONE && (fprintf(out, "%s ask %s\n%s close %s\n", session, trace, session, trace) < 0 || fflush(out) != 0))
    return SCM_RECORD_WRITE_FAILED;
  return status;
}

#ifdef SCM_H /* where scm.h was included before: no script is written, the monitor answers at once */

static inline bool scm_record_say(void *monitor, const char *line, size_t length) {
  uint8_t reply[128];
  size_t needed = 0;
  return scm_line((scm_monitor *)monitor, (const uint8_t *)line, length, reply, sizeof reply, &needed) == SCM_DONE && needed > 4 &&
         memcmp(reply + needed - 4, " ok\n", 4) == 0;
}

/* Reports the recording to a monitor as the trace of this name, and asks. The verdict is a code of scm.h, and the trace stays open;
 * where a line is refused (SCM_RECORD_WRITE_FAILED) scm_text has the reply. */
static inline int scm_record_ask(scm_monitor *monitor, const char *session, const char *trace, uint64_t budget, uint32_t *verdict) {
  int status = scm_record_hand_over(scm_record_say, monitor, session, trace, budget);
  if (status == SCM_RECORD_DONE)
    *verdict = scm_ask(monitor, scm_number(monitor, session), scm_number(monitor, trace));
  return status;
}

#endif

/* ---- Accesses */

#ifdef __cplusplus

template <typename T> inline typename std::remove_volatile<T>::type scm_plain_load(const T *at) {
  static_assert(sizeof(T) == 4 || sizeof(T) == 8, "4 or 8 bytes");
  typename std::remove_volatile<T>::type value = *const_cast<const volatile T *>(at);
  scm_record_load(at, sizeof value, scm_record_bits(&value, sizeof value));
  return value;
}

template <typename T> inline void scm_plain_store(T *at, typename std::common_type<T>::type value) {
  static_assert(sizeof(T) == 4 || sizeof(T) == 8, "4 or 8 bytes");
  *const_cast<volatile T *>(at) = value;
  scm_record_store(at, sizeof value, scm_record_bits(&value, sizeof value));
}

namespace scm {

/* std::atomic<T> whose accesses are recorded; its address is that of its value. */
template <typename T> class atomic {
  static_assert(sizeof(T) == 4 || sizeof(T) == 8, "4 or 8 bytes");
  static_assert(sizeof(std::atomic<T>) == sizeof(T), "an atomic of the size of its value");
  using order = std::memory_order;
  std::atomic<T> value_;

  static uint64_t bits(const T &value) { return scm_record_bits(&value, sizeof value); }

  static T of_bits(uint64_t number) {
    uint32_t word = (uint32_t)number;
    T value;
    memcpy(&value, sizeof value == sizeof word ? (const void *)&word : &number, sizeof value);
    return value;
  }

  T changed(T old_value, uint64_t new_value) {
    scm_record_read_write(this, sizeof(T), bits(old_value), scm_record_cut(new_value, sizeof(T)));
    return old_value;
  }

  bool compared(bool is_exchanged, T old_value, const T &seen, T desired) {
    if (is_exchanged)
      scm_record_read_write(this, sizeof(T), bits(old_value), bits(desired));
    else
      scm_record_load(this, sizeof(T), bits(seen));
    return is_exchanged;
  }

public:
  atomic() noexcept = default;
  constexpr atomic(T value) noexcept : value_(value) {}
  atomic(const atomic &) = delete;
  atomic &operator=(const atomic &) = delete;

  T load(order o = std::memory_order_seq_cst) const {
    T value = value_.load(o);
    scm_record_load(this, sizeof(T), bits(value));
    return value;
  }
  void store(T value, order o = std::memory_order_seq_cst) {
    value_.store(value, o);
    scm_record_store(this, sizeof(T), bits(value));
  }
  T exchange(T value, order o = std::memory_order_seq_cst) { return changed(value_.exchange(value, o), bits(value)); }

  bool compare_exchange_strong(T &expected, T desired, order success, order failure) {
    T old_value = expected;
    return compared(value_.compare_exchange_strong(expected, desired, success, failure), old_value, expected, desired);
  }
  bool compare_exchange_weak(T &expected, T desired, order success, order failure) {
    T old_value = expected;
    return compared(value_.compare_exchange_weak(expected, desired, success, failure), old_value, expected, desired);
  }
  bool compare_exchange_strong(T &expected, T desired, order o = std::memory_order_seq_cst) {
    T old_value = expected;
    return compared(value_.compare_exchange_strong(expected, desired, o), old_value, expected, desired);
  }
  bool compare_exchange_weak(T &expected, T desired, order o = std::memory_order_seq_cst) {
    T old_value = expected;
    return compared(value_.compare_exchange_weak(expected, desired, o), old_value, expected, desired);
  }

  T fetch_add(T by, order o = std::memory_order_seq_cst) {
    static_assert(std::is_integral<T>::value, "sums are recorded of integers");
    T old_value = value_.fetch_add(by, o);
    return changed(old_value, bits(old_value) + bits(by));
  }
  T fetch_sub(T by, order o = std::memory_order_seq_cst) {
    static_assert(std::is_integral<T>::value, "sums are recorded of integers");
    T old_value = value_.fetch_sub(by, o);
    return changed(old_value, bits(old_value) - bits(by));
  }
  T fetch_and(T by, order o = std::memory_order_seq_cst) {
    T old_value = value_.fetch_and(by, o);
    return changed(old_value, bits(old_value) & bits(by));
  }
  T fetch_or(T by, order o = std::memory_order_seq_cst) {
    T old_value = value_.fetch_or(by, o);
    return changed(old_value, bits(old_value) | bits(by));
  }
  T fetch_xor(T by, order o = std::memory_order_seq_cst) {
    T old_value = value_.fetch_xor(by, o);
    return changed(old_value, bits(old_value) ^ bits(by));
  }

  operator T() const { return load(); }
  T operator=(T value) {
    store(value);
    return value;
  }
  T operator++() { return *this += 1; }
  T operator++(int) { return fetch_add(1); }
  T operator--() { return *this -= 1; }
  T operator--(int) { return fetch_sub(1); }
  T operator+=(T by) { return of_bits(bits(fetch_add(by)) + bits(by)); }
  T operator-=(T by) { return of_bits(bits(fetch_sub(by)) - bits(by)); }
  T operator&=(T by) { return of_bits(bits(fetch_and(by)) & bits(by)); }
  T operator|=(T by) { return of_bits(bits(fetch_or(by)) | bits(by)); }
  T operator^=(T by) { return of_bits(bits(fetch_xor(by)) ^ bits(by)); }
};

} // namespace scm

#else

/* The type of what the pointer leads to, without qualifiers. */
#define SCM_RECORD_TYPE(pointer) __typeof__(((void)0, *(pointer)))
#define SCM_RECORD_SIZED(type) _Static_assert(sizeof(type) == 4 || sizeof(type) == 8, "4 or 8 bytes")
#define SCM_RECORD_BITS(value) scm_record_bits(&(value), sizeof(value))

#define scm_plain_load(at)                                                                                              \
  __extension__({                                                                                                       \
    __auto_type scm_at_ = (at);                                                                                         \
    SCM_RECORD_TYPE(scm_at_) scm_value_ = *(const volatile SCM_RECORD_TYPE(scm_at_) *)scm_at_;                          \
    SCM_RECORD_SIZED(scm_value_);                                                                                       \
    scm_record_load(scm_at_, sizeof scm_value_, SCM_RECORD_BITS(scm_value_));                                           \
    scm_value_;                                                                                                         \
  })

#define scm_plain_store(at, value)                                                                                      \
  __extension__({                                                                                                       \
    __auto_type scm_at_ = (at);                                                                                         \
    SCM_RECORD_TYPE(scm_at_) scm_value_ = (value);                                                                      \
    SCM_RECORD_SIZED(scm_value_);                                                                                       \
    *(volatile SCM_RECORD_TYPE(scm_at_) *)scm_at_ = scm_value_;                                                         \
    scm_record_store(scm_at_, sizeof scm_value_, SCM_RECORD_BITS(scm_value_));                                          \
  })

#define scm_atomic_load_explicit(object, order)                                                                         \
  __extension__({                                                                                                       \
    __auto_type scm_at_ = (object);                                                                                     \
    SCM_RECORD_TYPE(scm_at_) scm_value_ = atomic_load_explicit(scm_at_, (order));                                       \
    SCM_RECORD_SIZED(scm_value_);                                                                                       \
    scm_record_load(scm_at_, sizeof scm_value_, SCM_RECORD_BITS(scm_value_));                                           \
    scm_value_;                                                                                                         \
  })

#define scm_atomic_store_explicit(object, value, order)                                                                 \
  __extension__({                                                                                                       \
    __auto_type scm_at_ = (object);                                                                                     \
    SCM_RECORD_TYPE(scm_at_) scm_value_ = (value);                                                                      \
    SCM_RECORD_SIZED(scm_value_);                                                                                       \
    atomic_store_explicit(scm_at_, scm_value_, (order));                                                                \
    scm_record_store(scm_at_, sizeof scm_value_, SCM_RECORD_BITS(scm_value_));                                          \
  })

#define scm_atomic_exchange_explicit(object, value, order)                                                              \
  __extension__({                                                                                                       \
    __auto_type scm_at_ = (object);                                                                                     \
    SCM_RECORD_TYPE(scm_at_) scm_value_ = (value);                                                                      \
    SCM_RECORD_SIZED(scm_value_);                                                                                       \
    SCM_RECORD_TYPE(scm_at_) scm_old_ = atomic_exchange_explicit(scm_at_, scm_value_, (order));                         \
    scm_record_read_write(scm_at_, sizeof scm_value_, SCM_RECORD_BITS(scm_old_), SCM_RECORD_BITS(scm_value_));          \
    scm_old_;                                                                                                           \
  })

/* One that failed is a load of what it saw. */
#define SCM_RECORD_COMPARE_EXCHANGE(strength, object, expected, desired, success, failure)                              \
  __extension__({                                                                                                       \
    __auto_type scm_at_ = (object);                                                                                     \
    __auto_type scm_expected_ = (expected);                                                                             \
    SCM_RECORD_TYPE(scm_at_) scm_value_ = (desired);                                                                    \
    SCM_RECORD_TYPE(scm_at_) scm_old_ = *scm_expected_;                                                                 \
    SCM_RECORD_SIZED(scm_value_);                                                                                       \
    _Bool scm_done_ = atomic_compare_exchange_##strength##_explicit(scm_at_, scm_expected_, scm_value_, success, failure); \
    if (scm_done_)                                                                                                      \
      scm_record_read_write(scm_at_, sizeof scm_value_, SCM_RECORD_BITS(scm_old_), SCM_RECORD_BITS(scm_value_));        \
    else                                                                                                                \
      scm_record_load(scm_at_, sizeof scm_value_, SCM_RECORD_BITS(*scm_expected_));                                     \
    scm_done_;                                                                                                          \
  })

#define SCM_RECORD_FETCH(operation, sign, object, by, order)                                                            \
  __extension__({                                                                                                       \
    __auto_type scm_at_ = (object);                                                                                     \
    _Static_assert((SCM_RECORD_TYPE(scm_at_))1 / 2 == 0, "sums are recorded of integers");                              \
    SCM_RECORD_TYPE(scm_at_) scm_by_ = (by);                                                                            \
    SCM_RECORD_SIZED(scm_by_);                                                                                          \
    SCM_RECORD_TYPE(scm_at_) scm_old_ = atomic_fetch_##operation##_explicit(scm_at_, scm_by_, (order));                 \
    scm_record_read_write(scm_at_, sizeof scm_old_, SCM_RECORD_BITS(scm_old_),                                          \
                          scm_record_cut(SCM_RECORD_BITS(scm_old_) sign SCM_RECORD_BITS(scm_by_), sizeof scm_old_));    \
    scm_old_;                                                                                                           \
  })

#define scm_atomic_compare_exchange_strong_explicit(object, expected, desired, success, failure)                        \
  SCM_RECORD_COMPARE_EXCHANGE(strong, object, expected, desired, success, failure)
#define scm_atomic_compare_exchange_weak_explicit(object, expected, desired, success, failure)                          \
  SCM_RECORD_COMPARE_EXCHANGE(weak, object, expected, desired, success, failure)
#define scm_atomic_fetch_add_explicit(object, by, order) SCM_RECORD_FETCH(add, +, object, by, order)
#define scm_atomic_fetch_sub_explicit(object, by, order) SCM_RECORD_FETCH(sub, -, object, by, order)
#define scm_atomic_fetch_and_explicit(object, by, order) SCM_RECORD_FETCH(and, &, object, by, order)
#define scm_atomic_fetch_or_explicit(object, by, order) SCM_RECORD_FETCH(or, |, object, by, order)
#define scm_atomic_fetch_xor_explicit(object, by, order) SCM_RECORD_FETCH(xor, ^, object, by, order)

#define scm_atomic_load(object) scm_atomic_load_explicit(object, memory_order_seq_cst)
#define scm_atomic_store(object, value) scm_atomic_store_explicit(object, value, memory_order_seq_cst)
#define scm_atomic_exchange(object, value) scm_atomic_exchange_explicit(object, value, memory_order_seq_cst)
#define scm_atomic_compare_exchange_strong(object, expected, desired)                                                   \
  scm_atomic_compare_exchange_strong_explicit(object, expected, desired, memory_order_seq_cst, memory_order_seq_cst)
#define scm_atomic_compare_exchange_weak(object, expected, desired)                                                     \
  scm_atomic_compare_exchange_weak_explicit(object, expected, desired, memory_order_seq_cst, memory_order_seq_cst)
#define scm_atomic_fetch_add(object, by) scm_atomic_fetch_add_explicit(object, by, memory_order_seq_cst)
#define scm_atomic_fetch_sub(object, by) scm_atomic_fetch_sub_explicit(object, by, memory_order_seq_cst)
#define scm_atomic_fetch_and(object, by) scm_atomic_fetch_and_explicit(object, by, memory_order_seq_cst)
#define scm_atomic_fetch_or(object, by) scm_atomic_fetch_or_explicit(object, by, memory_order_seq_cst)
#define scm_atomic_fetch_xor(object, by) scm_atomic_fetch_xor_explicit(object, by, memory_order_seq_cst)

#endif
#endif
