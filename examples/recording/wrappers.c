/* Each wrapper of scm_record.h once, in C11 or in C++17, and each fault that a recording may have. The script goes to standard
 * output, to be compared with wrappers.scm. Status 1 where a fault isn't told. */
#include "scm_record.h"

#include <pthread.h>
#include <time.h>

#ifdef __cplusplus
typedef scm::atomic<uint32_t> word;
typedef scm::atomic<uint64_t> double_word;
typedef scm::atomic<int> number;
typedef scm::atomic<const char *> pointer;
#define LOAD(cell) cell.load()
#define LOAD_ACQUIRE(cell) cell.load(std::memory_order_acquire)
#define STORE(cell, value) cell.store(value)
#define STORE_RELEASE(cell, value) cell.store(value, std::memory_order_release)
#define EXCHANGE(cell, value) cell.exchange(value)
#define STRONG(cell, expected, desired) cell.compare_exchange_strong(expected, desired)
#define FETCH(operation, cell, by) cell.fetch_##operation(by)
#define CHANGE(operation, sign, cell, by) (cell sign(by))
#else
typedef _Atomic uint32_t word;
typedef _Atomic uint64_t double_word;
typedef atomic_int number;
typedef _Atomic(const char *) pointer;
#define LOAD(cell) scm_atomic_load(&cell)
#define LOAD_ACQUIRE(cell) scm_atomic_load_explicit(&cell, memory_order_acquire)
#define STORE(cell, value) scm_atomic_store(&cell, value)
#define STORE_RELEASE(cell, value) scm_atomic_store_explicit(&cell, value, memory_order_release)
#define EXCHANGE(cell, value) scm_atomic_exchange(&cell, value)
#define STRONG(cell, expected, desired) scm_atomic_compare_exchange_strong(&cell, &expected, desired)
#define FETCH(operation, cell, by) scm_atomic_fetch_##operation(&cell, by)
#define CHANGE(operation, sign, cell, by)                                                                               \
  __extension__({                                                                                                       \
    uint32_t changed_ = (uint32_t)scm_atomic_fetch_##operation(&cell, by);                                              \
    changed_ sign(uint32_t)(by);                                                                                        \
    (int)changed_;                                                                                                      \
  })
#endif

static word x;
static double_word wide;
static number small;
static pointer text;
static uint32_t data = 7;
static volatile uint64_t restless = 6;
static uint32_t many[SCM_RECORD_MOST_CELLS + 1];
static int faults;

static void expect(int status, int wanted, const char *what) {
  if (status == wanted)
    return;
  fprintf(stderr, "wrappers: %s: %s\n", what, scm_record_message(status));
  faults++;
}

static void expect_number(int found, int wanted, const char *what) {
  if (found == wanted)
    return;
  fprintf(stderr, "wrappers: %s gave %d\n", what, found);
  faults++;
}

static void each_wrapper(void) {
  uint32_t seen = LOAD(x);
  uint64_t expected = 5;
  STORE(x, seen + 1);
  STORE_RELEASE(x, 2);
  EXCHANGE(x, 3);
  seen = LOAD_ACQUIRE(x);
  STRONG(wide, expected, 1);
  STRONG(wide, expected, 9);
  FETCH(add, wide, UINT64_MAX);
  FETCH(and, wide, 12);
  FETCH(or, wide, 3);
  FETCH(xor, wide, 1);
  FETCH(sub, small, 3);
  FETCH(add, small, -1);
  expect_number(CHANGE(add, +=, small, INT32_MIN), INT32_MAX - 3, "+=");
  expect_number(CHANGE(sub, -=, small, INT32_MAX), -3, "-=");
  expect_number(CHANGE(and, &=, small, INT32_MAX), INT32_MAX - 2, "&=");
  expect_number(CHANGE(xor, ^=, small, -1), INT32_MIN + 2, "^=");
  expect_number(CHANGE(or, |=, small, 5), INT32_MIN + 7, "|=");
  STORE(text, NULL);
  scm_plain_store(&data, scm_plain_load(&data) + seen);
  scm_plain_store(&restless, scm_plain_load(&restless) - 7);
}

static void write_wrappers(void) {
  scm_record_name(&x, sizeof x, "x");
  scm_record_name(&wide, sizeof wide, "wide");
  scm_record_name(&small, sizeof small, "small");
  scm_record_name(&text, sizeof text, "text");
  scm_record_name(&data, sizeof data, "data");
  scm_record_name(&restless, sizeof restless, "restless");
  scm_record_begin(1, 100);
  each_wrapper();
  scm_record_end();
  STORE(x, 0);
  expect(scm_record_write(stdout, "a", "t", 1000), SCM_RECORD_DONE, "each wrapper");
  scm_record_free();
}

static int written_to(const char *path, uint64_t budget) {
  FILE *out = fopen(path, "w");
  scm_record_end();
  int status = scm_record_write(out, "a", "t", budget);
  fclose(out);
  return status;
}

static int written(void) { return written_to("/dev/null", 1000); }

static void expect_first_lines(const char *wanted, const char *what) {
  char found[200];
  FILE *out = tmpfile();
  scm_record_end();
  expect(scm_record_write(out, "a", "t", 1000), SCM_RECORD_DONE, what);
  rewind(out);
  found[fread(found, 1, sizeof found - 1, out)] = '\0';
  fclose(out);
  if (strncmp(found, wanted, strlen(wanted)) != 0) {
    fprintf(stderr, "wrappers: %s: the script begins\n%s\n", what, found);
    faults++;
  }
}

static void *load_often(void *argument) {
  for (unsigned i = 0; i < 600000; i++)
    scm_plain_load(&data);
  return argument;
}

static void *store_often(void *argument) {
  for (uint32_t i = 0; i < 30000; i++)
    scm_plain_store(&many[1], i);
  return argument;
}

static void *load_data(void *argument) {
  scm_plain_load(&data);
  return argument;
}

static void each_fault(void) {
  pthread_t other;
  expect(scm_record_begin(33, 10), SCM_RECORD_BAD_ROOM, "33 threads");
  expect(scm_record_begin(1, 0), SCM_RECORD_BAD_ROOM, "no accesses");
  expect(written(), SCM_RECORD_NOTHING, "nothing recorded");
  scm_record_begin(1, 10);
  for (unsigned i = 0; i < 11; i++)
    scm_plain_load(&data);
  expect(written(), SCM_RECORD_BUFFER_FULL, "11 accesses in a buffer for 10");
  scm_record_begin(1, 10);
  scm_plain_load(&data);
  pthread_create(&other, NULL, load_data, NULL);
  pthread_join(other, NULL);
  expect(written(), SCM_RECORD_TOO_MANY_THREADS, "2 threads with room for 1");
  scm_record_begin(1, 100);
  for (unsigned i = 0; i <= SCM_RECORD_MOST_CELLS; i++)
    scm_plain_store(&many[i], i);
  expect(written(), SCM_RECORD_TOO_MANY_CELLS, "65 cells");
  scm_record_begin(1, 100);
  scm_record_load(&many[0], 4, 0);
  scm_record_load(&many[0], 8, 0);
  expect(written(), SCM_RECORD_BAD_ADDRESS, "a cell of two widths");
  scm_record_begin(1, 100);
  scm_record_load((char *)&many[0] + 2, 4, 0);
  expect(written(), SCM_RECORD_BAD_ADDRESS, "an access that isn't aligned");
  scm_record_begin(1, 100);
  scm_record_load(&many[0], 2, 0);
  expect(written(), SCM_RECORD_BAD_ADDRESS, "an access of 2 bytes");
  expect(scm_record_name(&data, sizeof data, "Data"), SCM_RECORD_BAD_NAME, "a name in capitals");
  scm_record_name(&data, sizeof data, "same");
  scm_record_name(&many[0], sizeof many[0], "same");
  scm_record_begin(1, 100);
  scm_plain_load(&data);
  expect(written(), SCM_RECORD_BAD_NAME, "two cells of one name");
  scm_record_free();
}

static void each_fault_of_values(void) {
  scm_record_begin(1, 100);
  scm_plain_load(&data);
  expect(scm_record_begin(33, 10), SCM_RECORD_BAD_ROOM, "33 threads after a recording");
  expect(written(), SCM_RECORD_NOTHING, "nothing of the recording before");
  data = 7;
  scm_record_begin(1, 100);
  scm_record_name(&data, sizeof data, "data");
  scm_record_store(&data, sizeof data, (UINT64_C(1) << 32) + 7);
  expect_first_lines("a open t 1 1000 data:w=?\na claim t 0\na do t 0 sw data 7\n", "a name that came late, and a value of 33 bits");
  for (unsigned i = 0; i <= SCM_RECORD_MOST_CELLS; i++)
    expect(scm_record_name(&data, sizeof data, "again"), SCM_RECORD_DONE, "a cell that is named often");
  scm_record_begin(1, 100);
  scm_plain_load(&data);
  scm_record_name(&data, sizeof data, "anew");
  expect_first_lines("a open t 1 1000 anew:w=7\n", "a cell that is named anew");
  expect(written_to("/dev/null", 0), SCM_RECORD_BAD_BUDGET, "a budget of 0");
  expect(written_to("/dev/full", 1000), SCM_RECORD_WRITE_FAILED, "a full device");
  scm_record_begin(1, 100);
  scm_record_load(&data, 260, 0);
  expect(written(), SCM_RECORD_BAD_ADDRESS, "an access of 260 bytes");
}

static void each_fault_of_named_cells(void) {
  scm_record_only_named();
  scm_record_begin(1, 100);
  scm_plain_load(&many[0]);
  expect(written(), SCM_RECORD_NOTHING, "an access of another cell than the named one");
  scm_record_name((char *)&wide + 4, 4, "half");
  scm_record_begin(1, 100);
  scm_record_store(&wide, sizeof wide, 1);
  expect(written(), SCM_RECORD_BAD_ADDRESS, "an access that overlaps a named cell");
  scm_record_name(&many[SCM_RECORD_MOST_CELLS], sizeof *many, "last");
  scm_record_begin(1, 100);
  scm_record_store(many, sizeof many, 0);
  scm_record_load(&many[SCM_RECORD_MOST_CELLS], sizeof *many, 0);
  expect(written(), SCM_RECORD_BAD_ADDRESS, "an access of 260 bytes whose last are a named cell");
}

static void too_many_accesses(void) {
  pthread_t other;
  scm_record_begin(2, 600000);
  load_often(NULL);
  pthread_create(&other, NULL, load_often, NULL);
  pthread_join(other, NULL);
  expect(written(), SCM_RECORD_TOO_MANY_ACCESSES, "1,200,000 accesses");
  scm_record_free();
}

static void expect_written_soon(const char *what) {
  clock_t began = clock();
  expect(written(), SCM_RECORD_DONE, what);
  long seconds = (long)((clock() - began) / CLOCKS_PER_SEC);
  if (seconds >= 20) {
    fprintf(stderr, "wrappers: %s: written in %ld s\n", what, seconds);
    faults++;
  }
}

static void write_long_ones(void) {
  pthread_t other;
  scm_record_begin(2, 600000);
  pthread_create(&other, NULL, store_often, NULL);
  pthread_join(other, NULL);
  load_often(NULL);
  expect_written_soon("630,000 accesses");
  /* A thread whose first load nobody explains, as in what the recorder looks for, waits to the end of the script. */
  scm_record_name(&many[0], sizeof many[0], "unexplained");
  scm_record_begin(2, 600001);
  scm_record_load(&many[0], sizeof many[0], many[0] + 1);
  load_often(NULL);
  pthread_create(&other, NULL, store_often, NULL);
  pthread_join(other, NULL);
  expect_written_soon("630,001 accesses");
  scm_record_free();
}

int main(void) {
  write_wrappers();
  each_fault();
  each_fault_of_values();
  each_fault_of_named_cells();
  too_many_accesses();
  write_long_ones();
  return faults != 0;
}
