/* Calls of all kinds with arguments at random, for so many seconds: lines that are none, lengths, rooms, numbers out of range,
 * monitors that aren't live. Each buffer is a block of its own of just its length, so that a sanitizer sees a byte too far. Status
 * 1 where an answer can't be. */
#include "scm.h"

#include <stdio.h>
#include <stdlib.h>
#include <time.h>

static uint64_t state;

static uint64_t chance(uint64_t below) {
  state ^= state << 13;
  state ^= state >> 7;
  state ^= state << 17;
  return below == 0 ? 0 : state % below;
}

/* Small numbers mostly, and any. */
static uint64_t any_number(void) {
  switch (chance(8)) {
  case 0: return chance(0) + state;
  case 1: return UINT64_MAX - chance(3);
  case 2: return (uint64_t)1 << chance(64);
  default: return chance(6);
  }
}

static const char *const WORDS[] = {"a",  "b",   "open", "claim", "release", "do",  "mark",  "back", "raise", "ask", "why",  "cycle", "show",    "list",
                                    "close", "t", "u",    "x:w=0", "y:d=?",   "0",   "1",     "2",    "100",   "x",   "y",    "lw",    "sw",      "ld",
                                    "sd", "rw",  "amoadd.w", "amoswap.d.aq", "-1", "0x7f", "#",   "?",     ":",   "=",    "\r",    "\t",      "18446744073709551615"};

/* A line of words at random, of bytes at random, or far too long. */
static uint8_t *any_line(size_t *length) {
  char text[8192];
  size_t end = 0;
  if (chance(50) == 0)
    end = chance(sizeof text);
  for (size_t i = 0; i < end; i++)
    text[i] = (char)chance(256);
  for (uint64_t words = end == 0 ? chance(9) : 0; words > 0; words--)
    end += (size_t)snprintf(text + end, sizeof text - end, "%s ", WORDS[chance(sizeof WORDS / sizeof *WORDS)]);
  uint8_t *line = malloc(end);
  if (end != 0)
    memcpy(line, text, end);
  *length = end;
  return line;
}

static bool is_answer(uint32_t code) {
  return code <= SCM_BAD_NUMBER || (code >= SCM_MARK_SET && code <= SCM_TRACES) || (code > SCM_REFUSED && code <= SCM_TOO_MANY_SESSIONS);
}

/* A text ends with a line feed, and says DONE just where it fits. */
static bool is_text(uint32_t code, const uint8_t *out, size_t room, size_t needed) {
  if (code == SCM_DONE)
    return needed <= room && (needed == 0 || out[needed - 1] == '\n');
  return code == SCM_NO_ROOM ? needed > room : code == SCM_CLOSED;
}

static bool lines_and_texts(scm_monitor *monitor) {
  size_t length, room = chance(3) == 0 ? 100000 : chance(40), needed = 0;
  uint8_t *line = any_line(&length), *out = malloc(room);
  uint32_t code = scm_line(monitor, line, length, out, room, &needed);
  bool is_right = is_text(code, out, room, needed);
  code = scm_text(monitor, out, room, &needed);
  is_right &= is_text(code, out, room, needed);
  free(line);
  free(out);
  return is_right;
}

static bool name(scm_monitor *monitor) {
  size_t length, number = SIZE_MAX;
  uint8_t *line = any_line(&length);
  uint32_t code = scm_name(monitor, line, chance(length + 1), &number);
  free(line);
  return code == SCM_CLOSED || code == SCM_BAD_NUMBER || (code == SCM_DONE && number != SIZE_MAX);
}

/* Cells at random, no cells, and counts of which each is too large: then there is no memory behind the pointer. */
static bool open_trace(scm_monitor *monitor) {
  size_t cells = chance(4), count = chance(5) == 0 ? SCM_MOST_CELLS + 1 + chance(SIZE_MAX - SCM_MOST_CELLS) : cells;
  scm_cell *declared = malloc(cells * sizeof *declared);
  for (size_t i = 0; i < cells; i++)
    declared[i] = (scm_cell){any_number(), chance(4) == 0 ? (uint32_t)any_number() : 32u << chance(2), (uint32_t)any_number(), any_number()};
  uint32_t code = scm_open(monitor, any_number(), any_number(), any_number(), any_number(), chance(9) == 0 ? NULL : declared, count);
  free(declared);
  return is_answer(code) && (count == cells || code == SCM_BAD_NUMBER || code == SCM_CLOSED);
}

/* Evidence, mostly behind a question. What isn't answered SCM_DONE leaves its number as it was. */
static bool evidence(scm_monitor *monitor) {
  if (chance(4) != 0)
    scm_call(monitor, chance(2), 2 + chance(2), SCM_ASK + (uint32_t)chance(6), 0);
  uint32_t part = (uint32_t)any_number();
  size_t count = 17;
  uint64_t number = 17;
  uint32_t code = scm_evidence_count(monitor, part, &count);
  size_t row = chance(2) == 0 ? (size_t)any_number() : chance(count + 1), field = any_number();
  uint32_t read = scm_evidence_at(monitor, part, row, field, &number);
  if (code != SCM_DONE)
    return (code == SCM_NO_EVIDENCE || code == SCM_CLOSED) && read == code && count == 17 && number == 17;
  if (row >= count || field > 2 * SCM_MOST_CELLS)
    return read == SCM_BAD_NUMBER && number == 17;
  return read == SCM_DONE || ((read == SCM_BAD_NUMBER || read == SCM_STILL_OPEN) && number == 17);
}

static bool any_call(scm_monitor *monitor) {
  switch (chance(10)) {
  case 0:
  case 1: return lines_and_texts(monitor);
  case 2: return name(monitor);
  case 3: return open_trace(monitor);
  case 4:
  case 5: return evidence(monitor);
  case 6:
  case 7:
    return is_answer(scm_report(monitor, any_number(), any_number(), any_number(), (uint32_t)any_number(), any_number(), any_number(),
                                any_number()));
  default: return is_answer(scm_call(monitor, any_number(), any_number(), (uint32_t)any_number(), any_number()));
  }
}

/* Sessions, traces and cells that the calls then meet. */
static bool set_up(scm_monitor *monitor) {
  static const char *const LINES[] = {"a open t 2 1000 x:w=0 y:d=?", "a claim t 0", "b claim t 1", "b open u 3 50 x:w=1"};
  static const char *const NAMES[] = {"a", "b", "t", "u", "x", "y"};
  char reply[64];
  size_t needed;
  for (size_t i = 0; i < sizeof LINES / sizeof *LINES; i++)
    if (scm_say(monitor, LINES[i], reply, sizeof reply, &needed) != SCM_DONE)
      return false;
  for (size_t i = 0; i < sizeof NAMES / sizeof *NAMES; i++)
    if (scm_number(monitor, NAMES[i]) != i)
      return false;
  return true;
}

static bool one_life(void) {
  scm_monitor monitor = SCM_NONE;
  if (scm_ask(&monitor, 0, 0) != SCM_CLOSED || scm_make(&monitor) != SCM_DONE || scm_make(&monitor) != SCM_CLOSED)
    return false;
  bool is_right = chance(2) == 0 || set_up(&monitor);
  for (uint64_t calls = chance(3000); is_right && calls > 0; calls--)
    is_right = any_call(&monitor);
  scm_free(&monitor);
  scm_free(&monitor);
  return is_right && any_call(&monitor) && scm_ask(&monitor, 0, 0) == SCM_CLOSED;
}

int main(int words, char **word) {
  unsigned seconds = words > 1 ? (unsigned)strtoul(word[1], NULL, 10) : 5;
  uint64_t seed = words > 2 ? strtoull(word[2], NULL, 10) : (uint64_t)time(NULL), lives = 0;
  state = seed * 2 + 1;
  for (time_t end = time(NULL) + (time_t)seconds; time(NULL) < end; lives++)
    if (!one_life()) {
      fprintf(stderr, "fuzz: an answer can't be, with the seed %llu, in monitor %llu\n", (unsigned long long)seed, (unsigned long long)lives);
      return 1;
    }
  printf("fuzz: %llu monitors, seed %llu\n", (unsigned long long)lives, (unsigned long long)seed);
  return 0;
}
