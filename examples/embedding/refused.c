/* The first script with each allocation refused in turn: a line is answered refused 18, or its text is told to be missing and can be
 * fetched, or no monitor is made; a call by numbers is answered so, or that a name has no number; nothing is lost, and nothing leaks.
 * Linked with malloc, realloc and free wrapped. */
#include "scm.h"

#include <stdio.h>
#include <stdlib.h>

static const char *const SCRIPT[] = {
    "a open t 2 100 x:w=0", "a claim t 0", "b claim t 1", "b do t 1 lw x 1", "a ask t", "a do t 0 sw x 1", "a ask t", "a why t", "a list",
};

static long until_refused = -1, blocks;

static bool is_refused(void) { return until_refused >= 0 && until_refused-- == 0; }

void *__real_malloc(size_t bytes);
void *__real_realloc(void *block, size_t bytes);
void __real_free(void *block);

void *__wrap_malloc(size_t bytes) {
  if (is_refused())
    return NULL;
  blocks++;
  return __real_malloc(bytes);
}

void *__wrap_realloc(void *block, size_t bytes) {
  if (is_refused())
    return NULL;
  blocks += block == NULL;
  return __real_realloc(block, bytes);
}

void __wrap_free(void *block) {
  blocks -= block != NULL;
  __real_free(block);
}

/* Whether a line was answered, and how often so that memory was refused. */
static bool answer(scm_monitor *monitor, const char *line, unsigned *refused) {
  char reply[256];
  size_t needed;
  uint32_t code = scm_say(monitor, line, reply, sizeof reply - 1, &needed);
  if (code == SCM_NO_MEMORY)
    code = scm_text(monitor, (uint8_t *)reply, sizeof reply - 1, &needed);
  if (code != SCM_DONE)
    return false;
  reply[needed] = '\0';
  *refused += strstr(reply, "refused 18") != NULL;
  return true;
}

/* Calls by numbers, each made again where memory was refused: only one can be. */
static size_t number(scm_monitor *monitor, const char *name, unsigned *refused) {
  size_t number = SIZE_MAX;
  uint32_t code = scm_name(monitor, (const uint8_t *)name, strlen(name), &number);
  *refused += code == SCM_NO_MEMORY;
  return code == SCM_NO_MEMORY ? scm_number(monitor, name) : number;
}

static uint32_t open_trace(scm_monitor *monitor, size_t session, size_t trace, size_t cell, unsigned *refused) {
  const scm_cell declared = {cell, 32, 1, 0};
  uint32_t code = scm_open(monitor, session, trace, 1, 100, &declared, 1);
  *refused += code == SCM_REFUSED_MEMORY;
  return code == SCM_REFUSED_MEMORY ? scm_open(monitor, session, trace, 1, 100, &declared, 1) : code;
}

/* The cell of a trace that was opened by a line has no number before it is read. */
static bool fixed_cell(scm_monitor *monitor, unsigned *refused) {
  uint64_t cell = 0;
  uint32_t code = scm_evidence_at(monitor, SCM_FIXED, 0, 0, &cell);
  *refused += code == SCM_NO_MEMORY;
  if (code == SCM_NO_MEMORY)
    code = scm_evidence_at(monitor, SCM_FIXED, 0, 0, &cell);
  return code == SCM_DONE && cell == scm_number(monitor, "z");
}

static bool by_numbers(scm_monitor *monitor, unsigned *refused) {
  static const char *const LINES[] = {"a open w 1 100 z:w=?", "a claim w 0", "a do w 0 lw z 5", "a ask w"};
  char reply[256];
  size_t needed, a = number(monitor, "a", refused), v = number(monitor, "v", refused), y = number(monitor, "y", refused);
  bool is_answered = open_trace(monitor, a, v, y, refused) == SCM_DONE;
  for (size_t line = 0; line < sizeof LINES / sizeof *LINES; line++) {
    uint32_t code = scm_say(monitor, LINES[line], reply, sizeof reply, &needed);
    if (code == SCM_NO_MEMORY || (code == SCM_DONE && needed > 12 && memcmp(reply, "a refused 18", 12) == 0)) {
      (*refused)++;
      code = code == SCM_NO_MEMORY ? SCM_DONE : scm_say(monitor, LINES[line], reply, sizeof reply, &needed);
    }
    is_answered &= code == SCM_DONE;
  }
  return is_answered && fixed_cell(monitor, refused);
}

int main(void) {
  unsigned refused = 0;
  for (long allocation = 0;; allocation++) {
    scm_monitor monitor = SCM_NONE;
    until_refused = allocation;
    bool is_answered = true;
    if (scm_make(&monitor) == SCM_DONE) {
      for (size_t line = 0; line < sizeof SCRIPT / sizeof *SCRIPT; line++)
        is_answered &= answer(&monitor, SCRIPT[line], &refused);
      is_answered &= by_numbers(&monitor, &refused);
    }
    scm_free(&monitor);
    if (!is_answered || blocks != 0)
      return 1;
    if (until_refused >= 0)
      return allocation > 20 && refused > 10 ? 0 : 1;
  }
}
