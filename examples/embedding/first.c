/* The first script of README.md through the library: by lines, and then by numbers. C11 and C++17. */
#include "scm.h"

#include <stdio.h>

static const char *const SCRIPT[] = {
    "a open t 2 100 x:w=0", "a claim t 0", "b claim t 1", "b do t 1 lw x 1", "a ask t", "a do t 0 sw x 1", "a ask t",
};

/* A reply that doesn't fit is fetched in parts of the room that it needs; here the room is small on purpose. */
static bool print_reply(scm_monitor *monitor, uint32_t code, char *reply, size_t needed) {
  char larger[64];
  if (code == SCM_NO_ROOM && needed <= sizeof larger)
    code = scm_text(monitor, (uint8_t *)(reply = larger), sizeof larger, &needed);
  return code == SCM_DONE && fwrite(reply, 1, needed, stdout) == needed;
}

static bool by_lines(scm_monitor *monitor) {
  char reply[8];
  size_t needed = 0;
  for (size_t line = 0; line < sizeof SCRIPT / sizeof *SCRIPT; line++) {
    uint32_t code = scm_say(monitor, SCRIPT[line], reply, sizeof reply, &needed);
    if (!print_reply(monitor, code, reply, needed))
      return false;
  }
  return true;
}

/* One number of the evidence of the last reply, or none that could stand there. */
static uint64_t evidence(scm_monitor *monitor, uint32_t part, size_t row, size_t field) {
  uint64_t number;
  return scm_evidence_at(monitor, part, row, field, &number) == SCM_DONE ? number : UINT64_MAX;
}

/* Of u: three steps, of which process 1 must come after process 0 has written x, and what `late` must have held. */
static bool shows_schedule(scm_monitor *monitor, size_t late) {
  size_t steps, fixed, situations;
  return scm_evidence_count(monitor, SCM_SCHEDULE, &steps) == SCM_DONE && steps == 3 && evidence(monitor, SCM_SCHEDULE, 0, 0) == 0 &&
         scm_evidence_count(monitor, SCM_FIXED, &fixed) == SCM_DONE && fixed == 1 && evidence(monitor, SCM_FIXED, 0, 0) == late &&
         evidence(monitor, SCM_FIXED, 0, 1) == 7 && scm_evidence_count(monitor, SCM_COUNTS, &situations) == SCM_NO_EVIDENCE;
}

/* The same without a text: u has a cell that holds 0, and one that was written before anyone looked. */
static bool by_numbers(scm_monitor *monitor) {
  size_t a = scm_number(monitor, "a"), b = scm_number(monitor, "b"), u = scm_number(monitor, "u");
  const scm_cell x = {scm_number(monitor, "x"), 32, 0, 0}, late = {scm_number(monitor, "late"), 64, 1, 0}, cells[] = {x, late};
  return scm_open(monitor, a, u, 2, 100, cells, 2) == SCM_DONE && scm_claim(monitor, a, u, 0) == SCM_DONE &&
         scm_claim(monitor, b, u, 1) == SCM_DONE && scm_report(monitor, b, u, 1, SCM_LW, x.name, 1, 0) == SCM_DONE &&
         scm_ask(monitor, a, u) == SCM_INCONSISTENT && scm_report(monitor, a, u, 0, SCM_SW, x.name, 1, 0) == SCM_DONE &&
         scm_report(monitor, a, u, 0, SCM_LD, late.name, 7, 0) == SCM_DONE && scm_ask(monitor, a, u) == SCM_CONSISTENT &&
         shows_schedule(monitor, late.name) && scm_report(monitor, a, u, 1, SCM_SW, x.name, 1, 0) == SCM_NOT_CLAIMED &&
         scm_report(monitor, a, u, 0, SCM_SW, 99, 1, 0) == SCM_BAD_NUMBER && scm_open(monitor, a, u, 2, 100, cells, 65) == SCM_BAD_NUMBER;
}

/* A mark by its number, and the refutations of what is reported behind it: store buffering. */
static bool refutes(scm_monitor *monitor) {
  size_t a = scm_number(monitor, "a"), v = scm_number(monitor, "v"), x = scm_number(monitor, "x"), y = scm_number(monitor, "y");
  const scm_cell cells[] = {{x, 32, 0, 0}, {y, 32, 0, 0}};
  size_t situations, lines;
  if (scm_open(monitor, a, v, 2, 100, cells, 2) != SCM_DONE || scm_call(monitor, a, v, SCM_MARK, 0) != SCM_MARK_SET)
    return false;
  uint64_t mark = evidence(monitor, SCM_MARKED, 0, 0);
  bool is_reported = scm_claim(monitor, a, v, 0) == SCM_DONE && scm_claim(monitor, a, v, 1) == SCM_DONE &&
                     scm_report(monitor, a, v, 0, SCM_SW, x, 1, 0) == SCM_DONE && scm_report(monitor, a, v, 0, SCM_LW, y, 0, 0) == SCM_DONE &&
                     scm_report(monitor, a, v, 1, SCM_SW, y, 1, 0) == SCM_DONE && scm_report(monitor, a, v, 1, SCM_LW, x, 0, 0) == SCM_DONE;
  if (!is_reported || scm_call(monitor, a, v, SCM_WHY, 0) != SCM_BECAUSE ||
      scm_evidence_count(monitor, SCM_COUNTS, &situations) != SCM_DONE)
    return false;
  bool is_whole = false; /* no situation has all operations */
  for (size_t s = 0; s < situations; s++)
    is_whole |= evidence(monitor, SCM_COUNTS, s, 0) == 2 && evidence(monitor, SCM_COUNTS, s, 1) == 2;
  bool begins = evidence(monitor, SCM_COUNTS, 0, 0) == 0 && evidence(monitor, SCM_CONTENTS, 0, 1) == 0;
  if (is_whole || !begins || scm_call(monitor, a, v, SCM_CYCLE, 0) != SCM_CYCLE_FOUND ||
      scm_evidence_count(monitor, SCM_LINES, &lines) != SCM_DONE)
    return false;
  /* the last line puts an operation before itself */
  bool is_cycle = evidence(monitor, SCM_LINES, lines - 1, SCM_FROM_PROCESS) == evidence(monitor, SCM_LINES, lines - 1, SCM_TO_PROCESS) &&
                  evidence(monitor, SCM_LINES, lines - 1, SCM_FROM_AT) >= evidence(monitor, SCM_LINES, lines - 1, SCM_TO_AT);
  return is_cycle && scm_call(monitor, a, v, SCM_BACK, mark) == SCM_DONE && scm_ask(monitor, a, v) == SCM_CONSISTENT;
}

int main(void) {
  scm_monitor monitor = SCM_NONE;
  if (scm_make(&monitor) != SCM_DONE)
    return 1;
  bool is_right = by_lines(&monitor) && by_numbers(&monitor) && refutes(&monitor);
  scm_free(&monitor);
  return is_right && scm_ask(&monitor, 0, 0) == SCM_CLOSED ? 0 : 1;
}
