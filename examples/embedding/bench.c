/* A script of reports through the library, by lines or by numbers: seconds of the processor, and reports a second. */
#include "scm.h"

#include <stdio.h>
#include <stdlib.h>
#include <time.h>

enum { TRACES = 64, PROCESSES = 4, CELLS = 8, REPORTS = 1000000 };

struct report {
  unsigned trace, process, access, cell, value;
};

static double seconds(void) {
  struct timespec time;
  clock_gettime(CLOCK_PROCESS_CPUTIME_ID, &time);
  return (double)time.tv_sec + (double)time.tv_nsec * 1e-9;
}

/* Stores at random, and loads of what the cell holds. */
static struct report *reports(void) {
  static unsigned contents[TRACES][CELLS];
  struct report *made = malloc(REPORTS * sizeof *made);
  srand(1);
  for (unsigned i = 0; made != NULL && i < REPORTS; i++) {
    unsigned trace = i % TRACES, cell = (unsigned)rand() % CELLS, is_store = (unsigned)rand() % 2;
    if (is_store)
      contents[trace][cell] = (unsigned)rand() % 1000;
    made[i] = (struct report){trace, (unsigned)rand() % PROCESSES, is_store ? SCM_SW : SCM_LW, cell, contents[trace][cell]};
  }
  return made;
}

static void say(scm_monitor *monitor, const char *line) {
  char reply[64];
  size_t needed;
  if (scm_say(monitor, line, reply, sizeof reply, &needed) != SCM_DONE || needed != 5 || memcmp(reply, "a ok\n", 5) != 0)
    exit(1);
}

static void open_traces(scm_monitor *monitor) {
  char line[256];
  for (unsigned trace = 0; trace < TRACES; trace++) {
    int end = snprintf(line, sizeof line, "a open t%u %d 1000000", trace, PROCESSES);
    for (unsigned cell = 0; cell < CELLS; cell++)
      end += snprintf(line + end, sizeof line - (size_t)end, " c%u:w=0", cell);
    say(monitor, line);
    for (unsigned process = 0; process < PROCESSES; process++) {
      snprintf(line, sizeof line, "a claim t%u %u", trace, process);
      say(monitor, line);
    }
  }
}

static char (*lines_of(const struct report *made))[32] {
  char(*lines)[32] = malloc(REPORTS * sizeof *lines);
  for (unsigned i = 0; lines != NULL && i < REPORTS; i++)
    snprintf(lines[i], sizeof lines[i], "a do t%u %u %s c%u %u", made[i].trace, made[i].process, made[i].access == SCM_SW ? "sw" : "lw",
             made[i].cell, made[i].value);
  return lines;
}

static unsigned report_lines(scm_monitor *monitor, char (*lines)[32]) {
  char reply[64];
  size_t needed;
  unsigned bad = 0;
  for (unsigned i = 0; i < REPORTS; i++)
    bad += scm_say(monitor, lines[i], reply, sizeof reply, &needed) != SCM_DONE || needed != 5;
  return bad;
}

static unsigned report_numbers(scm_monitor *monitor, const struct report *made) {
  char name[32];
  size_t a = scm_number(monitor, "a"), traces[TRACES], cells[CELLS];
  unsigned bad = 0;
  for (unsigned trace = 0; trace < TRACES; trace++) {
    snprintf(name, sizeof name, "t%u", trace);
    traces[trace] = scm_number(monitor, name);
  }
  for (unsigned cell = 0; cell < CELLS; cell++) {
    snprintf(name, sizeof name, "c%u", cell);
    cells[cell] = scm_number(monitor, name);
  }
  for (unsigned i = 0; i < REPORTS; i++)
    bad += scm_report(monitor, a, traces[made[i].trace], made[i].process, made[i].access, cells[made[i].cell], made[i].value, 0) != SCM_DONE;
  return bad;
}

int main(int words, char **word) {
  bool is_by_lines = words > 1 && strcmp(word[1], "lines") == 0;
  scm_monitor monitor = SCM_NONE;
  struct report *made = reports();
  char(*lines)[32] = made == NULL ? NULL : lines_of(made);
  if (lines == NULL || scm_make(&monitor) != SCM_DONE)
    return 1;
  open_traces(&monitor);
  double began = seconds();
  unsigned bad = is_by_lines ? report_lines(&monitor, lines) : report_numbers(&monitor, made);
  double took = seconds() - began;
  printf("%s: %d reports, %u not ok, %.3f s, %.0f a second\n", is_by_lines ? "lines" : "numbers", REPORTS, bad, took, REPORTS / took);
  scm_free(&monitor);
  return bad != 0;
}
