/* The monitor of sequential consistency as a library: calls as in a script, answered at once. Link with -lscm.
 *
 *   scm_monitor monitor = SCM_NONE;
 *   char reply[256];
 *   size_t needed;
 *   if (scm_make(&monitor) != SCM_DONE) ..
 *   scm_say(&monitor, "a open t 2 1000000 x:w=0", reply, sizeof reply, &needed);     reply holds "a ok\n", needed is 5
 *   ..
 *   scm_free(&monitor);
 *
 * Names, lines, replies, refusals and limits are those of docs/LANGUAGE.md, without workers: a script that is handed over line by
 * line has the replies that `scm_monitor --workers 0` writes for it. On the hot path numbers take the place of names: scm_name
 * gives a name its number once, scm_open, scm_report and scm_call answer by a number, and scm_evidence_at reads what was found.
 * Memory comes from malloc; where it is refused a call is answered SCM_REFUSED_MEMORY, or SCM_NO_MEMORY where it isn't one of a
 * script, and has changed nothing.
 *
 * Threads: Calls for one monitor don't overlap. Between calls a monitor may go from one thread to another one. Monitors share
 * nothing, so each thread may have its own.
 *
 * What you must see to, and nothing here can: that a monitor is all zeros before scm_make, and is what a call left after; that it
 * isn't copied while it is live; that each pointer leads to as much memory as its length says, also where that is 0; that what is
 * written to (`out`, `needed`, `number`, `count`) overlaps nothing else that is passed; that no call is made from a signal handler.
 * All else is answered: any bytes, any number, any length, a monitor that isn't live. What isn't answered SCM_DONE leaves what it
 * would write to as it was, but for `needed` at SCM_NO_ROOM. */
#ifndef SCM_H
#define SCM_H

#include <stdbool.h>
#include <stddef.h>
#include <stdint.h>
#include <string.h>

#ifdef __cplusplus
extern "C" {
#endif

/* All zeros, as SCM_NONE, are none. The fields are the library's. */
typedef struct scm_monitor {
  void *at;
  bool live;
} scm_monitor;

#define SCM_NONE {NULL, false}

/* What calls answer. */
enum {
  SCM_DONE = 0,       /* done; of a call: "ok" */
  SCM_NO_ROOM = 1,    /* the text is longer than the room: needed says how long it is; scm_text gives it */
  SCM_NO_MEMORY = 2,  /* for the text, which scm_text gives when there is some; for a monitor; for the number of a new name */
  SCM_CLOSED = 3,     /* the monitor isn't live; to scm_make: it is live already */
  SCM_BAD_NUMBER = 4, /* a number stands for nothing: no name, kind, row or field; or the word is no name */
  SCM_NO_EVIDENCE = 5, /* the last reply has no such part */
  SCM_STILL_OPEN = 6,  /* the contents of the cell are open: `?` */

  SCM_MARK_SET = 16, /* "ok m" */
  SCM_CONSISTENT = 17,
  SCM_INCONSISTENT = 18,
  SCM_UNDECIDED = 19,
  SCM_BECAUSE = 20,
  SCM_CYCLE_FOUND = 21,
  SCM_UNKNOWN = 22,
  SCM_OPS = 23,
  SCM_TRACES = 24,

  SCM_REFUSED = 32, /* and the refusal's number, 1 to 19: */
  SCM_BAD_LINE = 33,
  SCM_NO_SUCH_TRACE,
  SCM_NAME_TAKEN,
  SCM_TOO_MANY_TRACES,
  SCM_BAD_DECLARATION,
  SCM_NO_SUCH_PROCESS,
  SCM_PROCESS_TAKEN,
  SCM_NOT_CLAIMED,
  SCM_NOT_OWNER,
  SCM_NO_SUCH_CELL,
  SCM_WIDTH_MISMATCH,
  SCM_VALUE_OUT_OF_RANGE,
  SCM_SEQUENCE_FULL,
  SCM_NO_SUCH_MARK,
  SCM_TOO_MANY_MARKS,
  SCM_BAD_BUDGET,
  SCM_JOURNAL_FULL,
  SCM_REFUSED_MEMORY,
  SCM_TOO_MANY_SESSIONS,
};

/* Kinds of access, for scm_report. `first` is the value of a load or a store, the old value of SCM_RW, the operand of an AMO;
 * `second` is the new value of SCM_RW, and what an AMO gave. */
enum {
  SCM_LW,
  SCM_LD,
  SCM_SW,
  SCM_SD,
  SCM_RW,
  SCM_AMOSWAP_W,
  SCM_AMOSWAP_D,
  SCM_AMOADD_W,
  SCM_AMOADD_D,
  SCM_AMOAND_W,
  SCM_AMOAND_D,
  SCM_AMOOR_W,
  SCM_AMOOR_D,
  SCM_AMOXOR_W,
  SCM_AMOXOR_D,
  SCM_AMOMAX_W,
  SCM_AMOMAX_D,
  SCM_AMOMIN_W,
  SCM_AMOMIN_D,
  SCM_AMOMAXU_W,
  SCM_AMOMAXU_D,
  SCM_AMOMINU_W,
  SCM_AMOMINU_D,
};

/* Kinds of call, for scm_call, each with its number. */
enum {
  SCM_CLAIM,   /* the process */
  SCM_RELEASE, /* the process */
  SCM_MARK,
  SCM_BACK,  /* the mark */
  SCM_RAISE, /* the budget */
  SCM_ASK,
  SCM_ASK_AT, /* the mark */
  SCM_WHY,
  SCM_WHY_AT, /* the mark */
  SCM_CYCLE,
  SCM_CYCLE_AT, /* the mark */
  SCM_CLOSE,
};

/* A cell of a trace that is opened: the number of its name, its width in bits, 32 or 64, and what it holds at first; where that
 * isn't known, `is_unset` is 1, or any number but 0, and `initial` doesn't count. */
typedef struct scm_cell {
  size_t name;
  uint32_t bits;
  uint32_t is_unset;
  uint64_t initial;
} scm_cell;

/* Parts of the evidence, with the fields of their rows. */
enum {
  SCM_SCHEDULE, /* of SCM_CONSISTENT, a row for each step: 0 the process */
  SCM_FIXED,    /* of SCM_CONSISTENT, a row for each unset cell that the schedule fixes: 0 the number of the cell's name, 1 its value */
  SCM_COUNTS,   /* of SCM_BECAUSE, a row for each situation: p how many operations of process p were executed */
  SCM_CONTENTS, /* of SCM_BECAUSE, a row for each situation: c what cell c holds, or SCM_STILL_OPEN; in the order of declaration */
  SCM_MARKED,   /* of SCM_MARK_SET, one row: 0 the mark */
  SCM_LINES,    /* of SCM_CYCLE_FOUND, a row for each line: see below */
  SCM_HINTS,    /* of SCM_CYCLE_FOUND, a row for each line: the numbers of the earlier lines that it goes by */
};

/* Fields of a line: what it says of SCM_FROM and SCM_TO, operation _AT of process _PROCESS, in every legal schedule; by which rule;
 * for SCM_HIDDEN_BY the operation SCM_BY that hides; for SCM_LEMMA the line that ends the block, in SCM_BY_AT. All as
 * docs/LANGUAGE.md has them: a line belongs to the block that SCM_ASSUMED begins until a line puts an operation before itself. */
enum { SCM_SAYS, SCM_FROM_PROCESS, SCM_FROM_AT, SCM_TO_PROCESS, SCM_TO_AT, SCM_RULE, SCM_BY_PROCESS, SCM_BY_AT };

/* What a line says: FROM stands before TO; TO sees FROM; TO sees first contents, and FROM is 0, 0; FROM is hidden from TO; TO doesn't
 * see FROM; TO doesn't see first contents, and FROM is 0, 0. */
enum { SCM_BEFORE, SCM_SEES, SCM_SEES_FIRST, SCM_HIDDEN, SCM_UNSEEN, SCM_UNSEEN_FIRST };

enum { SCM_JOINED, SCM_HIDDEN_BY, SCM_SOURCE, SCM_AFTER_ALL, SCM_BEFORE_ALL, SCM_AFTER_SOURCE, SCM_ASSUMED, SCM_LEMMA };

enum { SCM_LONGEST_LINE = 4096, SCM_LONGEST_NAME = 32, SCM_MOST_CELLS = 64 };

/* Makes a monitor: no session has entered it, and no trace is open. SCM_DONE, or SCM_NO_MEMORY where memory is refused. */
uint32_t scm_make(scm_monitor *monitor);

/* Frees it. Where it isn't live nothing happens. */
void scm_free(scm_monitor *monitor);

/* Answers a line, without its line feed. SCM_DONE: the reply, a line with its line feed, is at `out`, `needed` bytes long; 0 bytes where
 * the line is blank or a comment. SCM_NO_ROOM, SCM_NO_MEMORY: the call was made all the same, and scm_text gives its reply. */
uint32_t scm_line(scm_monitor *monitor, const uint8_t *line, size_t length, uint8_t *out, size_t room, size_t *needed);

/* The text of the last reply, as scm_line gives it, as often as you like; of a call by numbers too. */
uint32_t scm_text(scm_monitor *monitor, uint8_t *out, size_t room, size_t *needed);

/* The number of a name, from 0 on, whatever it names: sessions, traces and cells have one list of names here. A name that has a
 * number keeps it as long as the monitor is, and a new one gets the next. SCM_DONE; SCM_BAD_NUMBER just where the word is no name;
 * SCM_NO_MEMORY, only of a new name, where memory is refused. */
uint32_t scm_name(scm_monitor *monitor, const uint8_t *word, size_t length, size_t *number);

/* The script's `open`: session, trace and cells by the numbers of their names; `scm_open`, below, also takes NULL for `cells`.
 * Answers SCM_DONE or a refusal. SCM_BAD_NUMBER where a number stands for no name, a cell has another width than 32 or 64 bits, or
 * `count` is more than SCM_MOST_CELLS; then no cell is looked at. */
uint32_t scm_open_trace(scm_monitor *monitor, size_t session, size_t trace, uint64_t processes, uint64_t budget, const scm_cell *cells,
                        size_t count);

/* The script's `do`: session, trace and cell by their numbers. Answers SCM_DONE or a refusal. */
uint32_t scm_report(scm_monitor *monitor, size_t session, size_t trace, uint64_t process, uint32_t access, size_t cell,
                    uint64_t first, uint64_t second);

/* A call about a trace. Answers SCM_DONE, SCM_MARK_SET, a verdict or a refusal. */
uint32_t scm_call(scm_monitor *monitor, size_t session, size_t trace, uint32_t call, uint64_t number);

/* How many rows a part of the evidence of the last reply has. SCM_DONE, or SCM_NO_EVIDENCE where it has no such part. */
uint32_t scm_evidence_count(scm_monitor *monitor, uint32_t part, size_t *count);

/* What stands in a field of a row of a part, all from 0 on, as often as you like: nothing is asked again. SCM_DONE, SCM_STILL_OPEN,
 * SCM_NO_EVIDENCE; SCM_BAD_NUMBER where the part has no such row or field. A cell of SCM_FIXED that was only named in lines gets a
 * number here: SCM_NO_MEMORY where memory is refused for it. */
uint32_t scm_evidence_at(scm_monitor *monitor, uint32_t part, size_t row, size_t field, uint64_t *number);

/* ---- The same with less to write */

/* A line as text. */
static inline uint32_t scm_say(scm_monitor *monitor, const char *line, char *out, size_t room, size_t *needed) {
  return scm_line(monitor, (const uint8_t *)line, strlen(line), (uint8_t *)out, room, needed);
}

/* The number of a name that is one: SIZE_MAX where there is none, which every call answers by SCM_BAD_NUMBER. */
static inline size_t scm_number(scm_monitor *monitor, const char *name) {
  size_t number = SIZE_MAX;
  return scm_name(monitor, (const uint8_t *)name, strlen(name), &number) == SCM_DONE ? number : SIZE_MAX;
}

/* Opens a trace. NULL for its cells is answered SCM_BAD_NUMBER. */
static inline uint32_t scm_open(scm_monitor *monitor, size_t session, size_t trace, uint64_t processes, uint64_t budget,
                                const scm_cell *cells, size_t count) {
  return cells == NULL ? (uint32_t)SCM_BAD_NUMBER : scm_open_trace(monitor, session, trace, processes, budget, cells, count);
}

static inline uint32_t scm_claim(scm_monitor *monitor, size_t session, size_t trace, uint64_t process) {
  return scm_call(monitor, session, trace, SCM_CLAIM, process);
}

static inline uint32_t scm_ask(scm_monitor *monitor, size_t session, size_t trace) {
  return scm_call(monitor, session, trace, SCM_ASK, 0);
}

#ifdef __cplusplus
}
#endif
#endif
