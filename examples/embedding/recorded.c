/* Two threads of this program are recorded, and the library judges them at once: one writes data and then a flag, the other waits for
 * the flag. C11. */
#define _POSIX_C_SOURCE 199309L
#include "scm.h"

#include "scm_record.h"

#include <pthread.h>
#include <time.h>

static atomic_uint flag;
static uint32_t data;

static void *send(void *argument) {
  scm_plain_store(&data, 42);
  scm_atomic_store_explicit(&flag, 1, memory_order_release);
  return argument;
}

static void *receive(void *argument) {
  while (scm_atomic_load_explicit(&flag, memory_order_acquire) == 0)
    nanosleep(&(struct timespec){0, 1000000}, NULL); /* or a sender that is late would fill the buffer */
  scm_plain_load(&data);
  return argument;
}

int main(void) {
  pthread_t sender, receiver;
  scm_monitor monitor = SCM_NONE;
  uint32_t verdict = SCM_UNDECIDED;
  scm_record_name(&flag, sizeof flag, "flag");
  scm_record_name(&data, sizeof data, "data");
  if (scm_make(&monitor) != SCM_DONE || scm_record_begin(2, 100000) != SCM_RECORD_DONE)
    return 1;
  pthread_create(&receiver, NULL, receive, NULL);
  pthread_create(&sender, NULL, send, NULL);
  pthread_join(sender, NULL);
  pthread_join(receiver, NULL);
  scm_record_end();
  int status = scm_record_ask(&monitor, "a", "t", 1000000, &verdict);
  if (status != SCM_RECORD_DONE)
    fprintf(stderr, "recorded: %s\n", scm_record_message(status));
  scm_record_free();
  scm_free(&monitor);
  return status == SCM_RECORD_DONE && verdict == SCM_CONSISTENT ? 0 : 1;
}
