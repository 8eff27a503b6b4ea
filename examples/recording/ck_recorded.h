/* Concurrency Kit with its accesses recorded: include this before any of the library's headers. The library's code stays as it
 * is; the operations of ck_pr.h that its locks and queues are made of are replaced by those below. */
#ifndef CK_RECORDED_H
#define CK_RECORDED_H

#include "scm_record.h"

#include <ck_pr.h>
#include <time.h>

/* On x86 the ticket lock is one word whose half is stepped by an instruction for 16 bits. Without these it is that of other
 * processors, of two words. */
#undef CK_F_PR_INC_16
#undef CK_F_PR_INC_32

static inline unsigned recorded_load_uint(const unsigned *at) {
  unsigned value = ck_pr_md_load_uint(at);
  scm_record_load(at, sizeof value, value);
  return value;
}

static inline void recorded_store_uint(unsigned *at, unsigned value) {
  ck_pr_md_store_uint(at, value);
  scm_record_store(at, sizeof value, value);
}

static inline void *recorded_load_ptr(const void *at) {
  void *value = ck_pr_md_load_ptr(at);
  scm_record_load(at, sizeof value, (uintptr_t)value);
  return value;
}

static inline void recorded_store_ptr(void *at, const void *value) {
  ck_pr_md_store_ptr(at, value);
  scm_record_store(at, sizeof value, (uintptr_t)value);
}

static inline unsigned recorded_fas_uint(unsigned *at, unsigned value) {
  unsigned old = ck_pr_fas_uint(at, value);
  scm_record_read_write(at, sizeof value, old, value);
  return old;
}

static inline void *recorded_fas_ptr(void *at, void *value) {
  void *old = ck_pr_fas_ptr(at, value);
  scm_record_read_write(at, sizeof value, (uintptr_t)old, (uintptr_t)value);
  return old;
}

static inline bool recorded_cas_ptr(void *at, void *compare, void *set) {
  void *old;
  bool is_set = ck_pr_cas_ptr_value(at, compare, set, &old);
  if (is_set)
    scm_record_read_write(at, sizeof old, (uintptr_t)old, (uintptr_t)set);
  else
    scm_record_load(at, sizeof old, (uintptr_t)old);
  return is_set;
}

/* An increment and a decrement tell no old value, so they are made as an addition that does. */
static inline unsigned recorded_faa_uint(unsigned *at, unsigned by) {
  unsigned old = ck_pr_faa_uint(at, by);
  scm_record_read_write(at, sizeof old, old, old + by);
  return old;
}

/* The copy of a pointer into a queue or out of it. The copy that the caller has isn't named, and so it isn't written. */
static inline void recorded_copy(void *to, const void *from) {
  uintptr_t value = scm_plain_load((const uintptr_t *)from);
  scm_plain_store((uintptr_t *)to, value);
}

/* Whoever waits sleeps after a while, for where there are fewer free processors than threads: a loop that waits for a thread
 * without one would fill the buffer. */
static inline void recorded_stall(void) {
  static __thread unsigned stalls;
  ck_pr_stall();
  if (++stalls % 64 == 0)
    nanosleep(&(struct timespec){0, 1}, NULL);
}

#undef ck_pr_load_uint
#undef ck_pr_store_uint
#undef ck_pr_load_ptr
#undef ck_pr_store_ptr
#define ck_pr_load_uint(at) recorded_load_uint(at)
#define ck_pr_store_uint(at, value) recorded_store_uint(at, value)
#define ck_pr_load_ptr(at) ((__typeof__(*(at)))recorded_load_ptr(at))
#define ck_pr_store_ptr(at, value) recorded_store_ptr(at, value)
#define ck_pr_fas_uint(at, value) recorded_fas_uint(at, value)
#define ck_pr_fas_ptr(at, value) recorded_fas_ptr(at, value)
#define ck_pr_cas_ptr(at, compare, set) recorded_cas_ptr(at, compare, set)
#define ck_pr_faa_uint(at, by) recorded_faa_uint(at, by)
#define ck_pr_inc_uint(at) ((void)recorded_faa_uint(at, 1))
#define ck_pr_dec_uint(at) ((void)recorded_faa_uint(at, -1u))
#define ck_pr_stall() recorded_stall()

#define memcpy(to, from, size) recorded_copy(to, from)
#include <ck_ring.h>
#undef memcpy
#include <ck_rwlock.h>
#include <ck_spinlock.h>

#endif
