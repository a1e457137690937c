/*
 * A barrier for PROCS threads: nobody goes on before all have called meet(). It is that of POSIX threads. -DSPIN: who
 * waits looks again and again, and lets others run after a while, which is faster where each thread has a processor.
 */
#ifndef BARRIER_H
#define BARRIER_H

#ifdef SPIN

#include <sched.h>
#include <stdatomic.h>

enum { LOOKS_BEFORE_YIELD = 100000 };

static _Alignas(64) atomic_uint there;
static _Alignas(64) atomic_uint meeting;

/* 1: the barrier can be used. */
static int start_meetings(void) {
    return 1;
}

static void end_meetings(void) {}

static void look_again(unsigned looks) {
    if (looks > LOOKS_BEFORE_YIELD)
        sched_yield();
#if defined __x86_64__ || defined __i386__
    else
        __builtin_ia32_pause();
#endif
}

/* The last one to come begins the next meeting, which the others wait for. */
static void meet(void) {
    const unsigned now = atomic_load_explicit(&meeting, memory_order_relaxed);
    if (atomic_fetch_add_explicit(&there, 1, memory_order_acq_rel) == PROCS - 1) {
        atomic_store_explicit(&there, 0, memory_order_relaxed);
        atomic_store_explicit(&meeting, now + 1, memory_order_release);
        return;
    }
    for (unsigned looks = 0; atomic_load_explicit(&meeting, memory_order_acquire) == now; looks++)
        look_again(looks);
}

#else

#include <pthread.h>

static pthread_barrier_t barrier;

/* 1: the barrier can be used. */
static int start_meetings(void) {
    return pthread_barrier_init(&barrier, NULL, PROCS) == 0;
}

static void end_meetings(void) {
    pthread_barrier_destroy(&barrier);
}

static void meet(void) {
    pthread_barrier_wait(&barrier);
}

#endif

#endif
