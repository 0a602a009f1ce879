/* Calls from signal handlers, and from threads while others run: every call is interrupted in the midst by a handler
 * that makes calls of its own on other buffers, first in one thread and then in several at once. What every call gives
 * and writes is what the reference gives and writes. */
#define _GNU_SOURCE
#include "every_call.h"

#include <pthread.h>
#include <signal.h>
#include <stdio.h>
#include <string.h>
#include <sys/time.h>
#include <time.h>

enum { THREADS = 4, WANTED = SOME(1500), MOST_SECONDS = 20 };

/* A call as it begins, as it must end, and where it runs. */
typedef struct {
    task fresh, expected, own;
} trial;

/* A thread's calls, and those of the handler that interrupts it. */
typedef struct {
    trial calls[EVERY_CALL], in_handler[EVERY_CALL];
    volatile sig_atomic_t inside, next, wrong;
    volatile unsigned long met; /* calls in whose midst the handler came */
    unsigned long rounds;
} worker;

static worker workers[THREADS];
static __thread worker *own;
static volatile sig_atomic_t over;
static int alone;
static double until;

static trial new_trial(int which, uint32_t m) {
    trial a;
    a.fresh = new_task(which, m, 1 + below(5), below(5));
    a.expected = copy_of_task(&a.fresh), a.own = copy_of_task(&a.fresh);
    every_call[which].reference(&a.expected);
    return a;
}

static void free_trial(trial *a) { free_task(&a->fresh), free_task(&a->expected), free_task(&a->own); }

/* By the library and by memcpy and memcmp alone, so that a handler may do it. `inside` is set during the call. */
static int goes_right(int which, trial *a, volatile sig_atomic_t *inside) {
    for (int i = 0; i < a->own.count; i++)
        memcpy(a->own.slices[i].at, a->fresh.slices[i].at, a->fresh.slices[i].size * a->fresh.slices[i].len);
    memset(a->own.result, 0, sizeof a->own.result);
    *inside = 1;
    every_call[which].library(&a->own);
    *inside = 0;
    return same_task(&a->own, &a->expected);
}

/* An emulator (qemu 7.2) enters a handler with a stack that is not aligned as the ABI has it: the compiler mends it. */
#ifdef __x86_64__
__attribute__((force_align_arg_pointer))
#endif
static void interrupt(int number) {
    worker *w = own;
    volatile sig_atomic_t inside;
    (void)number;
    if (!w) return;
    if (w->inside) w->met++;
    int which = w->next;
    w->next = (which + 1) % EVERY_CALL;
    if (!goes_right(which, &w->in_handler[which], &inside)) w->wrong = 1;
}

static double seconds(void) {
    struct timespec now;
    clock_gettime(CLOCK_MONOTONIC, &now);
    return (double)now.tv_sec + (double)now.tv_nsec / 1e9;
}

/* A signal in so many microseconds, once: a timer that goes on could leave no time but for the handler. */
static void set_timer(long microseconds) {
    struct itimerval once = { { 0, 0 }, { 0, microseconds } };
    must(setitimer(ITIMER_REAL, &once, NULL) == 0, "no timer");
}

/* Every call in turn, until all is over; who is alone sees to that itself. */
static void *work(void *of) {
    worker *w = own = of;
    while (!over) {
        for (int which = 0; which < EVERY_CALL; which++) {
            if (alone) set_timer(1 + (long)(37 * w->rounds + 13 * (unsigned long)which) % 60);
            must(goes_right(which, &w->calls[which], &w->inside), every_call[which].name);
            must(w->wrong == 0, "a call in a handler");
        }
        w->rounds++;
        if (alone && (w->met >= WANTED || seconds() > until)) over = 1;
    }
    return NULL;
}

/* A timer interrupts the one thread. */
static void by_itself(void) {
    alone = 1, until = seconds() + MOST_SECONDS;
    work(&workers[0]);
    set_timer(0);
    own = NULL;
    alone = over = 0;
}

/* Threads, each interrupted in turn. */
static void together(void) {
    pthread_t threads[THREADS];
    struct timespec pause = { 0, 100000 };
    until = seconds() + MOST_SECONDS;
    for (int i = 0; i < THREADS; i++)
        must(pthread_create(&threads[i], NULL, work, &workers[i]) == 0, "no thread");
    for (int done = 0; !done;) {
        done = 1;
        for (int i = 0; i < THREADS; i++) {
            if (workers[i].met < WANTED) done = 0;
            must(pthread_kill(threads[i], SIGALRM) == 0, "no signal");
        }
        nanosleep(&pause, NULL);
        done |= seconds() > until;
    }
    over = 1;
    for (int i = 0; i < THREADS; i++) must(pthread_join(threads[i], NULL) == 0, "a thread that does not end");
}

static void tell(const char *who, int count) {
    unsigned long met = 0, rounds = 0;
    for (int i = 0; i < count; i++) {
        must(workers[i].met > 99 && workers[i].rounds > 0, "the handler hardly came");
        met += workers[i].met, rounds += workers[i].rounds;
        workers[i].met = workers[i].rounds = 0;
    }
    printf("handlers: %s, %d calls %lu times over, %lu of them interrupted by others\n", who, EVERY_CALL, rounds, met);
}

int main(void) {
    struct sigaction action = { .sa_handler = interrupt, .sa_flags = SA_RESTART };
    for (uint32_t i = 0; i < THREADS; i++)
        for (int which = 0; which < EVERY_CALL; which++) {
            seed(77 * i + (uint32_t)which);
            workers[i].calls[which] = new_trial(which, 5);
            workers[i].in_handler[which] = new_trial(which, below(4));
        }
    must(sigaction(SIGALRM, &action, NULL) == 0, "no handler");
    by_itself();
    tell("one thread", 1);
    together();
    tell("four threads", THREADS);
    for (int i = 0; i < THREADS; i++)
        for (int which = 0; which < EVERY_CALL; which++)
            free_trial(&workers[i].calls[which]), free_trial(&workers[i].in_handler[which]);
    return 0;
}
