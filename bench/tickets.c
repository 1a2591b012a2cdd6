// What tickets from one word, and locks, cost four threads in plain C: a bound for tasks whose calls each draw one ticket.
//
//     cc -O2 -pthread -o tickets bench/tickets.c && ./tickets [NANOSECONDS [NANOSECONDS]]
//
// A call takes its thread's own lock, works for so many nanoseconds (the first number, 700) on nothing that is shared, draws a
// ticket from a word, and gives the lock back. The words and the locks have cache lines of their own, and each thread has a
// processor. Four rows: each thread draws from a word of its own, which is what four separate programs do; all draw from one word;
// all draw from one word, where every tenth call takes one more lock and then those of all threads, and works for the second
// number of nanoseconds (2,700) under them; and the same, where each lock is tried 512 times, with up to 8 of the processor's pauses
// between two tries, before the thread sleeps. A row has the calls a second of four threads, of one thread alone, and the first to
// four times the second. The least time of nine runs counts.
#define _GNU_SOURCE
#include <pthread.h>
#include <sched.h>
#include <stdatomic.h>
#include <stdint.h>
#include <stdio.h>
#include <stdlib.h>
#include <time.h>

enum { THREADS = 4, CALLS = 100000, RUNS = 9, TRIES = 512, LONGEST_PAUSE = 8 };

struct place {
    _Alignas(128) pthread_mutex_t lock;
    _Alignas(128) atomic_uint_fast64_t word;
};

static struct place places[THREADS + 1];
static pthread_barrier_t begin;
static double turns_of_a_nanosecond;
static int tries;

static double now(void) {
    struct timespec time;
    clock_gettime(CLOCK_MONOTONIC, &time);
    return (double)time.tv_sec + (double)time.tv_nsec * 1e-9;
}

static void work(uint64_t turns) {
    volatile uint32_t kept;
    uint32_t state = 1;
    for (uint64_t i = 0; i < turns; i++) {
        state = state * 1664525 + 1013904223;
    }
    kept = state;
    (void)kept;
}

static void take(pthread_mutex_t *lock) {
    int pause = 1;
    for (int i = 0; i < tries; i++) {
        if (!pthread_mutex_trylock(lock)) {
            return;
        }
        for (int turn = 0; turn < pause; turn++) {
            __builtin_ia32_pause();
        }
        pause = pause * 2 < LONGEST_PAUSE ? pause * 2 : LONGEST_PAUSE;
    }
    pthread_mutex_lock(lock);
}

struct task {
    int number;
    int word;
    uint64_t short_turns;
    uint64_t long_turns; // 0: no call takes all locks
    double began, ended;
};

static void call_alone(const struct task *task) {
    take(&places[task->number].lock);
    work(task->short_turns);
    atomic_fetch_add(&places[task->word].word, 1);
    pthread_mutex_unlock(&places[task->number].lock);
}

static void call_on_all(const struct task *task) {
    for (int i = THREADS; i >= 0; i--) {
        take(&places[i].lock);
    }
    work(task->long_turns);
    atomic_fetch_add(&places[task->word].word, 1);
    for (int i = 0; i <= THREADS; i++) {
        pthread_mutex_unlock(&places[i].lock);
    }
}

static void *run(void *given) {
    struct task *task = given;
    cpu_set_t processor;
    CPU_ZERO(&processor);
    CPU_SET(task->number, &processor);
    pthread_setaffinity_np(pthread_self(), sizeof processor, &processor);
    pthread_barrier_wait(&begin);
    task->began = now();
    for (int i = 0; i < CALLS; i++) {
        if (task->long_turns && i % 10 == 9) {
            call_on_all(task);
        } else {
            call_alone(task);
        }
    }
    task->ended = now();
    return NULL;
}

// The least seconds of so many threads.
static double seconds(int threads, int is_one_word, uint64_t short_turns, uint64_t long_turns) {
    double least = 1e9;
    for (int turn = 0; turn < RUNS; turn++) {
        pthread_t ids[THREADS];
        struct task tasks[THREADS];
        pthread_barrier_init(&begin, NULL, (unsigned)threads);
        for (int i = 0; i < threads; i++) {
            tasks[i] = (struct task){i, is_one_word ? THREADS : i, short_turns, long_turns, 0, 0};
            if (pthread_create(&ids[i], NULL, run, &tasks[i])) {
                exit(2);
            }
        }
        double first = 1e18, last = 0;
        for (int i = 0; i < threads; i++) {
            pthread_join(ids[i], NULL);
            first = tasks[i].began < first ? tasks[i].began : first;
            last = tasks[i].ended > last ? tasks[i].ended : last;
        }
        pthread_barrier_destroy(&begin);
        least = last - first < least ? last - first : least;
    }
    return least;
}

static void row(const char *name, int is_one_word, uint64_t short_turns, uint64_t long_turns) {
    double four = THREADS * CALLS / seconds(THREADS, is_one_word, short_turns, long_turns);
    double one = CALLS / seconds(1, is_one_word, short_turns, long_turns);
    printf("%-28s %10.0f %10.0f %.2f\n", name, four, one, four / (THREADS * one));
}

int main(int count, char **words) {
    double short_work = count > 1 ? atof(words[1]) : 700, long_work = count > 2 ? atof(words[2]) : 2700;
    for (int i = 0; i <= THREADS; i++) {
        pthread_mutex_init(&places[i].lock, NULL);
    }
    double best = 1e9;
    for (int i = 0; i < RUNS; i++) {
        double before = now();
        work(1000000);
        best = now() - before < best ? now() - before : best;
    }
    turns_of_a_nanosecond = 1000000 / (best * 1e9);
    uint64_t short_turns = (uint64_t)(short_work * turns_of_a_nanosecond), long_turns = (uint64_t)(long_work * turns_of_a_nanosecond);
    printf("%-28s %10s %10s %s\n", "tickets", "four", "one", "four to four times one");
    row("words of their own", 0, short_turns, 0);
    row("one word", 1, short_turns, 0);
    row("one word, every tenth on all", 1, short_turns, long_turns);
    tries = TRIES;
    row("the same, locks are tried", 1, short_turns, long_turns);
    return 0;
}
