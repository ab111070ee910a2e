/* Notes the threads of a program: a library to be loaded before it, by LD_PRELOAD.
 *
 * Where the program ends, the file that THREADS names gets a line with its milliseconds, and one for each thread
 * that it started: when its start was asked for and was done, when the thread began and ended, and when it began and
 * ended to be waited for (all in milliseconds, 0 where that never came), the processors of its creator and on which it
 * began, and the places in the program from which it was started, innermost first, as far as frame pointers tell. */
#define _GNU_SOURCE
#include <dlfcn.h>
#include <pthread.h>
#include <sched.h>
#include <stdatomic.h>
#include <stdint.h>
#include <stdio.h>
#include <stdlib.h>
#include <time.h>

enum { MOST_THREADS = 100000, MOST_PLACES = 16 };

struct note {
    pthread_t thread;
    void *(*body)(void *);
    void *argument;
    double asked, done, begun, ended, awaited, joined;
    int creator, processor, places;
    void *place[MOST_PLACES];
};

static struct note notes[MOST_THREADS];
static atomic_int count;
static double start;

static double now(void) {
    struct timespec time;
    clock_gettime(CLOCK_MONOTONIC, &time);
    return 1e3 * time.tv_sec + time.tv_nsec / 1e6 - start;
}

static void *run(void *argument) {
    struct note *note = argument;
    note->begun = now();
    note->processor = sched_getcpu();
    void *result = note->body(note->argument);
    note->ended = now();
    return result;
}

/* The addresses to which the frames above this one return. */
static int places_of(void **frame, void **place) {
    int found = 0;
    while (frame && found < MOST_PLACES) {
        void **above = frame[0];
        place[found++] = frame[1];
        if (above <= frame || (uintptr_t)above % sizeof(void *) != 0)
            break;
        frame = above;
    }
    return found;
}

int pthread_create(pthread_t *thread, const pthread_attr_t *attributes, void *(*body)(void *), void *argument) {
    int (*create)(pthread_t *, const pthread_attr_t *, void *(*)(void *), void *) = dlsym(RTLD_NEXT, "pthread_create");
    int number = atomic_fetch_add(&count, 1);
    if (number >= MOST_THREADS)
        return create(thread, attributes, body, argument);
    struct note *note = &notes[number];
    note->body = body;
    note->argument = argument;
    note->places = places_of(__builtin_frame_address(0), note->place);
    note->creator = sched_getcpu();
    note->asked = now();
    int failed = create(thread, attributes, run, note);
    note->done = now();
    note->thread = *thread;
    return failed;
}

int pthread_join(pthread_t thread, void **result) {
    int (*join)(pthread_t, void **) = dlsym(RTLD_NEXT, "pthread_join");
    double awaited = now();
    int failed = join(thread, result);
    int all = atomic_load(&count);
    for (int i = (all < MOST_THREADS ? all : MOST_THREADS) - 1; i >= 0; i--)
        if (pthread_equal(notes[i].thread, thread) && notes[i].joined == 0) {
            notes[i].awaited = awaited;
            notes[i].joined = now();
            break;
        }
    return failed;
}

__attribute__((constructor)) static void begin(void) { start = now(); }

__attribute__((destructor)) static void end(void) {
    const char *name = getenv("THREADS");
    FILE *file = name ? fopen(name, "w") : NULL;
    if (!file)
        return;
    fprintf(file, "%.4f\n", now());
    int all = atomic_load(&count);
    for (int i = 0; i < all && i < MOST_THREADS; i++) {
        struct note *note = &notes[i];
        fprintf(file, "%.4f %.4f %.4f %.4f %.4f %.4f %d %d", note->asked, note->done, note->begun, note->ended,
                note->awaited, note->joined, note->creator, note->processor);
        for (int j = 0; j < note->places; j++) {
            Dl_info where;
            if (dladdr(note->place[j], &where))
                fprintf(file, " %s+%lx", where.dli_fname, (unsigned long)((char *)note->place[j] - (char *)where.dli_fbase));
        }
        fprintf(file, "\n");
    }
    fclose(file);
}
