/* Looks users up that are in no file, through the C library and the map that its daemon shares:

     mapped THREADS ENTRIES COUNT

   Each of the ENTRIES users 0, 1 and so on is looked up once, so that the daemon keeps that he is in no file. Then the threads share COUNT
   lookups of them in turn. It prints the nanoseconds of the thread that took longest. It ends with status 1 where a user is found, where a
   lookup fails, or where the daemon was asked over its socket again and again, which a thread's waits tell. */

#define _GNU_SOURCE
#include <pthread.h>
#include <pwd.h>
#include <stdint.h>
#include <stdio.h>
#include <stdlib.h>
#include <string.h>
#include <sys/resource.h>
#include <time.h>

enum { MOST_THREADS = 64 };

static long entries, count;
static pthread_barrier_t begin;

struct reader {
    pthread_t thread;
    long wrong, waits;
    int64_t took;
};

static int64_t now(void)
{
    struct timespec time;
    clock_gettime(CLOCK_MONOTONIC, &time);
    return time.tv_sec * 1000000000LL + time.tv_nsec;
}

/* Whether a user is in no file. */
static int is_absent(long number)
{
    char name[] = "user0000000", texts[1024];
    struct passwd user, *found;
    for (char *digit = name + 10; number > 0; digit--, number /= 10)
        *digit = '0' + number % 10;
    return getpwnam_r(name, &user, texts, sizeof texts, &found) == 0 && found == NULL;
}

static void *run(void *given)
{
    struct reader *self = given;
    struct rusage before, after;
    is_absent(0);
    pthread_barrier_wait(&begin);
    getrusage(RUSAGE_THREAD, &before);
    int64_t began = now();
    for (long turn = 0; turn < count; turn++)
        self->wrong += !is_absent(turn % entries);
    self->took = now() - began;
    getrusage(RUSAGE_THREAD, &after);
    self->waits = after.ru_nvcsw - before.ru_nvcsw;
    return NULL;
}

int main(int words, char **word)
{
    static struct reader readers[MOST_THREADS];
    if (words != 4)
        return 2;
    int threads = atoi(word[1]);
    entries = atol(word[2]);
    if (threads < 1 || threads > MOST_THREADS || entries < 1)
        return 2;
    count = atol(word[3]) / threads;
    for (long number = 0; number < entries; number++)
        if (!is_absent(number)) {
            fprintf(stderr, "mapped: user %ld is found, or the lookup fails\n", number);
            return 1;
        }
    pthread_barrier_init(&begin, NULL, threads);
    for (int i = 0; i < threads; i++)
        pthread_create(&readers[i].thread, NULL, run, &readers[i]);
    int64_t took = 0;
    long wrong = 0, waits = 0;
    for (int i = 0; i < threads; i++) {
        pthread_join(readers[i].thread, NULL);
        wrong += readers[i].wrong;
        waits += readers[i].waits;
        if (readers[i].took > took)
            took = readers[i].took;
    }
    printf("%lld nanoseconds, %ld waits\n", (long long)took, waits);
    if (wrong)
        fprintf(stderr, "mapped: %ld lookups did not come to what they must\n", wrong);
    if (waits > count / 100)
        fprintf(stderr, "mapped: %ld waits in %ld lookups: the daemon's map does not answer\n", waits, count * threads);
    return wrong || waits > count / 100;
}
