/* Asks a daemon for users by name, as the C library does, and looks at each reply:

     client SOCKET THREADS SECONDS FIRST COUNT STEP FOUND [end]

   The names are those of the COUNT users FIRST, FIRST + STEP and so on, and the id of user N is N. With SECONDS the threads
   ask them in a mixed order for so long; with 0 one thread asks each once, in order. FOUND is 1 where the users are to be
   found, else 0. It prints how many were answered, the seconds, the middle, the 99th percentile and the longest of the times,
   in microseconds, and how often a connection was refused since too many waited. It ends with status 1 where a reply is not
   what it must be, or takes five seconds.

   With the word `end` each thread waits behind the reply for the end of the connection, as the C library does not; then it
   prints too the middle and the 99th percentile of the times to the end, in microseconds. */

#define _GNU_SOURCE
#include <errno.h>
#include <poll.h>
#include <pthread.h>
#include <stdint.h>
#include <stdio.h>
#include <stdlib.h>
#include <string.h>
#include <sys/socket.h>
#include <sys/uio.h>
#include <sys/un.h>
#include <time.h>
#include <unistd.h>

enum { BUCKETS = 1000000, MOST_THREADS = 64, PATIENCE = 5000 };

struct asker {
    pthread_t thread;
    uint64_t dice;
    long asked, failed, refused;
    double longest;
    uint32_t counts[BUCKETS]; /* by whole microseconds; the last one has all that are longer */
    uint32_t ends[BUCKETS];   /* the same, to the end of the connection */
};

static struct sockaddr_un place = {.sun_family = AF_UNIX};
static double limit;
static long first, count, step, found;
static int waits;
static struct asker askers[MOST_THREADS];
static pthread_barrier_t begin;

static double now(void)
{
    struct timespec time;
    clock_gettime(CLOCK_MONOTONIC, &time);
    return time.tv_sec + time.tv_nsec / 1e9;
}

/* Reads so many bytes, and gives whether they came in time. */
static int read_all(int fd, char *to, size_t size)
{
    while (size > 0) {
        struct pollfd wanted = {fd, POLLIN, 0};
        if (poll(&wanted, 1, PATIENCE) <= 0)
            return 0;
        ssize_t part = read(fd, to, size);
        if (part == 0 || (part < 0 && errno != EAGAIN && errno != EINTR))
            return 0;
        if (part > 0) {
            to += part;
            size -= part;
        }
    }
    return 1;
}

/* Whether the reply is that of the user with this number. */
static int is_right(int fd, long number, const char *name)
{
    int32_t head[9];
    char texts[1024];
    if (!read_all(fd, (char *)head, sizeof head) || head[0] != 2 || head[1] != found)
        return 0;
    if (!found)
        return 1;
    size_t size = (size_t)head[2] + head[3] + head[6] + head[7] + head[8];
    if (head[4] != number || size > sizeof texts || !read_all(fd, texts, size))
        return 0;
    return strncmp(texts, name, sizeof texts) == 0;
}

/* Whether the connection ends now, without a further byte. */
static int ends_here(int fd)
{
    struct pollfd wanted = {fd, POLLIN, 0};
    char byte;
    return poll(&wanted, 1, PATIENCE) > 0 && read(fd, &byte, 1) == 0;
}

enum answer { WRONG, RIGHT, REFUSED };

/* Asks once, and gives what came of it and the moment of the reply. */
static enum answer ask(long number, double *replied)
{
    char name[32];
    int32_t head[3] = {2, 0, snprintf(name, sizeof name, "user%07ld", number) + 1};
    struct iovec parts[2] = {{head, sizeof head}, {name, head[2]}};
    struct msghdr message = {.msg_iov = parts, .msg_iovlen = 2};
    int fd = socket(AF_UNIX, SOCK_STREAM | SOCK_CLOEXEC | SOCK_NONBLOCK, 0);
    if (fd < 0)
        return WRONG;
    enum answer answer = WRONG;
    if (connect(fd, (struct sockaddr *)&place, sizeof place) != 0)
        answer = errno == EAGAIN ? REFUSED : WRONG;
    else if (sendmsg(fd, &message, MSG_NOSIGNAL) == (ssize_t)sizeof head + head[2] && is_right(fd, number, name))
        answer = RIGHT;
    *replied = now();
    if (answer == RIGHT && waits && !ends_here(fd))
        answer = WRONG;
    close(fd);
    return answer;
}

static int bucket(double took)
{
    return took < BUCKETS - 1 ? (int)took : BUCKETS - 1;
}

/* Asks once, notes the times, and gives the moment. */
static double note(struct asker *self, long number, double began)
{
    double replied = began;
    enum answer answer = ask(number, &replied);
    double ended = now();
    if (answer == REFUSED) {
        self->refused++;
        return ended;
    }
    self->failed += answer == WRONG;
    self->asked++;
    double took = ((waits ? replied : ended) - began) * 1e6;
    self->counts[bucket(took)]++;
    if (waits)
        self->ends[bucket((ended - began) * 1e6)]++;
    if (took > self->longest)
        self->longest = took;
    return ended;
}

static void *run(void *given)
{
    struct asker *self = given;
    pthread_barrier_wait(&begin);
    double began = now(), at = began;
    if (limit == 0)
        for (long i = 0; i < count; i++)
            at = note(self, first + i * step, at);
    else
        while (at - began < limit) {
            self->dice = self->dice * 6364136223846793005u + 1442695040888963407u;
            at = note(self, first + (long)((self->dice >> 33) % (uint64_t)count) * step, at);
        }
    return NULL;
}

/* The time that this share of all was not longer than. */
static int percentile(const uint32_t *counts, long asked, double share)
{
    long below = 0;
    int at = 0;
    while (at < BUCKETS - 1 && (below += counts[at]) < asked * share)
        at++;
    return at;
}

int main(int words, char **word)
{
    waits = words == 9 && strcmp(word[8], "end") == 0;
    if (words != 8 + waits) {
        fprintf(stderr, "usage: client SOCKET THREADS SECONDS FIRST COUNT STEP FOUND [end]\n");
        return 2;
    }
    strncpy(place.sun_path, word[1], sizeof place.sun_path - 1);
    int threads = atoi(word[2]);
    limit = atof(word[3]);
    first = atol(word[4]);
    count = atol(word[5]);
    step = atol(word[6]);
    found = atol(word[7]);
    if (threads < 1 || threads > MOST_THREADS || count < 1)
        return 2;
    pthread_barrier_init(&begin, NULL, threads + 1);
    for (int i = 0; i < threads; i++) {
        askers[i].dice = 7 * i + 1;
        pthread_create(&askers[i].thread, NULL, run, &askers[i]);
    }
    pthread_barrier_wait(&begin);
    double began = now();
    for (int i = 0; i < threads; i++)
        pthread_join(askers[i].thread, NULL);
    double took = now() - began;
    struct asker *all = &askers[0];
    for (int i = 1; i < threads; i++) {
        all->asked += askers[i].asked;
        all->failed += askers[i].failed;
        all->refused += askers[i].refused;
        if (askers[i].longest > all->longest)
            all->longest = askers[i].longest;
        for (int j = 0; j < BUCKETS; j++) {
            all->counts[j] += askers[i].counts[j];
            all->ends[j] += askers[i].ends[j];
        }
    }
    printf("%ld %.6f %d %d %.0f %ld", all->asked, took, percentile(all->counts, all->asked, 0.5),
           percentile(all->counts, all->asked, 0.99), all->longest, all->refused);
    if (waits)
        printf(" %d %d", percentile(all->ends, all->asked, 0.5), percentile(all->ends, all->asked, 0.99));
    printf("\n");
    if (all->failed)
        fprintf(stderr, "client: %ld of %ld replies are not what they must be\n", all->failed, all->asked);
    return all->failed != 0;
}
