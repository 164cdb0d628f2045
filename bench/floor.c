/* The floor of hits: a server of the daemon's shape that looks nothing up.

     floor SOCKET

   One thread accepts, peeks at the request and writes the reply, which it spells from the number in the name; another one takes the
   request's bytes and closes. It is for measures alone: it waits for each peer's request, and ends when it is killed. */

#define _GNU_SOURCE
#include <poll.h>
#include <pthread.h>
#include <sched.h>
#include <semaphore.h>
#include <stdatomic.h>
#include <stdint.h>
#include <stdio.h>
#include <stdlib.h>
#include <string.h>
#include <sys/socket.h>
#include <sys/un.h>
#include <unistd.h>

enum { RING = 65536, LOOKS = 50, RESTS = 100, PATIENCE = 5000 };

static int ring[RING];
static _Atomic unsigned put, taken;
static atomic_bool sleeps;
static sem_t called;

/* Takes what peers sent, and closes; it rests for a millisecond while connections come. */
static void *close_all(void *unused)
{
    char rest[2048];
    for (int rests = 0;;) {
        if (taken != put) {
            int fd = ring[taken % RING];
            recv(fd, rest, sizeof rest, MSG_DONTWAIT);
            close(fd);
            taken++;
            rests = 0;
        } else if (rests++ < RESTS) {
            usleep(1000);
        } else {
            sleeps = 1;
            if (taken == put)
                sem_wait(&called);
            sleeps = 0;
            rests = 0;
        }
    }
    return unused;
}

/* Waits for something to read: at first by LOOKS calls with a yield between, then asleep. Whether it came. */
static int comes(int fd, int limit)
{
    struct pollfd wanted = {fd, POLLIN, 0};
    for (int look = 0; look < LOOKS; look++) {
        if (poll(&wanted, 1, 0) > 0)
            return 1;
        sched_yield();
    }
    return poll(&wanted, 1, limit) > 0;
}

/* Answers the request of this connection. */
static void answer(int fd)
{
    char asked[2048], reply[1024];
    ssize_t size = recv(fd, asked, sizeof asked - 1, MSG_PEEK | MSG_DONTWAIT);
    if (size < 0 && comes(fd, PATIENCE))
        size = recv(fd, asked, sizeof asked - 1, MSG_PEEK | MSG_DONTWAIT);
    if (size < 17)
        return;
    asked[size] = 0;
    long number = atol(asked + 12 + strlen("user"));
    int32_t head[9] = {2, 1, 12, 2, (int32_t)number, (int32_t)number, 0, 0, 8};
    char *at = reply + sizeof head;
    at += sprintf(at, "user%07ld%cx%c", number, 0, 0);
    head[6] = sprintf(at, "User number %ld", number) + 1;
    at += head[6];
    head[7] = sprintf(at, "/home/user%07ld", number) + 1;
    at += head[7];
    at += sprintf(at, "/bin/sh") + 1;
    memcpy(reply, head, sizeof head);
    if (send(fd, reply, (size_t)(at - reply), MSG_NOSIGNAL | MSG_DONTWAIT) < 0)
        perror("floor");
}

int main(int count, char **words)
{
    struct sockaddr_un place = {.sun_family = AF_UNIX};
    pthread_t closer;
    int door = socket(AF_UNIX, SOCK_STREAM | SOCK_NONBLOCK | SOCK_CLOEXEC, 0);
    if (count != 2 || strlen(words[1]) >= sizeof place.sun_path)
        return 2;
    strcpy(place.sun_path, words[1]);
    if (bind(door, (struct sockaddr *)&place, sizeof place) != 0 || listen(door, 4096) != 0)
        return 1;
    sem_init(&called, 0, 0);
    if (pthread_create(&closer, NULL, close_all, NULL) != 0)
        return 1;
    for (;;) {
        int fd = accept4(door, NULL, NULL, SOCK_NONBLOCK | SOCK_CLOEXEC);
        if (fd < 0) {
            comes(door, -1);
            continue;
        }
        answer(fd);
        while (put - taken == RING)
            sched_yield();
        ring[put % RING] = fd;
        put++;
        if (sleeps)
            sem_post(&called);
    }
}
