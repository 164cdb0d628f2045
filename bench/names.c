/* Looks users up as any program does, by getpwnam(3) or getpwuid(3):

     names COUNT [uid | name] [EACH]

   The users are 0 to COUNT - 1, whose ids are their numbers. With EACH, one user more is looked up for each so many, whom only a later service
   of the list knows. It prints the seconds, and ends with status 1 where a user is not found, or is another one. */

#include <pwd.h>
#include <stdio.h>
#include <stdlib.h>
#include <string.h>
#include <time.h>

int main(int words, char **word)
{
    long count = words > 1 ? atol(word[1]) : 0, each = words > 3 ? atol(word[3]) : 0;
    int by_uid = words > 2 && !strcmp(word[2], "uid");
    struct timespec from, to;
    char name[32];

    clock_gettime(CLOCK_MONOTONIC, &from);
    for (long user = 0; user < count; user++) {
        snprintf(name, sizeof name, "user%07ld", user);
        struct passwd *found = by_uid ? getpwuid((uid_t)user) : getpwnam(name);
        if (found == NULL || (long)found->pw_uid != user) {
            fprintf(stderr, "%s: not found\n", name);
            return 1;
        }
        if (each && user % each == 0) {
            snprintf(name, sizeof name, "alien%07ld", user);
            if (by_uid ? getpwuid((uid_t)(1000000 + user)) == NULL : getpwnam(name) == NULL) {
                fprintf(stderr, "%s: not found\n", name);
                return 1;
            }
        }
    }
    clock_gettime(CLOCK_MONOTONIC, &to);
    printf("%.6f\n", (double)(to.tv_sec - from.tv_sec) + (double)(to.tv_nsec - from.tv_nsec) / 1e9);
    return 0;
}
