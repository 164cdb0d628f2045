// A service of names for tests, as a module of the C library: it finds what files of the folder FOLDER say, which have the forms of passwd(5),
// group(5), and for hosts and services a line `ADDRESS NAME` or `NAME PORT PROTOCOL`. Nothing of it is known to nscd.

#include <arpa/inet.h>
#include <errno.h>
#include <grp.h>
#include <netdb.h>
#include <nss.h>
#include <pwd.h>
#include <stdio.h>
#include <stdlib.h>
#include <string.h>

typedef enum nss_status status;

static FILE *opened(const char *name, int *error) {
    FILE *file = fopen(name, "re");
    if (!file) *error = errno;
    return file;
}

// What a search has come to by the value of fgetpwent_r or fgetgrent_r: the line before it was another one, or there is none.
static status ended(FILE *file, int value, int *error) {
    fclose(file);
    if (value == 0) return NSS_STATUS_SUCCESS;
    *error = value;
    return value == ERANGE ? NSS_STATUS_TRYAGAIN : NSS_STATUS_NOTFOUND;
}

static status user(const char *name, uid_t uid, struct passwd *found, char *buffer, size_t size, int *error) {
    FILE *file = opened(FOLDER "/passwd", error);
    if (!file) return NSS_STATUS_UNAVAIL;
    struct passwd *line;
    int value;
    while (!(value = fgetpwent_r(file, found, buffer, size, &line)))
        if (name ? !strcmp(line->pw_name, name) : line->pw_uid == uid) break;
    return ended(file, value, error);
}

status _nss_foreign_getpwnam_r(const char *name, struct passwd *found, char *buffer, size_t size, int *error) {
    return user(name, 0, found, buffer, size, error);
}

status _nss_foreign_getpwuid_r(uid_t uid, struct passwd *found, char *buffer, size_t size, int *error) {
    return user(NULL, uid, found, buffer, size, error);
}

static status group(const char *name, gid_t gid, struct group *found, char *buffer, size_t size, int *error) {
    FILE *file = opened(FOLDER "/group", error);
    if (!file) return NSS_STATUS_UNAVAIL;
    struct group *line;
    int value;
    while (!(value = fgetgrent_r(file, found, buffer, size, &line)))
        if (name ? !strcmp(line->gr_name, name) : line->gr_gid == gid) break;
    return ended(file, value, error);
}

status _nss_foreign_getgrnam_r(const char *name, struct group *found, char *buffer, size_t size, int *error) {
    return group(name, 0, found, buffer, size, error);
}

status _nss_foreign_getgrgid_r(gid_t gid, struct group *found, char *buffer, size_t size, int *error) {
    return group(NULL, gid, found, buffer, size, error);
}

status _nss_foreign_initgroups_dyn(const char *name, gid_t own, long *count, long *room, gid_t **gids, long most, int *error) {
    FILE *file = opened(FOLDER "/group", error);
    if (!file) return NSS_STATUS_UNAVAIL;
    static char buffer[1 << 16];
    struct group each, *line;
    (void)most;
    while (!fgetgrent_r(file, &each, buffer, sizeof buffer, &line))
        for (char **member = line->gr_mem; *member; member++) {
            if (strcmp(*member, name) || line->gr_gid == own) continue;
            if (*count == *room) *gids = realloc(*gids, (*room *= 2) * sizeof **gids);
            (*gids)[(*count)++] = line->gr_gid;
        }
    fclose(file);
    return NSS_STATUS_SUCCESS;
}

// A host with one name and one address, in the caller's buffer.
static status host(const char *name, const void *address, int family, struct hostent *found, char *buffer, size_t size, int *error, int *why) {
    FILE *file = opened(FOLDER "/hosts", error);
    char text[64], own[256], bytes[16];
    int length = family == AF_INET ? 4 : 16;
    *why = HOST_NOT_FOUND;
    if (!file) return NSS_STATUS_UNAVAIL;
    if (size < sizeof own + 8 * sizeof(char *) + sizeof bytes) {
        fclose(file);
        *error = ERANGE;
        *why = NETDB_INTERNAL;
        return NSS_STATUS_TRYAGAIN;
    }
    while (fscanf(file, "%63s %255s", text, own) == 2) {
        if (inet_pton(family, text, bytes) != 1 || (name ? strcmp(own, name) : memcmp(bytes, address, length))) continue;
        char **lists = (char **)(((size_t)buffer + sizeof *lists - 1) / sizeof *lists * sizeof *lists);
        char *place = (char *)(lists + 3);
        lists[0] = memcpy(place, bytes, sizeof bytes);
        lists[1] = lists[2] = NULL;
        *found = (struct hostent){strcpy(place + sizeof bytes, own), lists + 2, family, length, lists};
        fclose(file);
        return NSS_STATUS_SUCCESS;
    }
    fclose(file);
    return NSS_STATUS_NOTFOUND;
}

status _nss_foreign_gethostbyname2_r(const char *name, int family, struct hostent *found, char *buffer, size_t size, int *error, int *why) {
    return host(name, NULL, family, found, buffer, size, error, why);
}

status _nss_foreign_gethostbyname_r(const char *name, struct hostent *found, char *buffer, size_t size, int *error, int *why) {
    return host(name, NULL, AF_INET, found, buffer, size, error, why);
}

status _nss_foreign_gethostbyaddr_r(const void *address, socklen_t length, int family, struct hostent *found, char *buffer, size_t size,
                                    int *error, int *why) {
    (void)length;
    return host(NULL, address, family, found, buffer, size, error, why);
}

static status service(const char *name, int port, const char *protocol, struct servent *found, char *buffer, size_t size, int *error) {
    FILE *file = opened(FOLDER "/services", error);
    char own[128], way[32];
    unsigned number;
    if (!file) return NSS_STATUS_UNAVAIL;
    while (size >= 256 && fscanf(file, "%127s %u %31s", own, &number, way) == 3) {
        if ((name ? strcmp(own, name) : htons(number) != port) || (protocol && strcmp(way, protocol))) continue;
        static char *none[1];
        *found = (struct servent){strcpy(buffer, own), none, htons(number), strcpy(buffer + 128, way)};
        fclose(file);
        return NSS_STATUS_SUCCESS;
    }
    fclose(file);
    *error = size < 256 ? ERANGE : ENOENT;
    return size < 256 ? NSS_STATUS_TRYAGAIN : NSS_STATUS_NOTFOUND;
}

status _nss_foreign_getservbyname_r(const char *name, const char *protocol, struct servent *found, char *buffer, size_t size, int *error) {
    return service(name, 0, protocol, found, buffer, size, error);
}

status _nss_foreign_getservbyport_r(int port, const char *protocol, struct servent *found, char *buffer, size_t size, int *error) {
    return service(NULL, port, protocol, found, buffer, size, error);
}
