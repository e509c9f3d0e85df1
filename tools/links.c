/* Where a link leads. */
#define _XOPEN_SOURCE 700

#include <errno.h>
#include <stdlib.h>
#include <sys/stat.h>
#include <unistd.h>

#include "tool.h"

/* As many links as Linux follows, and the longest name that one may hold. */
#define MOST_LINKS 40
#define LINK_ROOM 4096

/* What the link at `path` says, from the link's own folder unless it is absolute.
 * To be freed; NULL, with errno set, if it failed. */
static char *link_target(const char *path) {
    const char *slash = strrchr(path, '/');
    size_t folder = slash == NULL ? 0 : (size_t)(slash - path) + 1;
    char *target = malloc(folder + LINK_ROOM + 1);
    if (target == NULL) {
        return NULL;
    }
    memcpy(target, path, folder);
    ssize_t length = readlink(path, target + folder, LINK_ROOM);
    if (length < 0) {
        free(target);
        return NULL;
    }
    target[folder + (size_t)length] = '\0';
    if (target[folder] == '/') {
        memmove(target, target + folder, (size_t)length + 1);
    }
    return target;
}

/* Follows links from `name` on to what is no link, or to a link on the file system
 * `device`, where that is given. To be freed; NULL, with errno set, if it failed. */
static char *follow_to(const char *name, const dev_t *device) {
    char *path = strdup(name);
    struct stat status;
    for (int links = 0; path != NULL && lstat(path, &status) == 0 && S_ISLNK(status.st_mode) &&
                        (device == NULL || status.st_dev != *device);
         links++) {
        char *target = NULL;
        if (links == MOST_LINKS) {
            errno = ELOOP;
        } else {
            target = link_target(path);
        }
        free(path);
        path = target;
    }
    return path;
}

char *follow(const char *name) {
    return follow_to(name, NULL);
}

int is_open_file(const char *name) {
    struct stat proc;
    struct stat status;
    if (stat("/proc", &proc) != 0) {
        return 0;
    }
    char *path = follow_to(name, &proc.st_dev);
    int is_open = path != NULL && lstat(path, &status) == 0 && S_ISLNK(status.st_mode);
    free(path);
    return is_open;
}
