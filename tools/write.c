/* Writes files whole or not at all. */
#define _GNU_SOURCE

#include <errno.h>
#include <fcntl.h>
#include <stdio.h>
#include <stdlib.h>
#include <sys/stat.h>
#include <unistd.h>

#include "tool.h"

/* How many files of killed runs with our process number we step over. */
#define MOST_LEFTOVERS 1000
/* ".noferkash-", two numbers, a hyphen and the closing 0 take less. */
#define NAME_ROOM 64

static int write_all(int file, const uint8_t *bytes, size_t length) {
    while (length > 0) {
        ssize_t written = write(file, bytes, length);
        if (written >= 0) {
            bytes += written;
            length -= (size_t)written;
        } else if (errno != EINTR) {
            return 0;
        }
    }
    return 1;
}

/* Closing can fail too: some file systems say only then that the disk is full.
 * Of two failures the first is the one to report. */
static int close_after(int file, int good) {
    int reason = errno;
    if (close(file) != 0 && good) {
        return 0;
    }
    errno = reason;
    return good;
}

int write_standard_output(const void *bytes, size_t length) {
    return close_after(STDOUT_FILENO, write_all(STDOUT_FILENO, bytes, length));
}

/* A device or a named pipe: renaming would put a file in its place. */
int write_through(const char *path, struct bytes bytes) {
    int file = open(path, O_WRONLY);
    return file >= 0 && close_after(file, write_all(file, bytes.at, bytes.length));
}

/* A new file in the folder of `path`, since a file is renamed only within a file
 * system. The name has nothing of the old name, which may be as long as names
 * can be. */
static int create_beside(const char *path, mode_t mode, char *name, size_t room) {
    const char *slash = strrchr(path, '/');
    int folder = slash == NULL ? 0 : (int)(slash - path) + 1;
    for (int i = 0; i < MOST_LEFTOVERS; i++) {
        snprintf(name, room, "%.*s.noferkash-%ld-%d", folder, path, (long)getpid(), i);
        int file = open(name, O_WRONLY | O_CREAT | O_EXCL, mode);
        if (file >= 0 || errno != EEXIST) {
            return file;
        }
    }
    return -1;
}

/* Gives the new file the owner and the permissions of the old one. */
static int take_after(int file, const struct stat *old) {
    /* Only root gives files away; but a group of ours may be kept. */
    if (fchown(file, old->st_uid, old->st_gid) != 0 && fchown(file, (uid_t)-1, old->st_gid) != 0) {
        /* For others the new file is their own. */
    }
    return fchmod(file, old->st_mode & 0777) == 0;
}

/* Renames only where nothing stands: a file that came there since we looked is
 * nobody's to replace. Not every file system can do that, nor has links. */
static int rename_new(const char *from, const char *to) {
    if (renameat2(AT_FDCWD, from, AT_FDCWD, to, RENAME_NOREPLACE) == 0) {
        return 1;
    }
    if (errno != EINVAL && errno != ENOSYS) {
        return 0;
    }
    if (link(from, to) == 0) {
        unlink(from);
        return 1;
    }
    struct stat status;
    return errno != EEXIST && lstat(to, &status) != 0 && errno == ENOENT && rename(from, to) == 0;
}

static int is_same_time(struct timespec one, struct timespec other) {
    return one.tv_sec == other.tv_sec && one.tv_nsec == other.tv_nsec;
}

/* Whether the path still leads to the file that was looked at, and nobody has written
 * to it since. */
static int is_unchanged(const char *path, const struct stat *old) {
    struct stat now;
    return lstat(path, &now) == 0 && now.st_dev == old->st_dev && now.st_ino == old->st_ino &&
           now.st_size == old->st_size && is_same_time(now.st_mtim, old->st_mtim) &&
           is_same_time(now.st_ctim, old->st_ctim);
}

static enum written put_in_place(const char *name, const char *path, const struct stat *old) {
    if (old == NULL) {
        return rename_new(name, path) ? WRITTEN : NOT_WRITTEN;
    }
    if (!is_unchanged(path, old)) {
        return CHANGED_MEANWHILE;
    }
    return rename(name, path) == 0 ? WRITTEN : NOT_WRITTEN;
}

static int fill(int file, const struct stat *old, struct bytes bytes, struct identity *identity) {
    struct stat status;
    if (fstat(file, &status) != 0) {
        return 0;
    }
    identity->device = status.st_dev;
    identity->number = status.st_ino;
    return (old == NULL || take_after(file, old)) && write_all(file, bytes.at, bytes.length) &&
           fsync(file) == 0;
}

/* Writes under a new name and renames that, so that whatever fails leaves the
 * old file whole, and nobody ever sees half of the new one. */
enum written write_file(const char *path, const struct stat *old, struct bytes bytes,
                        struct identity *identity) {
    size_t room = strlen(path) + NAME_ROOM;
    char *name = malloc(room);
    if (name == NULL) {
        return NOT_WRITTEN;
    }
    /* Until it has the old one's permissions it is nobody else's to read. */
    int file = create_beside(path, old == NULL ? 0666 : 0600, name, room);
    enum written written = NOT_WRITTEN;
    if (file >= 0) {
        int good = close_after(file, fill(file, old, bytes, identity));
        written = good ? put_in_place(name, path, old) : NOT_WRITTEN;
        if (written != WRITTEN) {
            int reason = errno;
            unlink(name);
            errno = reason;
        }
    }
    free(name);
    return written;
}
