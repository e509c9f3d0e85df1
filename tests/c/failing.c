/* Preloaded before the C library, makes the calls that FAILING names, joined by commas, fail as they
 * seldom do: close, fsync, fchmod, rename; or "short": each write is of 7 bytes at most, and every
 * other one is interrupted; or "plain": the file system cannot rename with conditions; or "linkless":
 * nor make links. While the new file is flushed, somebody else may come: "late", and his file comes to
 * stand at the name LATE; "changed", and he adds to that file; "moved", and he renames FROM to it. */
#define _GNU_SOURCE
#include <errno.h>
#include <fcntl.h>
#include <stdio.h>
#include <stdlib.h>
#include <string.h>
#include <sys/stat.h>
#include <sys/syscall.h>
#include <unistd.h>

static int fails(const char *call) {
    const char *failing = getenv("FAILING");
    size_t length = strlen(call);
    for (; failing != NULL; failing = strchr(failing, ',')) {
        failing += *failing == ',';
        if (strncmp(failing, call, length) == 0 && strchr(",", failing[length]) != NULL) {
            return 1;
        }
    }
    return 0;
}

static int fail(int number) {
    errno = number;
    return -1;
}

int close(int file) {
    int done = (int)syscall(SYS_close, file);
    return fails("close") ? fail(EDQUOT) : done;
}

static void add_to_late(int flags) {
    int other = open(getenv("LATE"), O_WRONLY | O_APPEND | flags, 0644);
    if (other >= 0) {
        syscall(SYS_write, other, "old\n", 4);
        syscall(SYS_close, other);
    }
}

int fsync(int file) {
    if (fails("late") || fails("changed")) {
        add_to_late(fails("late") ? O_CREAT | O_EXCL : 0);
    }
    if (fails("moved")) {
        syscall(SYS_rename, getenv("FROM"), getenv("LATE"));
    }
    return fails("fsync") ? fail(EIO) : (int)syscall(SYS_fsync, file);
}

int link(const char *from, const char *to) {
    return fails("linkless") ? fail(EPERM) : (int)syscall(SYS_link, from, to);
}

int fchmod(int file, mode_t mode) {
    return fails("fchmod") ? fail(EROFS) : (int)syscall(SYS_fchmod, file, mode);
}

int rename(const char *from, const char *to) {
    return fails("rename") ? fail(EBUSY) : (int)syscall(SYS_rename, from, to);
}

int renameat2(int from_folder, const char *from, int to_folder, const char *to, unsigned flags) {
    if (fails("rename") || (flags != 0 && fails("plain"))) {
        return fail(fails("rename") ? EBUSY : EINVAL);
    }
    return (int)syscall(SYS_renameat2, from_folder, from, to_folder, to, flags);
}

ssize_t write(int file, const void *bytes, size_t length) {
    static int turn;
    if (fails("short")) {
        turn = !turn;
        if (turn) {
            return fail(EINTR);
        }
        length = length < 7 ? length : 7;
    }
    return syscall(SYS_write, file, bytes, length);
}
