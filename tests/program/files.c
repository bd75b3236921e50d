/* Preloaded before a program: refuses to store the new file that it writes, and tells the file's mode. test_replaced.py builds and uses this.

   REFUSE=fsync     storing a file that was written to fails, as on a network disk that is full
   TOLD=FD          the file's mode when it is given an owner, and at its first byte, goes to this open file, in octal, a line each */

#define _GNU_SOURCE
#include <errno.h>
#include <stdio.h>
#include <stdlib.h>
#include <string.h>
#include <sys/stat.h>
#include <sys/syscall.h>
#include <sys/types.h>
#include <unistd.h>

static int written = -1;

static void tell(int fd) {
    struct stat found;
    if (getenv("TOLD") != NULL && fstat(fd, &found) == 0) dprintf(atoi(getenv("TOLD")), "%o\n", found.st_mode & 07777);
}

static int refuses(const char *call, int fd) {
    const char *refused = getenv("REFUSE");
    errno = EDQUOT;
    return refused != NULL && strcmp(refused, call) == 0 && fd == written;
}

int fchown(int fd, uid_t owner, gid_t group) {
    tell(fd);
    return (int)syscall(SYS_fchown, fd, owner, group);
}

ssize_t write(int fd, const void *bytes, size_t count) {
    if (fd > 2 && fd != written) {
        written = fd;
        tell(fd);
    }
    return syscall(SYS_write, fd, bytes, count);
}

int fsync(int fd) {
    return refuses("fsync", fd) ? -1 : (int)syscall(SYS_fsync, fd);
}
