/* The files of the example terminal: a lock, and files that are whole whenever a stop comes. */
#ifndef TERMINAL_FILES_H
#define TERMINAL_FILES_H

#include <errno.h>
#include <fcntl.h>
#include <libgen.h>
#include <stdio.h>
#include <stdlib.h>
#include <string.h>
#include <sys/file.h>
#include <sys/stat.h>
#include <unistd.h>

enum { PATH_ROOM = 4096 };

/* Ends the program, since something cannot be done with a file. */
static inline void fail(const char *path, const char *why)
{
    fprintf(stderr, "terminal: %s: %s\n", path, why);
    exit(1);
}

/* The path of a file that stands beside another. */
static inline const char *beside(const char *path, const char *ending, char made[PATH_ROOM])
{
    if (snprintf(made, PATH_ROOM, "%s%s", path, ending) >= PATH_ROOM)
        fail(path, strerror(ENAMETOOLONG));
    return made;
}

/* The one path of an image: its folder is resolved, and a link is refused. Under a second path it
 * would have another lock and another book, and its numbers would come again. */
static inline const char *only_path(const char *path, char made[PATH_ROOM])
{
    char parent[PATH_ROOM], last[PATH_ROOM], folder[PATH_ROOM];
    struct stat known;
    beside(path, "", parent);
    beside(path, "", last);
    if (realpath(dirname(parent), folder) == NULL)
        fail(path, strerror(errno));
    if (snprintf(made, PATH_ROOM, "%s/%s", folder, basename(last)) >= PATH_ROOM)
        fail(path, strerror(ENAMETOOLONG));
    if (lstat(made, &known) == 0) {
        if (!S_ISREG(known.st_mode) || known.st_nlink > 1)
            fail(path, "an image is a file with one name, and no link");
    } else if (errno != ENOENT)
        fail(path, strerror(errno));
    return made;
}

/* Waits until no other process has the lock beside a file, and takes it. To close what it gives
 * gives the lock back, and so does the end of the process. */
static inline int locked(const char *path)
{
    char name[PATH_ROOM];
    int lock = open(beside(path, ".lock", name), O_RDWR | O_CREAT | O_CLOEXEC, 0600);
    if (lock < 0)
        fail(name, strerror(errno));
    while (flock(lock, LOCK_EX) != 0)
        if (errno != EINTR)
            fail(name, strerror(errno));
    return lock;
}

/* Writes all bytes, or gives 0. */
static inline int wrote_all(int file, const uint8_t *bytes, size_t size)
{
    while (size > 0) {
        ssize_t count = write(file, bytes, size);
        if (count < 0 && errno != EINTR)
            return 0;
        if (count > 0) {
            bytes += count;
            size -= (size_t)count;
        }
    }
    return 1;
}

/* Reads until so many bytes are there or the input ends. Gives how many there are, or -1. */
static inline ssize_t read_most(int file, uint8_t *bytes, size_t room)
{
    size_t size = 0;
    while (size < room) {
        ssize_t count = read(file, bytes + size, room - size);
        if (count == 0)
            break;
        if (count < 0 && errno != EINTR)
            return -1;
        if (count > 0)
            size += (size_t)count;
    }
    return (ssize_t)size;
}

/* Makes the names in a file's folder outlive a stop. */
static inline void sync_folder(const char *path)
{
    char copy[PATH_ROOM];
    beside(path, "", copy);
    int folder = open(dirname(copy), O_RDONLY | O_CLOEXEC);
    if (folder < 0 || fsync(folder) != 0 || close(folder) != 0)
        fail(path, strerror(errno));
}

/* Makes the file that is to take a file's place, for its owner alone. What a stop left there goes,
 * and a link is not followed. */
static inline int made_anew(const char *next)
{
    if (unlink(next) != 0 && errno != ENOENT)
        return -1;
    return open(next, O_WRONLY | O_CREAT | O_EXCL | O_NOFOLLOW | O_CLOEXEC, 0600);
}

/* Stores bytes in a file, so that a stop at any time leaves these or those before. */
static inline void store(const char *path, const uint8_t *bytes, size_t size)
{
    char next[PATH_ROOM];
    int file = made_anew(beside(path, ".next", next));
    if (file < 0 || !wrote_all(file, bytes, size) || fsync(file) != 0 || close(file) != 0
        || rename(next, path) != 0)
        fail(next, strerror(errno));
    sync_folder(path);
}

/* Reads a file. Gives its length, at most the room, or -1 where there is none. */
static inline ssize_t stored(const char *path, uint8_t *bytes, size_t room)
{
    int file = open(path, O_RDONLY | O_CLOEXEC);
    if (file < 0 && errno == ENOENT)
        return -1;
    ssize_t size = file < 0 ? -1 : read_most(file, bytes, room);
    if (size < 0 || close(file) != 0)
        fail(path, strerror(errno));
    return size;
}

#endif
