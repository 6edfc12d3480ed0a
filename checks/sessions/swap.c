/* Loaded before the C library, it puts another file at a path while the program opens that path: what stands at SWAP_BESIDE
 * changes places with what stands at SWAP_PLACE, or comes there where nothing does, right before the opening, once. Where
 * SWAP_BACK is set both are back right behind it. */
#define _GNU_SOURCE
#include <dlfcn.h>
#include <errno.h>
#include <fcntl.h>
#include <stdarg.h>
#include <stdio.h>
#include <stdlib.h>
#include <string.h>

static int swapped;

static int swap(const char *place, const char *beside)
{
    if (!renameat2(AT_FDCWD, beside, AT_FDCWD, place, RENAME_EXCHANGE))
        return 0;
    return errno == ENOENT ? rename(beside, place) : -1;
}

int open(const char *path, int flags, ...)
{
    int (*system_open)(const char *, int, ...) = (int (*)(const char *, int, ...))dlsym(RTLD_NEXT, "open");
    const char *place = getenv("SWAP_PLACE"), *beside = getenv("SWAP_BESIDE");
    va_list rest;
    va_start(rest, flags);
    mode_t mode = flags & O_CREAT ? va_arg(rest, mode_t) : 0;
    va_end(rest);
    if (!place || !beside || swapped || strcmp(path, place))
        return system_open(path, flags, mode);
    swapped = 1;
    if (swap(place, beside))
        abort();
    int file = system_open(path, flags, mode), error = errno;
    if (getenv("SWAP_BACK") && swap(place, beside))
        abort();
    errno = error;
    return file;
}
