/* Stands under the program while bin/rlemu-sweep-memory and bin/rlemu-sweep-io run it (LD_PRELOAD): the allocation, the read or the write
 * of a number fails, or each read and each write carries a few bytes at most. By environment:
 *   RLEMU_FAIL_ALLOCATION, RLEMU_FAIL_READ, RLEMU_FAIL_WRITE   the number of the call that fails, counted from 1
 *   RLEMU_SHORT                                                the most bytes of a read of standard input or a write to standard output
 *   RLEMU_COUNTS                                               a file that gets the three counts of calls when the program ends
 */
#define _GNU_SOURCE
#include <errno.h>
#include <fcntl.h>
#include <stdio.h>
#include <stdlib.h>
#include <sys/syscall.h>
#include <unistd.h>

extern void *__libc_malloc(size_t size);
extern void *__libc_calloc(size_t count, size_t size);
extern void *__libc_realloc(void *block, size_t size);

static unsigned long allocations, reads, writes;

static unsigned long number_of(const char *name)
{
    const char *text = getenv(name);
    return text ? strtoul(text, NULL, 10) : 0;
}

static int fails(unsigned long *count, const char *name)
{
    return ++*count == number_of(name);
}

static int is_denied(void)
{
    if (!fails(&allocations, "RLEMU_FAIL_ALLOCATION"))
        return 0;
    errno = ENOMEM;
    return 1;
}

void *malloc(size_t size)
{
    return is_denied() ? NULL : __libc_malloc(size);
}

void *calloc(size_t count, size_t size)
{
    return is_denied() ? NULL : __libc_calloc(count, size);
}

void *realloc(void *block, size_t size)
{
    return is_denied() ? NULL : __libc_realloc(block, size);
}

static size_t shortened(size_t size)
{
    unsigned long most = number_of("RLEMU_SHORT");
    return most && size > most ? most : size;
}

static int is_broken(int file, int wanted, unsigned long *count, const char *name)
{
    if (file != wanted || !fails(count, name))
        return 0;
    errno = EIO;
    return 1;
}

ssize_t read(int file, void *bytes, size_t size)
{
    if (is_broken(file, 0, &reads, "RLEMU_FAIL_READ"))
        return -1;
    return syscall(SYS_read, file, bytes, file == 0 ? shortened(size) : size);
}

ssize_t write(int file, const void *bytes, size_t size)
{
    if (is_broken(file, 1, &writes, "RLEMU_FAIL_WRITE"))
        return -1;
    return syscall(SYS_write, file, bytes, file == 1 ? shortened(size) : size);
}

static void tell(void)
{
    const char *path = getenv("RLEMU_COUNTS");
    char text[80];
    if (!path)
        return;
    int file = (int)syscall(SYS_openat, AT_FDCWD, path, O_WRONLY | O_CREAT | O_TRUNC, 0600);
    int length = snprintf(text, sizeof text, "%lu %lu %lu\n", allocations, reads, writes);
    if (file < 0 || syscall(SYS_write, file, text, (size_t)length) != length)
        fputs("faults.c: the counts could not be written\n", stderr);
}

__attribute__((destructor)) static void at_end(void)
{
    tell();
}

void _exit(int status)
{
    tell();
    for (;;)
        syscall(SYS_exit_group, status);
}
