/* Whole files, and memory that is there or ends the program. See files.h. */
#define _POSIX_C_SOURCE 200809L
#include "files.h"

#include <fcntl.h>
#include <stdio.h>
#include <stdlib.h>
#include <string.h>
#include <sys/stat.h>
#include <unistd.h>

_Noreturn void end_with_usage(void)
{
    fputs("fault 2 usage\n", stdout);
    exit(USAGE);
}

_Noreturn void end_without_memory(void)
{
    fputs("fault 5 memory\n", stdout);
    exit(NO_MEMORY);
}

void *room_for(size_t count, size_t size)
{
    if (size != 0 && count > SIZE_MAX / size)
        end_without_memory();
    void *room = malloc(count * size + 1);
    if (room == NULL)
        end_without_memory();
    return room;
}

void *zeros_for(size_t count, size_t size)
{
    void *room = calloc(count + 1, size);
    if (room == NULL)
        end_without_memory();
    return room;
}

void *more_room(void *old, size_t count, size_t size)
{
    if (count > SIZE_MAX / size)
        end_without_memory();
    void *room = realloc(old, count * size);
    if (room == NULL)
        end_without_memory();
    return room;
}

static _Noreturn void end_unread(const char *name)
{
    printf("fault 3 read %s\n", name);
    exit(UNREAD);
}

static _Noreturn void end_unwritten(const char *name)
{
    printf("fault 4 write %s\n", name);
    exit(UNWRITTEN);
}

/* The bytes that a file is said to have, where that is within the limit, else one more than the limit. */
static size_t size_of(int file, size_t limit)
{
    struct stat found;
    if (fstat(file, &found) != 0 || !S_ISREG(found.st_mode) || (uint64_t)found.st_size > limit)
        return limit + 1;
    return (size_t)found.st_size;
}

struct bytes read_file(const char *name, size_t limit)
{
    int file = open(name, O_RDONLY);
    if (file < 0)
        end_unread(name);
    size_t room = size_of(file, limit) + 1;
    struct bytes read_so_far = {room_for(room, 1), 0};
    for (;;) {
        ssize_t count = read(file, read_so_far.at + read_so_far.count, room - read_so_far.count);
        if (count < 0)
            end_unread(name);
        if (count == 0)
            break;
        read_so_far.count += (size_t)count;
        if (read_so_far.count == room)
            break;
    }
    close(file);
    if (read_so_far.count > limit) {
        printf("fault 11 long %s %zu\n", name, limit);
        exit(TOO_LONG);
    }
    return read_so_far;
}

void write_file(const char *name, const void *bytes, size_t count)
{
    char *beside = room_for(strlen(name) + sizeof ".0.new", 1);
    sprintf(beside, "%s.0.new", name);
    int file = open(beside, O_WRONLY | O_CREAT | O_EXCL, 0666);
    if (file < 0)
        end_unwritten(name);
    const uint8_t *left = bytes;
    while (count > 0) {
        ssize_t written = write(file, left, count);
        if (written <= 0)
            end_unwritten(name);
        left += written;
        count -= (size_t)written;
    }
    if (fsync(file) != 0 || close(file) != 0 || rename(beside, name) != 0)
        end_unwritten(name);
    free(beside);
}
