/*
 * Whole files: reading one up to a limit, and putting one in the place of another. Shared by the programs of this folder,
 * which answer with the lines and the statuses of the program that they are measured beside (docs/FORMATS.md).
 */
#ifndef FILES_H
#define FILES_H

#include <stddef.h>
#include <stdint.h>

/* The exit statuses that have the same cause in every program. */
enum { DONE = 0, USAGE = 2, UNREAD = 3, UNWRITTEN = 4, NO_MEMORY = 5, TOO_LONG = 11 };

/* Bytes on the heap. */
struct bytes {
    uint8_t *at;
    size_t count;
};

/*
 * Reads a file of at most so many bytes. A file that isn't there, can't be read or is longer ends the program with the
 * line and the status that tell so.
 */
struct bytes read_file(const char *name, size_t limit);

/* Writes bytes to a new file beside this one, syncs it and lets it take the name. Ends the program where that fails. */
void write_file(const char *name, const void *bytes, size_t count);

/* Says that the words ask for no work, and ends the program. */
_Noreturn void end_with_usage(void);

/* Says that memory ran out, and ends the program. */
_Noreturn void end_without_memory(void);

/* Memory for so many items of a size, or the end of the program. The second is filled with zeros. */
void *room_for(size_t count, size_t size);
void *zeros_for(size_t count, size_t size);

/* The same memory with room for more items, or the end of the program. */
void *more_room(void *old, size_t count, size_t size);

#endif
