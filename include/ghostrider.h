/*
 * The check of GhostRider's object files, for loaders.
 *
 * If gr_check accepts an object file, a run of it shows on the memory bus nothing but what its public inputs decide.
 * This is proved of the function's code for x86-64, not of this header and not of the C library. docs/FORMATS.md has
 * the format of object files.
 *
 *     cc load.c $(pkg-config --cflags --libs ghostrider)
 */
#ifndef GHOSTRIDER_H
#define GHOSTRIDER_H

#include <stddef.h>
#include <stdint.h>

#ifdef __cplusplus
extern "C" {
#endif

/* The version of this header: as text, and as 10000 * major + 100 * minor + patch. */
#define GR_VERSION "1.11.0"
#define GR_VERSION_NUMBER 11000

/* What gr_check returns: the exit statuses of `ghostrider check`. */
#define GR_ACCEPTED 0u  /* the bytes are an object that is accepted */
#define GR_MEMORY 5u    /* memory ran out, which says nothing about the bytes */
#define GR_NO_OBJECT 6u /* the bytes are not an object */
#define GR_REFUSED 7u   /* the bytes are an object that is refused: first at *place, for *reason */
#define GR_TOO_LONG 11u /* there are more than GR_MOST_BYTES bytes */

#define GR_MOST_BYTES 33554432u

/* Why an object is refused. docs/ERRORS.md has an example of each, and how to fix it. */
enum gr_reason {
    GR_SECRET_ADDRESS = 1,        /* a secret names a block of plain or encrypted memory */
    GR_SECRET_TO_RAM = 2,         /* a secret would go to plain memory */
    GR_UNBOUND_SLOT = 3,          /* a slot is used whose bank isn't known */
    GR_JUMP_OUTSIDE = 4,          /* a jump leaves the code */
    GR_NO_NOTE = 5,               /* a note is missing */
    GR_NOTE_TOO_LOW = 6,          /* a note claims more than is known */
    GR_SECRET_LOOP = 7,           /* a jump leads back, in or at a branch on a secret */
    GR_HALT_IN_SECRET = 8,        /* a halt in a branch on a secret */
    GR_RAM_STORE_IN_SECRET = 9,   /* plain memory is written in a branch on a secret */
    GR_UNEQUAL_ARMS = 10,         /* the two arms of a branch on a secret don't show the same */
    GR_BAD_REGION = 11,           /* a branch on a secret doesn't have the shape of two arms that join */
    GR_RUNS_OFF_END = 12,         /* execution continues past the end of the code */
    GR_SECRET_SYMBOL_IN_RAM = 13  /* a secret variable is stored in plain memory */
};

/*
 * Checks the len bytes at bytes as an object file, and returns GR_ACCEPTED or another of the statuses above.
 *
 * At GR_REFUSED, and only then, it writes the number of an instruction, counted from 0, to *place, and one of enum
 * gr_reason to *reason. place and reason may be null. If they aren't, they may not be the same, nor point into the
 * bytes. bytes may not be null, not even if len is 0. A caller that doesn't include this header, as one in another
 * language, calls the function gr_check itself: it has to pass place and reason, and neither may be null.
 *
 * Nothing may write the bytes during the call. Run the very bytes that were checked: if a loader checks a file and then
 * reads it again, somebody may have changed it in between.
 *
 * The object itself says which of its variables are public and which are secret. An object that calls every variable
 * public may be accepted, and shows all of them. So a loader that passes secrets has to compare the labels of the
 * variables, which are in the object's symbols, with those that it expects.
 *
 * The call keeps nothing, prints nothing and reads no file. It allocates by malloc, realloc and free, which have to
 * align to 16 bytes, and frees all of it. It takes up to 128 KB of stack, most of it for branches within branches;
 * that is measured, not proved. Several threads may call it at once. A signal handler may not.
 */
uint32_t gr_check(const uint8_t *bytes, size_t len, uint32_t *place, uint32_t *reason);

/* gr_check for callers that pass null: the function itself takes no null. Call it by the name gr_check. */
static inline uint32_t gr_check_or_null(const uint8_t *bytes, size_t len, uint32_t *place, uint32_t *reason)
{
    uint32_t unread[2] = {0, 0};

    return gr_check(bytes, len, place ? place : &unread[0], reason ? reason : &unread[1]);
}
#define gr_check(bytes, len, place, reason) gr_check_or_null(bytes, len, place, reason)

#ifdef __cplusplus
}
#endif

#endif
