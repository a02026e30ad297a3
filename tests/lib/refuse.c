/* A library to be loaded before the C library: it refuses one growth of memory, the one whose number REFUSE gives, counted
   from 1, and with REFUSE_ON also each that comes behind it. At the end it writes how many were asked for to the file that
   REFUSE_TOLD names. */
#include <errno.h>
#include <fcntl.h>
#include <stddef.h>
#include <stdlib.h>
#include <unistd.h>

void *__libc_malloc(size_t size);
void *__libc_calloc(size_t count, size_t size);
void *__libc_realloc(void *old, size_t size);
void *__libc_memalign(size_t align, size_t size);

static unsigned long asked;
static unsigned long refused;
static int goes_on;
static int is_ready;

/* Whether this growth is refused. */
static int is_refused(void)
{
    if (!is_ready) {
        const char *number = getenv("REFUSE");
        is_ready = 1;
        refused = number ? strtoul(number, NULL, 10) : 0;
        goes_on = getenv("REFUSE_ON") != NULL;
    }
    asked++;
    if (refused == 0 || asked < refused || (asked > refused && !goes_on))
        return 0;
    errno = ENOMEM;
    return 1;
}

void *malloc(size_t size)
{
    return is_refused() ? NULL : __libc_malloc(size);
}

void *calloc(size_t count, size_t size)
{
    return is_refused() ? NULL : __libc_calloc(count, size);
}

void *realloc(void *old, size_t size)
{
    return is_refused() ? NULL : __libc_realloc(old, size);
}

void *aligned_alloc(size_t align, size_t size)
{
    return is_refused() ? NULL : __libc_memalign(align, size);
}

void *memalign(size_t align, size_t size)
{
    return is_refused() ? NULL : __libc_memalign(align, size);
}

int posix_memalign(void **made, size_t align, size_t size)
{
    if (is_refused())
        return ENOMEM;
    *made = __libc_memalign(align, size);
    return *made ? 0 : ENOMEM;
}

__attribute__((destructor)) static void tell(void)
{
    const char *name = getenv("REFUSE_TOLD");
    char digits[24];
    size_t at = sizeof digits;
    unsigned long left = asked;
    int file;

    if (!name)
        return;
    digits[--at] = '\n';
    do {
        digits[--at] = (char)('0' + left % 10);
        left /= 10;
    } while (left > 0);
    file = open(name, O_WRONLY | O_CREAT | O_TRUNC, 0644);
    if (file >= 0 && write(file, digits + at, sizeof digits - at) >= 0)
        close(file);
}
