/*
 * A loader that runs no object that isn't accepted: load OBJ
 *
 * It reads the file, asks gr_check, and refuses it or would go on with the very bytes that were checked. The status is
 * that of the check, 3 where the file can't be read, 2 for other words.
 */
#include <ghostrider.h>

#include <stdio.h>
#include <stdlib.h>

/* Reads a file, of which no more than a byte past the most that an object has; null where that can't be done. */
static uint8_t *read_file(const char *name, size_t *len)
{
    size_t room = (size_t)GR_MOST_BYTES + 1;
    FILE *file = fopen(name, "rb");
    uint8_t *bytes = file ? malloc(room) : NULL;

    if (bytes) {
        *len = fread(bytes, 1, room, file);
        if (ferror(file)) {
            free(bytes);
            bytes = NULL;
        }
    }
    if (file)
        fclose(file);
    return bytes;
}

int main(int count, char **words)
{
    uint32_t place = 0, reason = 0, status;
    uint8_t *bytes;
    size_t len = 0;

    if (count != 2) {
        fprintf(stderr, "usage: load OBJ\n");
        return 2;
    }
    bytes = read_file(words[1], &len);
    if (!bytes) {
        fprintf(stderr, "load: %s can't be read\n", words[1]);
        return 3;
    }
    status = gr_check(bytes, len, &place, &reason);
    switch (status) {
    case GR_ACCEPTED:
        /* here the loader runs these bytes */
        printf("accepted\n");
        break;
    case GR_REFUSED:
        printf("refused at place %u for reason %u\n", (unsigned)place, (unsigned)reason);
        break;
    case GR_NO_OBJECT:
        printf("no object\n");
        break;
    case GR_TOO_LONG:
        printf("too long\n");
        break;
    default:
        printf("not checked: memory ran out\n");
    }
    free(bytes);
    return (int)status;
}
