/* Asks the library about each file, in memory of just the file's size, and puts a line for each. */
#include <ghostrider.h>

#include <stdio.h>
#include <stdlib.h>

int main(int count, char **words)
{
    for (int i = 1; i < count; i++) {
        uint32_t place = 0, reason = 0, status;
        FILE *file = fopen(words[i], "rb");
        uint8_t *bytes;
        long len;

        if (!file || fseek(file, 0, SEEK_END) || (len = ftell(file)) < 0)
            return 3;
        rewind(file);
        bytes = malloc(len ? (size_t)len : 1);
        if (!bytes || fread(bytes, 1, (size_t)len, file) != (size_t)len)
            return 3;
        status = gr_check(bytes, (size_t)len, &place, &reason);
        printf("%u %u %u\n", (unsigned)status, (unsigned)place, (unsigned)reason);
        free(bytes);
        fclose(file);
    }
    return 0;
}
