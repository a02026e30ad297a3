/* Checks a file with and without place and reason, which may be null, and prints what each call returned and wrote. */
#include <ghostrider.h>

#include <stdio.h>

int main(int count, char **words)
{
    static uint8_t bytes[1 << 20];
    FILE *file = count == 2 ? fopen(words[1], "rb") : NULL;
    size_t len = file ? fread(bytes, 1, sizeof bytes, file) : 0;
    uint32_t place = 0, reason = 0, status;

    status = gr_check(bytes, len, NULL, NULL);
    printf("%u ", (unsigned)status);
    status = gr_check(bytes, len, &place, NULL);
    printf("%u %u ", (unsigned)status, (unsigned)place);
    status = gr_check(bytes, len, NULL, &reason);
    printf("%u %u ", (unsigned)status, (unsigned)reason);
    status = (gr_check)(bytes, len, &place, &reason);
    printf("%u %u %u\n", (unsigned)status, (unsigned)place, (unsigned)reason);
    return 0;
}
