/* Checks a file on a stack that was filled before, and prints how many bytes of it were written. */
#include <ghostrider.h>

#include <pthread.h>
#include <stdio.h>
#include <stdlib.h>
#include <string.h>

enum { ROOM = 1 << 20, FILL = 0xa5 };
static uint8_t bytes[1 << 20];
static size_t len;
static uint32_t status;

static void *check(void *unused)
{
    uint32_t place, reason;

    status = gr_check(bytes, len, &place, &reason);
    return unused;
}

int main(int count, char **words)
{
    FILE *file = count == 2 ? fopen(words[1], "rb") : NULL;
    unsigned char *stack = aligned_alloc(4096, ROOM);
    size_t unused = 0;
    pthread_attr_t attributes;
    pthread_t thread;

    if (!file || !stack)
        return 3;
    len = fread(bytes, 1, sizeof bytes, file);
    memset(stack, FILL, ROOM);
    if (pthread_attr_init(&attributes) || pthread_attr_setstack(&attributes, stack, ROOM) ||
        pthread_create(&thread, &attributes, check, NULL) || pthread_join(thread, NULL))
        return 5;
    while (unused < ROOM && stack[unused] == FILL)
        unused++;
    printf("%s %zu bytes\n", status == GR_ACCEPTED ? "accepted" : "refused", ROOM - unused);
    return 0;
}
