/* The heap of the page's module, in the place of the C library's. A block is a power of two, with its class in the 16
   bytes before it. What is freed is kept for its class; the rest is taken from the end of memory, which grows. An
   instance of the module makes one call, and all of its memory goes with it. */
typedef unsigned long u64;
typedef unsigned char u8;

static void *freed[64];
static u64 end;
static u64 nothing;
extern u8 __heap_base;
extern u64 gr_pages(void);
extern void gr_grow(u64 pages);

/* The power of two that holds n bytes and the 16 before them. */
static int class_of(u64 n) { return n <= 16 ? 5 : 64 - __builtin_clzl(n + 15); }

void *malloc(u64 n) {
    if (n >> 40) return 0;
    int k = class_of(n);
    u8 *p = freed[k];
    if (p) {
        freed[k] = *(void **)p;
        return p;
    }
    if (!end) end = ((u64)&__heap_base + 15) & ~15ul;
    u64 at = end, to = at + (1ul << k), have = gr_pages() << 16;
    if (to > have) {
        /* Whether memory grew is told by its size: lowered to 32 bits, a grow that fails gives 2^32 - 1 and not -1. */
        gr_grow((to - have + 65535) >> 16);
        if (gr_pages() << 16 < to) return 0;
    }
    end = to;
    *(u64 *)at = k;
    return (u8 *)at + 16;
}

static u64 class_at(void *p) { return ((u64 *)p)[-2]; }

typedef struct {
    u64 ok;
    void *p;
} Tried;

Tried rattle_alloc(u64 n, u64 align) {
    void *p = malloc(n ? n : align);
    return (Tried){p != 0, p ? p : &nothing};
}

Tried rattle_realloc(void *p, u64 kept, u64 n, u64 align) {
    u64 size = n ? n : align;
    if (size <= (1ul << class_at(p)) - 16) return (Tried){1, p};
    void *new = malloc(size);
    if (!new) return (Tried){0, &nothing};
    __builtin_memcpy(new, p, kept);
    u64 k = class_at(p);
    *(void **)p = freed[k];
    freed[k] = p;
    return (Tried){1, new};
}

void rattle_dealloc(void *p) {
    if (!p) return;
    u64 k = class_at(p);
    *(void **)p = freed[k];
    freed[k] = p;
}

/* The shuffle of 16 bytes, which compiled code asks of an x86 processor. */
typedef signed char V16 __attribute__((vector_size(16)));
V16 gr_shuffle(V16 x, V16 m) {
    V16 r;
    for (int i = 0; i < 16; i++) r[i] = m[i] < 0 ? 0 : x[m[i] & 15];
    return r;
}
