/* What compiled code calls by name, where no C library and no libgcc is linked. */
typedef unsigned long u64;
typedef unsigned __int128 u128;
typedef union {
    u128 whole;
    struct {
        u64 low, high;
    };
} Halves;

u64 gr_pages(void) { return __builtin_wasm_memory_size(0); }
void gr_grow(u64 pages) { __builtin_wasm_memory_grow(0, pages); }

int memcmp(const void *a, const void *b, u64 n) {
    const unsigned char *x = a, *y = b;
    for (; n; n--, x++, y++)
        if (*x != *y) return *x - *y;
    return 0;
}
int bcmp(const void *a, const void *b, u64 n) { return memcmp(a, b, n); }

/* The low 128 bits of the product. Nothing here multiplies or shifts 128 bits: that would be these very calls. */
u128 __multi3(u128 x, u128 y) {
    Halves a = {x}, b = {y}, product;
    u64 a0 = a.low & 0xffffffff, a1 = a.low >> 32, b0 = b.low & 0xffffffff, b1 = b.low >> 32;
    u64 first = a0 * b0, second = a1 * b0 + (first >> 32), third = a0 * b1 + (second & 0xffffffff);
    product.low = third << 32 | (first & 0xffffffff);
    product.high = a1 * b1 + (second >> 32) + (third >> 32) + a.low * b.high + a.high * b.low;
    return product.whole;
}

/* In the shifts n is from 0 to 127. A shift by 1 and then by 63 - n is one by 64 - n that is defined at n = 0. */
u128 __ashlti3(u128 x, int n) {
    Halves a = {x}, shifted;
    if (n & 64) {
        shifted.low = 0;
        shifted.high = a.low << (n & 63);
    } else {
        shifted.low = a.low << (n & 63);
        shifted.high = a.high << (n & 63) | a.low >> 1 >> (63 - (n & 63));
    }
    return shifted.whole;
}
u128 __lshrti3(u128 x, int n) {
    Halves a = {x}, shifted;
    if (n & 64) {
        shifted.low = a.high >> (n & 63);
        shifted.high = 0;
    } else {
        shifted.low = a.low >> (n & 63) | a.high << 1 << (63 - (n & 63));
        shifted.high = a.high >> (n & 63);
    }
    return shifted.whole;
}
