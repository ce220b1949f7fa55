/* The heap of the page: what the C library is to the program. Blocks of powers of two up to 64 KiB
   are kept in lists by size; larger ones are kept in lists by their power of two as well, so a block
   that is freed is found again. Memory is asked of the browser in pieces of 4 MiB or more. */
typedef unsigned char u8;
typedef unsigned long long u64;
struct tried { u64 ok; void *p; };
#define PAGE 65536ull
static u64 top, end;
static void *free_of[64];
extern u8 __heap_base;

static int class_of(u64 n) { return n <= 32 ? 5 : 64 - __builtin_clzll(n - 1); }

static void *fresh(u64 n) {
    if (!top) { top = ((u64)&__heap_base + 15) & ~15ull; end = __builtin_wasm_memory_size(0) * PAGE; }
    if (n > end - top) {
        u64 more = n - (end - top);
        u64 pages = (more + PAGE - 1) / PAGE;
        u64 wish = pages < 64 ? 64 : pages;
        if ((unsigned)__builtin_wasm_memory_grow(0, wish) == ~0u) {
            if (wish == pages || (unsigned)__builtin_wasm_memory_grow(0, pages) == ~0u) return 0;
            wish = pages;
        }
        end += wish * PAGE;
    }
    void *p = (void *)top;
    top += n;
    return p;
}

void *heap_get(u64 n) {
    if (n > (1ull << 40)) return 0;
    int c = class_of(n + 16);
    u8 *b = free_of[c];
    if (b) free_of[c] = *(void **)(b + 16);
    else if (!(b = fresh(1ull << c))) return 0;
    *(u64 *)b = c;
    return b + 16;
}
void heap_put(void *p) {
    u8 *b = (u8 *)p - 16;
    u64 c = *(u64 *)b;
    *(void **)(b + 16) = free_of[c];
    free_of[c] = b;
}
struct tried rattle_alloc(u64 n, u64 a) {
    void *p = heap_get(n);
    return (struct tried){ p != 0, p };
}
struct tried rattle_realloc(void *p, u64 kept, u64 n, u64 a) {
    u8 *b = (u8 *)p - 16;
    if (class_of(n + 16) == (int)*(u64 *)b) return (struct tried){ 1, p };
    void *q = heap_get(n);
    if (!q) return (struct tried){ 0, p };
    u64 room = (1ull << *(u64 *)b) - 16;
    u64 k = room < n ? room : n;
    __builtin_memcpy(q, p, k);
    heap_put(p);
    return (struct tried){ 1, q };
}
void rattle_dealloc(void *p) { heap_put(p); }
int memcmp(const void *a, const void *b, u64 n) {
    const u8 *x = a, *y = b;
    for (u64 i = 0; i < n; i++) if (x[i] != y[i]) return x[i] - y[i];
    return 0;
}
int bcmp(const void *a, const void *b, u64 n) { return memcmp(a, b, n); }
/* The product of two integers of 128 bits, which the compiler calls by this name. */
typedef union { __int128 whole; struct { u64 low, high; } half; } wide;
__int128 __multi3(__int128 a, __int128 b) {
    wide x = { a }, y = { b }, z;
    u64 m = 0xffffffffull;
    u64 a0 = x.half.low & m, a1 = x.half.low >> 32, b0 = y.half.low & m, b1 = y.half.low >> 32;
    u64 low = a0 * b0, mid = a1 * b0 + (low >> 32), more = a0 * b1 + (mid & m);
    z.half.low = (more << 32) | (low & m);
    z.half.high = a1 * b1 + (mid >> 32) + (more >> 32) + x.half.high * y.half.low + x.half.low * y.half.high;
    return z.whole;
}
