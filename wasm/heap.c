/* heap.c: the heap below the engine in tiling.wasm: malloc, free and realloc over memory.grow, and the three calls of
 * the kit's libc over them. Nothing proves it, as nothing proves the C library that the native engine calls;
 * tests/wasm/memory.test.mjs tries it.
 *
 * The heap is a row of blocks without gaps. A block has a header of 8 bytes: the size of the block before it, and its
 * own size, whose lowest bit says that it is in use. Sizes are multiples of 16, and what a caller gets is 16-aligned.
 * Free blocks never lie side by side: a block that is given back joins its neighbours. They stand in lists by size,
 * four lists for each power of two. The last header of the row, of size 0 and in use, ends it. */
typedef unsigned char u8;
typedef unsigned int u32;
typedef unsigned long long u64;
#define EXPORTED(name) __attribute__((export_name(#name), visibility("default")))

typedef struct block {
    u32 before, size;          /* sizes with the header; the lowest bit of `size`: in use */
    struct block *next, *last; /* of a free block: its neighbours in its list */
} block;

enum { HEADER = 8, LEAST = 16, USED = 1, LISTS = 128, PAGE = 65536 };
#define MOST 0x7fffffe0u /* no block is larger */

extern u8 __heap_base;
static block *lists[LISTS];
static u32 some[LISTS / 32]; /* bit i: list i has a block */
static block *end;           /* the header that ends the row */

static u32 size_of(const block *b) { return b->size & ~(u32)USED; }
static block *after(block *b) { return (block *)((u8 *)b + size_of(b)); }
static block *before(block *b) { return (block *)((u8 *)b - b->before); }
static int is_used(const block *b) { return b->size & USED; }

/* The list of the blocks of a size: each has those from its own least size on. */
static u32 list_of(u32 size) {
    u32 log = 31 - __builtin_clz(size);
    return 4 * log + (size >> (log - 2) & 3);
}

static void put_size(block *b, u32 size, u32 used) {
    b->size = size | used;
    after(b)->before = size;
}

static void enlist(block *b) {
    u32 list = list_of(size_of(b));
    b->last = 0;
    b->next = lists[list];
    if (b->next) b->next->last = b;
    lists[list] = b;
    some[list / 32] |= 1u << list % 32;
}

static void unlist(block *b) {
    u32 list = list_of(size_of(b));
    if (b->next) b->next->last = b->last;
    if (b->last) {
        b->last->next = b->next;
    } else {
        lists[list] = b->next;
        if (!b->next) some[list / 32] &= ~(1u << list % 32);
    }
}

/* Makes a block free, as one with the free blocks at its sides. */
static void release(block *b) {
    u32 size = size_of(b);
    block *other = after(b);
    if (!is_used(other)) {
        unlist(other);
        size += size_of(other);
    }
    if (b->before && !is_used(before(b))) {
        b = before(b);
        unlist(b);
        size += size_of(b);
    }
    put_size(b, size, 0);
    enlist(b);
}

/* Cuts what a used block has beyond a size off. */
static void trim(block *b, u32 size) {
    u32 rest = size_of(b) - size;
    if (rest < LEAST) return;
    put_size(b, size, USED);
    put_size(after(b), rest, USED);
    release(after(b));
}

/* The first header: so placed that what callers get is 16-aligned. */
static void begin(void) {
    u32 first = ((u32)&__heap_base + HEADER + 15 & ~15u) - HEADER;
    u32 stop = __builtin_wasm_memory_size(0) * PAGE - HEADER;
    if (first + LEAST > stop) { /* (the rest of the last page is too small for a block) */
        if (__builtin_wasm_memory_grow(0, 1) == (__SIZE_TYPE__)-1) return;
        stop += PAGE;
    }
    block *b = (block *)first;
    end = (block *)(first + (stop - first & ~15u));
    b->before = 0;
    end->size = USED;
    put_size(b, (u32)end - first, USED);
    release(b);
}

/* Has the memory grow, by a quarter if that can be had, and else by what is needed; 0 where it can't. */
static int grow(u32 size) {
    u32 needed = (size + HEADER + PAGE - 1) / PAGE, pages = (u32)__builtin_wasm_memory_size(0) / 4;
    if (pages < needed || __builtin_wasm_memory_grow(0, pages) == (__SIZE_TYPE__)-1) {
        pages = needed;
        if (__builtin_wasm_memory_grow(0, pages) == (__SIZE_TYPE__)-1) return 0;
    }
    block *b = end;
    end = (block *)((u8 *)b + pages * PAGE);
    end->size = USED;
    put_size(b, pages * PAGE, USED);
    release(b);
    return 1;
}

/* A free block of at least a size, taken out of its list; or 0. */
static block *found(u32 size) {
    u32 list = list_of(size);
    for (block *b = lists[list]; b; b = b->next) { /* (here some may be too small) */
        if (size_of(b) >= size) {
            unlist(b);
            return b;
        }
    }
    for (u32 word = ++list / 32; word < LISTS / 32; word++) {
        u32 bits = word == list / 32 ? some[word] & ~0u << list % 32 : some[word];
        if (bits) {
            block *b = lists[32 * word + __builtin_ctz(bits)];
            unlist(b);
            return b;
        }
    }
    return 0;
}

static u32 with_header(u32 bytes) {
    u32 size = bytes + HEADER + 15 & ~15u;
    return size < LEAST ? LEAST : size;
}

void *malloc(u32 bytes) {
    if (bytes > MOST - LEAST) return 0;
    if (!end) begin();
    if (!end) return 0;
    u32 size = with_header(bytes);
    block *b = found(size);
    if (!b && grow(size)) b = found(size);
    if (!b) return 0;
    b->size |= USED;
    trim(b, size);
    return (u8 *)b + HEADER;
}

void free(void *p) {
    if (p) release((block *)((u8 *)p - HEADER));
}

/* Whether a block could be made larger where it is. */
static int widened(block *b, u32 size) {
    block *other = after(b);
    if (is_used(other) || size_of(b) + size_of(other) < size) return 0;
    unlist(other);
    put_size(b, size_of(b) + size_of(other), USED);
    return 1;
}

void *realloc(void *p, u32 bytes) {
    if (!p) return malloc(bytes);
    if (bytes > MOST - LEAST) return 0;
    block *b = (block *)((u8 *)p - HEADER);
    u32 size = with_header(bytes), had = size_of(b);
    if (had < size && !widened(b, size)) {
        block *last = is_used(after(b)) ? after(b) : after(after(b)); /* (the end, if the block can reach it) */
        if (last != end || !grow(size - had) || !widened(b, size)) {
            void *q = malloc(bytes);
            if (!q) return 0;
            __builtin_memcpy(q, p, had - HEADER);
            free(p);
            return q;
        }
    }
    trim(b, size);
    return p;
}

void *memcpy(void *restrict to, const void *restrict from, u32 bytes) {
    return __builtin_memmove(to, from, bytes); /* (one instruction: memory.copy) */
}
void *memmove(void *to, const void *from, u32 bytes) { return __builtin_memmove(to, from, bytes); }
void *memset(void *to, int byte, u32 bytes) { return __builtin_memset(to, byte, bytes); }

/* What the kit's libc asks of C: whether there was memory, and where; never a null pointer. */
typedef struct {
    u64 is_there, at;
} taken;
static u8 nowhere;
static taken told(void *p) { return (taken){p != 0, (u32)(p ? p : &nowhere)}; }

taken rattle_alloc(u64 bytes, u64 align) {
    return told(bytes > MOST ? 0 : malloc((u32)(bytes ? bytes : align)));
}
taken rattle_realloc(void *p, u64 had, u64 bytes, u64 align) {
    (void)had;
    return told(bytes > MOST ? 0 : realloc(p, (u32)(bytes ? bytes : align)));
}
void rattle_dealloc(void *p) { free(p); }

/* What JavaScript takes and gives back. */
EXPORTED(take) u32 take(u32 bytes) { return (u32)malloc(bytes); }
EXPORTED(give) void give(u32 at) { free((void *)at); }
