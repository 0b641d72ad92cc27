// The heap of the WebAssembly module: the three calls that the kit's library makes of C, over the module's own memory.
//
// A block has a header of 16 bytes that says its class; a free one is kept in its class's list. Classes go up by quarters of powers of two, so
// less than a quarter of a block is unused. Nothing is joined or given back: the blocks of a list serve its class alone.
// A memory has less than 4 GiB, so that the place behind its last byte has 32 bits too.
typedef unsigned long long u64;
typedef __UINTPTR_TYPE__ word;
typedef unsigned char u8;
typedef struct { u64 ok, at; } Tried;      // what rattle's code takes back: {i64, i64}, of whose first the lowest byte counts
typedef union Block { struct { word class; } head; union Block *next; u64 room[2]; } Block;

enum { MOST = 65535 };                     // pages of 64 KiB

extern u8 __heap_base;
static word top, end;
static Block *lists[256];

#ifdef TRY                                 // for tries: refuses the growth of that number, and counts what is held
static u64 asked, refused, held;
static int is_refused(void) { return ++asked == refused; }
static void hold(u64 n) { held += n; }
void kw_refuse(u64 at) { asked = 0; refused = at; }
u64 kw_asked(void) { return asked; }
u64 kw_held(void) { return held; }
#else
static int is_refused(void) { return 0; }
static void hold(u64 n) { (void)n; }
#endif

// The bytes of a class's block behind its header: 16, 32, 48, 64, then 80, 96, 112, 128, 160, 192, 224, 256, 320 ..
static u64 room_of(word class) {
    return class < 4 ? 16 * (class + 1) : (4 + (u64)(class & 3) + 1) * 16 << ((class >> 2) - 1);
}

static word class_of(u64 n) {
    if (n <= 64) return n == 0 ? 0 : (n - 1) >> 4;
    int bits = 63 - __builtin_clzll(n - 1);            // n - 1 lies from 2^bits on, and below 2^(bits + 1)
    return ((word)(bits - 5) << 2) + (word)((n - 1) >> (bits - 2) & 3);
}

// Whether the memory could grow by so many pages. What says that it could not is -1 of 64 bits, or of 32 once places have 32.
static int has_grown(word pages) {
    return (unsigned)__builtin_wasm_memory_grow(0, pages) != ~0u;
}

static Block *fresh(u64 whole) {
    if (!top) {
        top = ((word)&__heap_base + 15) & ~(word)15;
        end = __builtin_wasm_memory_size(0) << 16;
    }
    if (whole > end - top) {
        u64 pages = (whole - (end - top) + 65535) >> 16, left = MOST - (end >> 16);
        u64 more = (end >> 16) / 8 < left ? (end >> 16) / 8 : left;                  // by an eighth at least, so that it grows seldom
        u64 wanted = pages > more ? pages : more;
        if (pages > left) return 0;
        if (!has_grown((word)wanted)) {
            wanted = pages;
            if (!has_grown((word)wanted)) return 0;
        }
        end += (word)(wanted << 16);
    }
    Block *block = (Block *)top;
    top += (word)whole;
    return block;
}

static void *get(u64 n) {
    if (n > 1ull << 32 || is_refused()) return 0;
    word class = class_of(n);
    Block *block = lists[class];
    if (block)
        lists[class] = block[1].next;
    else if (!(block = fresh(room_of(class) + 16)))
        return 0;
    block->head.class = class;
    hold(room_of(class));
    return block + 1;
}

// A block of no bytes is one of `align` bytes, as on Linux.
Tried rattle_alloc(u64 n, u64 align) {
    void *at = align > 16 ? 0 : get(n ? n : align);
    return (Tried){at != 0, (u64)(word)at};
}

void rattle_dealloc(void *at) {
    if (!at) return;
    Block *block = (Block *)at - 1;
    word class = block->head.class;
    hold(-room_of(class));
    block[1].next = lists[class];
    lists[class] = block;
}

Tried rattle_realloc(u8 *at, u64 kept, u64 n, u64 align) {
    if (at && n <= 1ull << 32 && class_of(n ? n : align) == ((Block *)at - 1)->head.class) return (Tried){1, (u64)(word)at};
    Tried tried = rattle_alloc(n, align);
    if (tried.ok && at) {
        __builtin_memcpy((void *)(word)tried.at, at, (word)(kept < n ? kept : n));
        rattle_dealloc(at);
    }
    return tried;
}

// Rooms for what a page passes.
void *kw_room(u64 n) { return get(n); }
void kw_free(void *at) { rattle_dealloc(at); }
