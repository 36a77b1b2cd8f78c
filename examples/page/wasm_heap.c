/*
 * The memory of the WebAssembly module, which has no C library: what the proved code asks for, and room for what a page hands over.
 *
 * Blocks stand one after another behind the module's own data, and one that grows moves behind the last. When all are given back, the
 * whole is free again, and no block is taken back before; so a check that kept one would be seen: gawerunoa_blocks counts them.
 */
typedef __SIZE_TYPE__ size_t;
typedef __UINT8_TYPE__ uint8_t;

#define EXPORT(name) __attribute__((export_name(name)))

/* the unit of a module's memory, how many of them there may be, and what each block's place is a multiple of */
enum { PAGE = 65536, MOST_PAGES = 1024, ALIGNMENT = 16 };

/* whether there is memory, and the block: what the kit's code takes from C */
struct tried {
    size_t has_block;
    uint8_t *block;
};

/* where the module's own data ends: the linker's */
extern uint8_t __heap_base;

/* how many blocks are not given back, and where the next one begins */
static size_t blocks;
static uint8_t *next;

/* The least multiple of `unit` that is not below `size`. */
static size_t rounded(size_t size, size_t unit) {
    return (size + unit - 1) / unit * unit;
}

/* Whether there is memory up to `end`, after more is asked of the host where it is needed. */
static int reaches(size_t end) {
    size_t pages = rounded(end, PAGE) / PAGE;
    size_t now = __builtin_wasm_memory_size(0);
    if (pages <= now) {
        return 1;
    }
    return pages <= MOST_PAGES && __builtin_wasm_memory_grow(0, pages - now) != (size_t)-1;
}

/* Puts a block of `size` bytes behind the others. */
static struct tried place(size_t size) {
    struct tried tried = {0, next};
    if (size <= (size_t)MOST_PAGES * PAGE && reaches((size_t)next + rounded(size, ALIGNMENT))) {
        tried.has_block = 1;
        next += rounded(size, ALIGNMENT);
    }
    return tried;
}

struct tried rattle_alloc(size_t size, size_t alignment) {
    (void)alignment; /* 16 at most */
    if (blocks == 0) {
        next = (uint8_t *)rounded((size_t)&__heap_base, ALIGNMENT);
    }
    struct tried tried = place(size);
    blocks += tried.has_block;
    return tried;
}

struct tried rattle_realloc(uint8_t *block, size_t kept, size_t size, size_t alignment) {
    (void)alignment;
    struct tried tried = place(size);
    if (tried.has_block) {
        __builtin_memcpy(tried.block, block, kept);
    }
    return tried;
}

void rattle_dealloc(uint8_t *block) {
    (void)block;
    blocks -= 1;
}

/* Room for so many bytes, or null. */
EXPORT("gawerunoa_room")
uint8_t *gawerunoa_room(size_t length) {
    struct tried tried = rattle_alloc(length, 1);
    return tried.has_block ? tried.block : 0;
}

/* Gives a room back. */
EXPORT("gawerunoa_give_back")
void gawerunoa_give_back(uint8_t *room) {
    rattle_dealloc(room);
}

/* How many rooms and blocks are not given back. */
EXPORT("gawerunoa_blocks")
size_t gawerunoa_blocks(void) {
    return blocks;
}
