/*
 * The heap of the WebAssembly module: the three functions by which proved code allocates, as src/heap.rt of the
 * toolchain's crate `libc` declares them, and what the host asks for, the room and the limit.
 *
 * The memory, from its front: the stack, the constants, the room, and the blocks. The room is for what the host gives a
 * call and takes of it. Of each size there is a list of free blocks; they are not joined. Between two calls no block is
 * taken, unless one leaves something behind. New room drops all blocks then, so gaps do not add up.
 */
typedef __SIZE_TYPE__ size_t;
typedef unsigned long long uint64_t;
typedef _Bool bool;
#define NULL ((void *)0)
#define true 1
#define false 0
#define EXPORT(name) __asm__(".export_name " #name ", " #name);

#define PAGE ((size_t)65536)
/*
 * There is at most as much memory: so its addresses have 31 bits, and one below 0, of a stack that is used up, is
 * outside of it also as a number of 32 bits.
 */
#define MOST ((size_t)0x7fff0000)
#define ALIGN ((size_t)16)
#define SIZES 256

/* Whether there is a block, and where it is: as two words, as the code that calls has it. */
struct tried {
    uint64_t ok;
    uint64_t place;
};

/* Before each block; its bytes come after it. Blocks are aligned to 16. */
struct block {
    /* the index of its size */
    uint64_t size;
    struct block *next;
};

extern unsigned char __heap_base;

static struct block *free_blocks[SIZES];
/* where the next new block is, and where the memory ends */
static unsigned char *top, *end;
static size_t limit = MOST;
static uint64_t taken;
/* the block that is the room, where blocks were taken as the host asked for it */
static unsigned char *room_block;

static size_t aligned(size_t bytes) {
    return (bytes + ALIGN - 1) & ~(ALIGN - 1);
}

/* The sizes: 16, 32, 48, 64, and then four for each power of two. */
static size_t bytes_of(unsigned size) {
    return size < 4 ? (size_t)(size + 1) << 4 : (size_t)(5 + size % 4) << (size / 4 + 3);
}

/* The index of the least size that has a number of bytes: more than zero, and less than 2^63. */
static unsigned size_of(uint64_t bytes) {
    if (bytes <= 64) {
        return (unsigned)((bytes - 1) >> 4);
    }
    unsigned power = 63 - (unsigned)__builtin_clzll(bytes - 1);
    unsigned quarter = (unsigned)((bytes - 1) >> (power - 2)) & 3;
    return (power - 5) * 4 + quarter;
}

/* Whether there is memory for a number of bytes from a place on, with what grows. */
static bool reach(unsigned char *from, size_t bytes) {
    if ((size_t)from > limit || bytes > limit - (size_t)from) {
        return false;
    }
    unsigned char *place = from + bytes;
    if (place <= end) {
        return true;
    }
    size_t pages = ((size_t)(place - end) + PAGE - 1) / PAGE;
    /* where addresses were lowered to 32 bits, -1 may be 2^32 - 1 */
    if (__builtin_wasm_memory_grow(0, pages) >= 0xffffffff) {
        return false;
    }
    end += pages * PAGE;
    return true;
}

static struct tried found(struct block *block) {
    struct tried result = {block != NULL, (uint64_t)(size_t)(block != NULL ? block + 1 : (struct block *)ALIGN)};
    return result;
}

struct tried rattle_alloc(uint64_t bytes, uint64_t align) {
    /* at most 16 */
    (void)align;
    if (bytes > MOST - sizeof(struct block)) {
        return found(NULL);
    }
    unsigned size = size_of(bytes + sizeof(struct block));
    struct block *block = free_blocks[size];
    if (block != NULL) {
        free_blocks[size] = block->next;
    } else {
        size_t whole = bytes_of(size);
        if (!reach(top, whole)) {
            return found(NULL);
        }
        block = (struct block *)top;
        top += whole;
        block->size = size;
    }
    taken++;
    return found(block);
}

void rattle_dealloc(void *p) {
    struct block *block = (struct block *)p - 1;
    block->next = free_blocks[block->size];
    free_blocks[block->size] = block;
    taken--;
}

/* The first `kept` bytes are as they were. If it fails, the block is as it was. */
struct tried rattle_realloc(void *p, uint64_t kept, uint64_t bytes, uint64_t align) {
    struct block *block = (struct block *)p - 1;
    if (bytes > MOST - sizeof(struct block)) {
        return found(NULL);
    }
    unsigned size = size_of(bytes + sizeof(struct block));
    if (size == block->size) {
        return found(block);
    }
    if ((unsigned char *)block + bytes_of((unsigned)block->size) == top) {
        size_t whole = bytes_of(size);
        if (!reach((unsigned char *)block, whole)) {
            return found(NULL);
        }
        top = (unsigned char *)block + whole;
        block->size = size;
        return found(block);
    }
    struct tried fresh = rattle_alloc(bytes, align);
    if (fresh.ok) {
        __builtin_memcpy((void *)(size_t)fresh.place, p, kept < bytes ? (size_t)kept : (size_t)bytes);
        rattle_dealloc(p);
    }
    return fresh;
}

/* Room for what the host gives and takes, in bytes; null if there is no memory for it. It ends the last room. */
EXPORT(pendratsoa_room)
unsigned char *pendratsoa_room(size_t bytes) {
    if (room_block != NULL) {
        rattle_dealloc(room_block);
        room_block = NULL;
    }
    if (taken != 0) {
        struct tried block = rattle_alloc(bytes, ALIGN);
        room_block = block.ok ? (unsigned char *)(size_t)block.place : NULL;
        return room_block;
    }
    unsigned char *start = (unsigned char *)aligned((size_t)&__heap_base);
    end = (unsigned char *)(__builtin_wasm_memory_size(0) * PAGE);
    if (!reach(start, bytes)) {
        return NULL;
    }
    top = (unsigned char *)aligned((size_t)start + bytes);
    __builtin_memset(free_blocks, 0, sizeof free_blocks);
    return start;
}

/* How many blocks are taken, without the room. */
EXPORT(pendratsoa_blocks)
uint64_t pendratsoa_blocks(void) {
    return taken - (room_block != NULL);
}

/* From now on no more than this many bytes, up to the end of their page, are taken; what the memory has it keeps. */
EXPORT(pendratsoa_limit)
void pendratsoa_limit(size_t bytes) {
    limit = bytes < MOST ? bytes : MOST;
}
