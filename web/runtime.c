/* What the desk needs besides itself in WebAssembly: the three functions of memory that the toolchain has over malloc, realloc
 * and free, moving bytes, and the product of numbers of 128 bits. No proof covers this file. */

typedef unsigned long size;
typedef unsigned long long u64;

enum { PAGE = 65536, CLASSES = 40, SMALLEST = 4, HEADER = 16 };

/* As the toolchain calls them: whether there was memory, and the block. */
struct block {
    u64 is_there;
    void *at;
};

/* A block has 16, 32, 64 .. bytes behind a header that names its class. A free one stands in the list of its class. */
struct header {
    u64 class;
    struct header *next;
};

extern unsigned char __heap_base;
static struct header *free_blocks[CLASSES];
static size unused; /* where the memory begins that was never a block, once there was one */

static u64 class_of(size bytes)
{
    u64 class = SMALLEST;
    while (class < CLASSES && ((size)1 << class) < bytes)
        class++;
    return class;
}

static struct header *fresh(u64 class)
{
    size length = HEADER + ((size)1 << class);
    if (!unused)
        unused = ((size)&__heap_base + 15) / 16 * 16;
    size there = __builtin_wasm_memory_size(0) * PAGE;
    if (unused + length > there) {
        size pages = (unused + length - there + PAGE - 1) / PAGE;
        if (__builtin_wasm_memory_grow(0, pages) == (size)-1)
            return 0;
    }
    struct header *made = (struct header *)unused;
    unused += length;
    made->class = class;
    return made;
}

static void *taken(size bytes)
{
    u64 class = class_of(bytes);
    if (class >= CLASSES)
        return 0;
    struct header *found = free_blocks[class];
    if (found)
        free_blocks[class] = found->next;
    else
        found = fresh(class);
    return found ? (unsigned char *)found + HEADER : 0;
}

static struct header *header_of(void *at)
{
    return (struct header *)((unsigned char *)at - HEADER);
}

void rattle_dealloc(void *at)
{
    struct header *freed = header_of(at);
    freed->next = free_blocks[freed->class];
    free_blocks[freed->class] = freed;
}

struct block rattle_alloc(size bytes, size align)
{
    void *at = taken(bytes ? bytes : align);
    return (struct block){at != 0, at ? at : (void *)16};
}

struct block rattle_realloc(void *at, size bytes, size wanted, size align)
{
    u64 class = header_of(at)->class;
    (void)bytes;
    (void)align;
    if (class_of(wanted) == class)
        return (struct block){1, at};
    void *made = taken(wanted ? wanted : align);
    if (!made)
        return (struct block){0, (void *)16};
    size had = (size)1 << class;
    __builtin_memcpy(made, at, had < wanted ? had : wanted);
    rattle_dealloc(at);
    return (struct block){1, made};
}

/* These compile to WebAssembly's own instructions. */
void *memset(void *to, int byte, size bytes)
{
    return __builtin_memset(to, byte, bytes);
}

void *memmove(void *to, const void *from, size bytes)
{
    return __builtin_memmove(to, from, bytes);
}

void *memcpy(void *to, const void *from, size bytes)
{
    return __builtin_memmove(to, from, bytes);
}

int memcmp(const unsigned char *a, const unsigned char *b, size bytes)
{
    for (size place = 0; place < bytes; place++)
        if (a[place] != b[place])
            return a[place] < b[place] ? -1 : 1;
    return 0;
}

/* The product of two numbers of 128 bits, of their halves of 64 bits and of these ones' halves. */
__int128 __multi3(__int128 a, __int128 b)
{
    u64 a_low = (u64)a, b_low = (u64)b, half = 0xffffffff;
    u64 low = (a_low & half) * (b_low & half);
    u64 left = (a_low >> 32) * (b_low & half), right = (a_low & half) * (b_low >> 32);
    u64 middle = (low >> 32) + (left & half) + (right & half);
    u64 high = (a_low >> 32) * (b_low >> 32) + (left >> 32) + (right >> 32) + (middle >> 32);
    high += a_low * (u64)(b >> 64) + (u64)(a >> 64) * b_low;
    return (__int128)(((unsigned __int128)high << 64) | (middle << 32) | (low & half));
}

/* Where the caller gets memory for what it hands in. */
void *web_take(size bytes)
{
    return taken(bytes);
}

void web_give(void *at)
{
    rattle_dealloc(at);
}
