/* The heap of the module, in its linear memory, which grows as it is wanted. The blocks lie side by side. Each begins
   with its size and that of the block before it, so that a block that is given back joins the free ones on both its
   sides. Free blocks are listed by size, four lists for each power of two. This isn't proved.

   The formatter calls rattle_alloc, rattle_realloc and rattle_dealloc; the page calls justfile_room and
   justfile_give_back. A block is aligned to 16 bytes, which is the most that the formatter asks for. */
typedef __SIZE_TYPE__ size_t;

struct block {
    size_t size;                   /* With its head, a multiple of 16; the lowest bit is set if it is used. */
    size_t before;                 /* The size of the block before it, or 0. */
    struct block *next, *previous; /* In the list of free blocks; a used block has its bytes here. */
};

struct tried {
    size_t succeeded;
    void *at;
};

enum { HEAD = 16, LEAST = sizeof(struct block), USED = 1, LISTS = 256, LOOKED_AT = 16, PAGE = 1 << 16, PAGES = 16 };

#define EXPORT __attribute__((visibility("default")))

extern unsigned char __heap_base;
static struct block *listed[LISTS];
static struct block *last; /* The block without bytes at the end of the memory, which is always used. */
static _Alignas(16) const char nothing[16];

static size_t size_of(const struct block *it) { return it->size & ~(size_t)USED; }
static struct block *after(struct block *it, size_t size) { return (struct block *)((char *)it + size); }
static void *bytes_of(struct block *it) { return (char *)it + HEAD; }
static struct block *block_of(void *at) { return (struct block *)((char *)at - HEAD); }

static int list_of(size_t size)
{
    int power = 63 - __builtin_clzl(size);
    return power * 4 + (int)(size >> (power - 2) & 3);
}

static void enlist(struct block *it, size_t size)
{
    struct block **list = &listed[list_of(size)];
    it->size = size;
    it->previous = 0;
    it->next = *list;
    if (it->next)
        it->next->previous = it;
    *list = it;
    after(it, size)->before = size;
}

static void unlist(struct block *it)
{
    if (it->next)
        it->next->previous = it->previous;
    if (it->previous)
        it->previous->next = it->next;
    else
        listed[list_of(it->size)] = it->next;
}

/* Uses the first `size` bytes of a block of `whole` bytes that is in no list, and enlists the others. */
static void use(struct block *it, size_t whole, size_t size)
{
    if (whole - size >= LEAST) {
        struct block *rest = after(it, size);
        rest->before = size;
        enlist(rest, whole - size);
        whole = size;
    }
    it->size = whole | USED;
    after(it, whole)->before = whole;
}

/* Enlists a block that isn't used any more, joined with the free blocks at both sides. */
static void free_block(struct block *it, size_t size)
{
    struct block *next = after(it, size);
    if (!(next->size & USED)) {
        unlist(next);
        size += next->size;
    }
    if (it->before) {
        struct block *before = (struct block *)((char *)it - it->before);
        if (!(before->size & USED)) {
            unlist(before);
            size += before->size;
            it = before;
        }
    }
    enlist(it, size);
}

/* Adds a free block of at least this size at the end. Answers 0 if there is no more memory. */
static int grow(size_t size)
{
    if (!last) {
        size_t base = ((size_t)&__heap_base + 15) & ~(size_t)15;
        size_t end = __builtin_wasm_memory_size(0) * PAGE;
        last = (struct block *)(end - HEAD);
        struct block *first = (struct block *)base;
        last->size = USED;
        first->before = 0;
        enlist(first, end - HEAD - base);
        if (end - HEAD - base >= size)
            return 1;
    }
    size_t pages = (size + PAGE - 1) / PAGE;
    size_t grown = pages < PAGES ? PAGES : pages;
    if (__builtin_wasm_memory_grow(0, grown) == (size_t)-1)
        return 0;
    struct block *added = last;
    last = after(added, grown * PAGE);
    last->size = USED;
    free_block(added, grown * PAGE);
    return 1;
}

/* A free block of at least this size, out of its list, or 0. */
static struct block *found(size_t size)
{
    int list = list_of(size), looked = 0;
    for (struct block *it = listed[list]; it && looked < LOOKED_AT; it = it->next, looked++) {
        if (it->size >= size) {
            unlist(it);
            return it;
        }
    }
    while (++list < LISTS) {
        if (listed[list]) {
            struct block *it = listed[list];
            unlist(it);
            return it;
        }
    }
    return 0;
}

/* The size of a block for so many bytes, or 0 if there can't be one. */
static size_t block_size(size_t bytes)
{
    size_t size = (bytes + HEAD + 15) & ~(size_t)15;
    return bytes >> 40 ? 0 : size < LEAST ? LEAST : size;
}

static void *take(size_t bytes)
{
    size_t size = block_size(bytes);
    struct block *it = size ? found(size) : 0;
    while (size && !it) {
        if (!grow(size))
            return 0;
        it = found(size);
    }
    if (!it)
        return 0;
    use(it, it->size, size);
    return bytes_of(it);
}

static void give(void *at)
{
    if (at && at != (void *)nothing) {
        struct block *it = block_of(at);
        free_block(it, size_of(it));
    }
}

/* Makes a block larger or smaller where it is. Answers 0 if it and the free block behind it don't suffice. */
static int resized(struct block *it, size_t size)
{
    size_t whole = size_of(it);
    struct block *next = after(it, whole);
    if (!(next->size & USED) && whole + next->size >= size) {
        unlist(next);
        whole += next->size;
    }
    if (whole < size)
        return 0;
    use(it, whole, size);
    return 1;
}

static struct tried answer(void *at) { return (struct tried){at != 0, at ? at : (void *)nothing}; }

struct tried rattle_alloc(size_t bytes, size_t alignment) { return answer(take(bytes ? bytes : alignment)); }

struct tried rattle_realloc(void *at, size_t kept, size_t bytes, size_t alignment)
{
    size_t wanted = bytes ? bytes : alignment, size = block_size(wanted);
    if (size && resized(block_of(at), size))
        return answer(at);
    void *to = take(wanted);
    if (!to)
        return answer(0);
    __builtin_memcpy(to, at, kept < wanted ? kept : wanted);
    give(at);
    return answer(to);
}

void rattle_dealloc(void *at) { give(at); }

EXPORT void *justfile_room(size_t bytes) { return take(bytes); }
EXPORT void justfile_give_back(void *at) { give(at); }
