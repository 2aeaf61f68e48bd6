/*
 * Keys that a table of the program would look for in one place, if its hashes began with the fixed seed; and, where this
 * object is loaded by LD_PRELOAD, a system that gives no random bytes, with which they do.
 *
 * A table takes the place of a key from the low bits of its hash, of which the upper half was added to the lower one
 * without carry. The hash of a key of eight bytes is the product of two factors of 64 bits, of which the upper half was
 * added to the lower one so: the key and the state of the seed, and the length of the key and the factor of the seed,
 * each added without carry.
 *
 * The kit has a compiler, a linker and the C library, but no headers, so what is used of the library is declared here.
 */
typedef __SIZE_TYPE__ size_t;
typedef unsigned int u32;
typedef unsigned long u64;

extern int *__errno_location(void);

enum { NOT_THERE = 38, NAME = 8 };

/* The fixed seed. */
static const u64 STATE = 0x243f6a8885a308d3;
static const u64 FACTOR = 0x9e3779b97f4a7c15;

/* Both halves of the product, joined. */
static u64 folded(u64 a, u64 b)
{
    unsigned __int128 product = (unsigned __int128)a * b;
    return (u64)product ^ (u64)(product >> 64);
}

/* The place of a key of eight bytes, given as one word. */
static u32 place(u64 key)
{
    u64 hash = folded(folded(STATE ^ key, FACTOR ^ NAME), FACTOR);
    return (u32)(hash ^ hash >> 32);
}

/* The name of a number: eight hexadecimal digits, as a word whose lowest byte is the first. */
static u64 name(u32 number)
{
    u64 word = 0;
    for (int digit = 0; digit < NAME; digit++, number >>= 4)
        word = word << 8 | (u64)"0123456789abcdef"[number & 15];
    return word;
}

/* Finds numbers whose names agree in the masked bits of their places. */
void find_names(size_t count, u32 mask, u32 *numbers)
{
    u32 wanted = place(name(0)) & mask;
    size_t found = 0;
    for (u32 number = 0; found < count; number++)
        if ((place(name(number)) & mask) == wanted)
            numbers[found++] = number;
}

/* Finds pairs of a node and a name, each from a first number on, whose places agree so. Returns how many there are. */
size_t find_nodes(size_t count, u32 mask, u32 node, u32 nodes, u32 first, u32 names, u32 *found_nodes, u32 *found_names)
{
    size_t found = 0;
    for (u32 i = 0; i < nodes; i++)
        for (u32 j = 0; j < names && found < count; j++)
            if ((place((u64)(node + i) << 32 | (first + j)) & mask) == 0) {
                found_nodes[found] = i;
                found_names[found++] = j;
            }
    return found;
}

int getentropy(void *bytes, size_t size)
{
    (void)bytes;
    (void)size;
    *__errno_location() = NOT_THERE;
    return -1;
}
