// Variables of the stack, whose addresses the program says itself: of each the letter, the address, the size, and then read_all reads it.
#define OUTPUT (*(volatile unsigned char *)0xF0000000)
#define HALT (*(volatile unsigned *)0xF0000008)
#define APART __attribute__((noinline))

APART int read_all(const volatile unsigned char *bytes, int count) {
    int sum = 0;
    for (int i = 0; i < count; i++)
        sum += bytes[i];
    return sum;
}

APART int tell(char letter, volatile void *where, int size) {
    unsigned address = (unsigned)where;
    OUTPUT = letter;
    for (int i = 0; i < 4; i++)
        OUTPUT = address >> 8 * i;
    OUTPUT = size;
    return read_all(where, size);
}
#define TELL(letter, variable) tell(letter, &variable, sizeof variable)

struct pair {
    short first;
    char text[6];
};

// The last two parameters are on the stack of the caller.
APART int many(int a, int b, int c, int d, int e, int f, int g, int h, int ninth, int tenth) {
    struct pair pair;
    pair.first = a;
    for (int i = 0; i < 6; i++)
        pair.text[i] = b;
    return TELL('n', ninth) + TELL('t', tenth) + TELL('p', pair) + a + b + c + d + e + f + g + h;
}

APART int again(int depth) {
    int mine[2] = {depth, depth + 1};
    int sum = TELL('m', mine);
    return depth ? sum + again(depth - 1) : sum;
}

// Two blocks whose variables may have the same place; and an array of a size that the run says, for which sp moves.
APART int blocks(int count) {
    int sum = 0;
    {
        char left[8] = "left";
        sum += TELL('l', left);
    }
    {
        char right[8] = "right";
        sum += TELL('r', right);
    }
    unsigned char moved[count];
    for (int i = 0; i < count; i++)
        moved[i] = i;
    return sum + tell('v', moved, count) + TELL('c', count);
}

static inline __attribute__((always_inline)) int inlined(int value) {
    int grid[2][3] = {{value, 2, 3}, {4, 5, value}};
    return TELL('g', grid);
}

void main(void) {
    volatile int first = 7;
    int sum = many(1, 2, 3, 4, 5, 6, 7, 8, first, first + 1) + again(2) + blocks(first + 4) + inlined(first);
    sum += TELL('f', first);
    OUTPUT = sum;
    HALT = 0;
}
