/* Writes valid profiles whose entries fall into few slots of hash tables that hash with a fixed seed, and plain ones of the
   same shape.

     hostile COUNT FOLDER

   samples    all samples differ, and have one number under a walk of multiplications and folds
   ids        locations with ids that fall into one group of a table
   addresses  locations with such addresses, and ids from 1
   texts      functions with such names of 120 bytes

   Each is written to FOLDER/KIND-hostile and FOLDER/KIND-plain. */
#include <stdint.h>
#include <stdio.h>
#include <stdlib.h>
#include <string.h>

/* Of the numbers of samples. */
#define SAMPLE_MULTIPLIER 11400714819323198485ull
/* Of the toolchain's hasher with its fixed keys. */
#define MULTIPLIER 0x9e3779b97f4a7c15ull
#define SEED 0x243f6a8885a308d3ull
/* A table of groups has at most 9 entries in each. */
#define ENTRIES_A_GROUP 9
#define NAME 120

static uint8_t *out;
static size_t len, room;
static uint64_t state = 88172645463325252ull;

static void byte(uint8_t b)
{
    if (len == room) {
        room = room ? 2 * room : 1 << 20;
        out = realloc(out, room);
        if (out == NULL)
            exit(1);
    }
    out[len++] = b;
}

static void varint(uint64_t n)
{
    for (; n > 127; n >>= 7)
        byte(n | 128);
    byte(n);
}

static size_t width(uint64_t n)
{
    size_t w = 1;
    for (; n > 127; n >>= 7)
        w++;
    return w;
}

static void scalar(int field, uint64_t n)
{
    varint(field << 3);
    varint(n);
}

static size_t scalar_width(int field, uint64_t n)
{
    return width(field << 3) + width(n);
}

static void head(int field, size_t size)
{
    varint(field << 3 | 2);
    varint(size);
}

static void text(const char *s)
{
    head(6, strlen(s));
    for (; *s; s++)
        byte(*s);
}

static uint64_t next_random(void)
{
    state ^= state << 13;
    state ^= state >> 7;
    return state ^= state << 17;
}

static uint64_t sample_step(uint64_t n, uint64_t x)
{
    uint64_t y = (n ^ x) * SAMPLE_MULTIPLIER;
    return y ^ y >> 32;
}

static uint64_t fold(uint64_t a, uint64_t b)
{
    __uint128_t p = (__uint128_t)a * b;
    return (uint64_t)p ^ (uint64_t)(p >> 64);
}

/* The hash behind `hash` of a number, and of a byte of a text. */
static uint64_t with_number(uint64_t hash, uint64_t x)
{
    return fold(hash ^ x, MULTIPLIER ^ 16);
}

static uint64_t with_byte(uint64_t hash, uint8_t x)
{
    return fold(hash ^ (x | (uint64_t)x << 8 | (uint64_t)x << 16), MULTIPLIER ^ 2);
}

static uint32_t mask;

static void fit(uint64_t count)
{
    uint64_t groups = 1;
    while (ENTRIES_A_GROUP * groups < count)
        groups *= 2;
    mask = groups - 1;
}

static int hits(uint64_t hash)
{
    return ((uint32_t)(hash ^ hash >> 32) & mask) == 0;
}

static void write_out(const char *folder, const char *kind, int plain)
{
    char path[4096];
    snprintf(path, sizeof path, "%s/%s-%s", folder, kind, plain ? "plain" : "hostile");
    FILE *file = fopen(path, "wb");
    if (file == NULL || fwrite(out, 1, len, file) != len || fclose(file) != 0) {
        perror(path);
        exit(1);
    }
}

static void begin(void)
{
    len = 0;
    head(1, 4);
    scalar(1, 1);
    scalar(2, 2);
}

static void end(void)
{
    text("");
    text("samples");
    text("count");
    text("k");
}

/* A sample with one location, the value 1, and the label k. */
static void sample(uint64_t location, uint64_t n)
{
    size_t label = scalar_width(1, 3) + scalar_width(3, n);
    head(2, 2 + width(location) + 3 + 1 + width(label) + label);
    head(1, width(location));
    varint(location);
    head(2, 1);
    varint(1);
    head(3, label);
    scalar(1, 3);
    scalar(3, n);
}

static void samples(uint64_t count, int plain)
{
    head(4, 4);
    scalar(1, 1);
    scalar(3, 1);
    for (uint64_t i = 1; i <= count; i++) {
        uint64_t walk[] = {1, 3, 0, i, 0, 3, 0}, n = 0;
        for (int k = 0; k < 7; k++)
            n = sample_step(n, walk[k]);
        uint64_t last = plain ? next_random() : n ^ 0x5555;
        size_t a = scalar_width(1, 3) + scalar_width(3, i), b = scalar_width(1, 3) + scalar_width(3, last);
        head(2, 3 + 3 + 2 + a + 1 + width(b) + b);
        head(1, 1);
        varint(1);
        head(2, 1);
        varint(1);
        head(3, a);
        scalar(1, 3);
        scalar(3, i);
        head(3, b);
        scalar(1, 3);
        scalar(3, last);
    }
    end();
}

static void numbered(const uint64_t *chosen, uint64_t count, int are_ids)
{
    for (uint64_t i = 0; i < count; i++) {
        uint64_t id = are_ids ? chosen[i] : i + 1, address = are_ids ? i + 1 : chosen[i];
        head(4, scalar_width(1, id) + scalar_width(3, address));
        scalar(1, id);
        scalar(3, address);
    }
    for (uint64_t i = 0; i < count; i++)
        sample(are_ids ? chosen[i] : i + 1, i);
    end();
}

static void named(uint64_t count, int plain)
{
    uint8_t name[NAME];
    uint64_t prefix = with_number(SEED, NAME);
    for (uint64_t i = 1; i <= count; i++) {
        size_t line = scalar_width(1, i);
        head(5, scalar_width(1, i) + scalar_width(2, i + 3));
        scalar(1, i);
        scalar(2, i + 3);
        head(4, scalar_width(1, i) + 1 + width(line) + line);
        scalar(1, i);
        head(4, line);
        scalar(1, i);
    }
    for (uint64_t i = 1; i <= count; i++)
        sample(i, i);
    end();
    memset(name, 'a', sizeof name);
    for (int k = 0; k < NAME - 6; k++)
        prefix = with_byte(prefix, 'a');
    for (uint64_t i = 0, n = 0; i < count; n++) {
        uint64_t hash = prefix, x = n;
        for (int k = NAME - 6; k < NAME - 1; k++, x >>= 6) {
            name[k] = '0' + (x & 63);
            hash = with_byte(hash, name[k]);
        }
        for (int b = 0; b < 64 && i < count; b++) {
            if (!plain && !hits(with_byte(hash, '0' + b)))
                continue;
            name[NAME - 1] = '0' + b;
            head(6, NAME);
            for (int k = 0; k < NAME; k++)
                byte(name[k]);
            i++;
        }
    }
}

int main(int argc, char **argv)
{
    if (argc != 3) {
        fprintf(stderr, "usage: hostile COUNT FOLDER\n");
        return 2;
    }
    uint64_t count = strtoull(argv[1], NULL, 10), *chosen = malloc(8 * count);
    if (chosen == NULL)
        return 1;
    fit(count);
    for (int plain = 0; plain < 2; plain++) {
        for (uint64_t i = 0; i < count;) {
            uint64_t x = next_random() | 1;
            if (plain || hits(with_number(SEED, x)))
                chosen[i++] = x;
        }
        begin();
        samples(count, plain);
        write_out(argv[2], "samples", plain);
        begin();
        numbered(chosen, count, 1);
        write_out(argv[2], "ids", plain);
        begin();
        numbered(chosen, count, 0);
        write_out(argv[2], "addresses", plain);
        begin();
        named(count, plain);
        write_out(argv[2], "texts", plain);
    }
    return 0;
}
