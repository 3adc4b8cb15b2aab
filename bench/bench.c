/* Times the archive and the plain C against each other, and compares their answers and counts.
 *
 *     bench --times ROUNDS                          a line for each shape and size: shape size bytes, then ns per call: least and median of
 *                                                   plain, least and median of archive. With 0 rounds only the sheets are checked
 *     bench --once SHAPE SIZE archive|plain N       N calls, for a counter of instructions
 *     bench --compare FILE..                        both on every file, its beginnings and changes of it
 *     bench --show archive|plain FILE               what the program maxt would print
 *     bench --sheet SHAPE SIZE                      the sheet's bytes
 *     bench --stack                                 the smallest stack that serves
 */
#include "bench.h"

#include <stdio.h>
#include <stdlib.h>
#include <string.h>
#include <time.h>

#define PLACES 64
#define TABLE 70 /* lent with more than 64 places, to see that later ones are left alone */
#define BATCH 250000.0 /* ns: a batch of calls takes at least 200 us */
#define ROUNDS_MOST 20000

const struct named calculators[] = {{"plain", plain_answer}, {"archive", maxt_answer}, {NULL, NULL}};

static const size_t sizes[] = {600, 6000, 60000};

struct outcome {
    uint64_t answer[3], table[TABLE], work;
};

static struct outcome before(void)
{
    struct outcome o = {.answer = {77, 77, 77}, .work = 77};

    for (size_t i = 0; i < TABLE; i++)
        o.table[i] = UINT64_C(0xabcdef0123456789) + i;
    return o;
}

static struct outcome outcome(calculator *c, const uint8_t *sheet, size_t length, size_t places)
{
    struct outcome o = before();

    c(sheet, length, o.table, places, o.answer);
    return o;
}

static struct outcome counted(counter *c, const uint8_t *sheet, size_t length, size_t places)
{
    struct outcome o = before();

    o.work = c(sheet, length, o.table, places, o.answer);
    return o;
}

static int is_same(const uint8_t *sheet, size_t length, size_t places)
{
    struct outcome a = outcome(plain_answer, sheet, length, places), b = outcome(maxt_answer, sheet, length, places);
    struct outcome c = counted(plain_work, sheet, length, places), d = counted(maxt_work, sheet, length, places);
    return memcmp(&a, &b, sizeof a) == 0 && memcmp(&c, &d, sizeof c) == 0;
}

/* ---- times */

static double now(void)
{
    struct timespec t;
    clock_gettime(CLOCK_MONOTONIC, &t);
    return (double)t.tv_sec * 1e9 + (double)t.tv_nsec;
}

/* ns per call over a batch. */
static double batch(calculator *c, const uint8_t *sheet, size_t length, unsigned calls)
{
    uint64_t table[PLACES], answer[3];
    double start = now();

    for (unsigned i = 0; i < calls; i++)
        c(sheet, length, table, PLACES, answer);
    return (now() - start) / calls;
}

static unsigned calls_in_batch(calculator *c, const uint8_t *sheet, size_t length)
{
    unsigned calls = 1;

    while (batch(c, sheet, length, calls) * calls < BATCH)
        calls += calls / 4 + 1;
    return calls;
}

static int by_size(const void *a, const void *b)
{
    double x = *(const double *)a, y = *(const double *)b;
    return x < y ? -1 : x > y;
}

static void time_sheet(const char *shape, size_t size, const uint8_t *sheet, size_t length, unsigned rounds)
{
    static double ns[2][ROUNDS_MOST];
    unsigned calls[2];

    if (rounds == 0) {
        printf("%s %zu %zu 0 0 0 0\n", shape, size, length);
        return;
    }
    for (int w = 0; w < 2; w++)
        calls[w] = calls_in_batch(calculators[w].answer, sheet, length);
    for (unsigned round = 0; round < rounds; round++)
        for (unsigned turn = 0; turn < 2; turn++) {
            unsigned w = (round + turn) % 2; /* who comes first changes with every round */
            ns[w][round] = batch(calculators[w].answer, sheet, length, calls[w]);
        }
    printf("%s %zu %zu", shape, size, length);
    for (int w = 0; w < 2; w++) {
        qsort(ns[w], rounds, sizeof ns[w][0], by_size);
        printf(" %.1f %.1f", ns[w][0], ns[w][rounds / 2]);
    }
    printf("\n");
    fflush(stdout);
}

static int times(unsigned rounds)
{
    static uint8_t sheet[SHEET_MOST];

    if (rounds > ROUNDS_MOST)
        return fprintf(stderr, "bench: at most %d rounds\n", ROUNDS_MOST), 2;
    for (const struct shape *s = shapes; s->name != NULL; s++)
        for (int i = 0; i < 3; i++) {
            size_t length = build_sheet(s, sizes[i], sheet);
            struct outcome o = outcome(plain_answer, sheet, length, PLACES);
            if (!is_same(sheet, length, PLACES))
                return fprintf(stderr, "bench: %s %zu: the answers differ\n", s->name, sizes[i]), 1;
            if (o.answer[0] != 0 || o.answer[2] == 0)
                return fprintf(stderr, "bench: %s %zu: refused %d at %d\n", s->name, sizes[i], (int)o.answer[0], (int)o.answer[1]), 1;
            time_sheet(s->name, sizes[i], sheet, length, rounds);
        }
    return 0;
}

/* ---- one sheet */

static calculator *calculator_named(const char *name)
{
    for (const struct named *c = calculators; c->name != NULL; c++)
        if (strcmp(c->name, name) == 0)
            return c->answer;
    fprintf(stderr, "bench: no calculator %s\n", name);
    exit(2);
}

static size_t sheet_named(const char *shape, const char *size, uint8_t *sheet)
{
    const struct shape *s = shape_named(shape);
    size_t n = strtoul(size, NULL, 10);

    if (s == NULL || n < 600 || n > SHEET_MOST) {
        fprintf(stderr, "bench: no sheet %s %s\n", shape, size);
        exit(2);
    }
    return build_sheet(s, n, sheet);
}

static int once(const char *shape, const char *size, const char *who, unsigned n)
{
    static uint8_t sheet[SHEET_MOST];
    uint64_t table[PLACES], answer[3];
    calculator *c = calculator_named(who);
    size_t length = sheet_named(shape, size, sheet);

    for (unsigned i = 0; i < n; i++)
        c(sheet, length, table, PLACES, answer);
    return 0;
}

/* ---- answers */

#define READ_MOST (SHEET_MOST + 16)

static size_t read_sheet(const char *name, uint8_t *sheet)
{
    FILE *f = fopen(name, "rb");
    size_t length;

    if (f == NULL) {
        perror(name);
        exit(2);
    }
    length = fread(sheet, 1, READ_MOST, f);
    fclose(f);
    return length;
}

static int show(const char *who, const char *name)
{
    static uint8_t sheet[READ_MOST];
    size_t length = read_sheet(name, sheet);
    struct outcome o = outcome(calculator_named(who), sheet, length, PLACES);

    if (o.answer[0] != 0)
        return printf("refused %d at %d\n", (int)o.answer[0], (int)o.answer[1]), 0;
    for (unsigned i = 0; i < sheet[8]; i++)
        printf("routine %u %llu\n", i + 1, (unsigned long long)o.table[i]);
    printf("bound %llu\n", (unsigned long long)o.answer[2]);
    return 0;
}

static unsigned long long compared, differ, refused[13];

static void compare(const char *name, const char *what, const uint8_t *sheet, size_t length, size_t places)
{
    compared++;
    refused[outcome(plain_answer, sheet, length, places).answer[0]]++;
    if (!is_same(sheet, length, places) && differ++ < 10)
        printf("differ: %s, %s, %zu bytes, %zu places\n", name, what, length, places);
}

static uint32_t chance(uint32_t below)
{
    static uint32_t seed = 1;
    seed = seed * 1664525 + 1013904223;
    return (seed >> 8) % below;
}

/* Changed copies: a byte, a field or a record's kind made something else, or bytes left out or put in between. */
static void compare_changed(const char *name, const uint8_t *sheet, size_t length, unsigned times)
{
    static const uint32_t odd[] = {0, 1, 2, 3, 255, 256, 257, 1000, 1001, 1000000, 1000001, 65536, 0xffffffff, 0x7fffffff};
    static uint8_t copy[READ_MOST + 8];

    for (unsigned i = 0; i < times && length >= 12; i++) {
        size_t n = length, at = chance((uint32_t)length / 4) * 4;
        memcpy(copy, sheet, length);
        for (unsigned more = 1 + chance(3); more != 0; more--, at = chance((uint32_t)n / 4) * 4)
            switch (chance(5)) {
            case 0: copy[at + chance(4)] ^= (uint8_t)(1 << chance(8)); break;
            case 1: memcpy(copy + at, &odd[chance(14)], 4); break;
            case 2: copy[at + 2] = (uint8_t)chance(11), copy[at + 3] = 0; break;
            case 3: memcpy(copy + at, sheet + chance((uint32_t)length / 4) * 4, 4); break;
            default:
                if (n + 8 <= READ_MOST && chance(2) == 0)
                    memmove(copy + at + 8, copy + at, n - at), n += 8;
                else if (n >= at + 8 && n >= 20)
                    memmove(copy + at, copy + at + 8, n - at - 8), n -= 8;
            }
        compare(name, "changed", copy, n, PLACES);
    }
}

static int compare_files(char **names)
{
    static uint8_t sheet[READ_MOST];
    unsigned files = 0;

    for (; *names != NULL; names++, files++) {
        size_t length = read_sheet(*names, sheet);
        for (size_t places = 63; places <= TABLE; places++)
            compare(*names, "whole", sheet, length, places);
        compare(*names, "whole", sheet, length, 0);
        for (size_t n = 0; n < length; n += length < 3000 ? 1 : 997)
            compare(*names, "cut", sheet, n, PLACES);
        compare_changed(*names, sheet, length, length < 3000 ? 3000 : 100);
    }
    printf("compared: %u files, %llu sheets with their beginnings and changes, %llu answers or counts differ; accepted %llu; refused", files, compared, differ, refused[0]);
    for (int i = 1; i < 13; i++)
        printf(" %d:%llu", i, refused[i]);
    printf("\n");
    return differ != 0;
}

int main(int argc, char **argv)
{
    static uint8_t sheet[SHEET_MOST];

    if (argc == 3 && strcmp(argv[1], "--times") == 0)
        return times((unsigned)atoi(argv[2]));
    if (argc == 6 && strcmp(argv[1], "--once") == 0)
        return once(argv[2], argv[3], argv[4], (unsigned)atoi(argv[5]));
    if (argc > 2 && strcmp(argv[1], "--compare") == 0)
        return compare_files(argv + 2);
    if (argc == 4 && strcmp(argv[1], "--show") == 0)
        return show(argv[2], argv[3]);
    if (argc == 4 && strcmp(argv[1], "--sheet") == 0)
        return fwrite(sheet, 1, sheet_named(argv[2], argv[3], sheet), stdout) == 0;
    if (argc == 2 && strcmp(argv[1], "--stack") == 0)
        return stacks();
    fprintf(stderr, "bench: see the head of bench/bench.c\n");
    return 2;
}
