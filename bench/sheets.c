/* Builds the sheets that are measured. Every one is accepted; bench.c checks that.
 * A record that owns a list is written with its children uncounted, and `close_list` fills the number in. */
#include "sheets.h"

#include <stdlib.h>
#include <string.h>

static uint8_t *bytes;
static size_t length, room;
static uint32_t seed;

/* Costs differ from record to record, and are the same in every run. */
static uint32_t some(uint32_t below)
{
    seed = seed * 1664525 + 1013904223;
    return (seed >> 8) % below;
}

static size_t left(void)
{
    return room - length;
}

static void number(uint32_t value, size_t size)
{
    if (left() < size)
        abort(); /* the sheet would be longer than asked for */
    for (; size != 0; size--, value >>= 8)
        bytes[length++] = (uint8_t)value;
}

static size_t record(uint32_t kind, uint32_t size, uint32_t first)
{
    size_t place = length;

    number(size, 2);
    number(kind, 2);
    number(first, 4);
    return place;
}

static void close_list(size_t place, uint32_t n)
{
    size_t end = length;

    length = place + 4;
    number(n, 4);
    length = end;
}

static void sheet(uint32_t routines) { record(100, 12, 1), number(routines, 4); }
static void routine(uint32_t cost) { record(1, 8, cost); }
static void primitive(void) { record(2, 8, 1 + some(1000)); }
static void primitives(uint32_t n) { while (n-- != 0) primitive(); }
static size_t sequence(uint32_t n) { return record(3, 8, n); }
static size_t alternative(uint32_t n) { return record(4, 8, n); }
static void head_loop(uint32_t count, uint32_t scope) { record(5, 12, count), number(scope, 4); }
static void tail_loop(uint32_t count, uint32_t scope) { record(6, 12, count), number(scope, 4); }
static void timed_loop(void) { record(7, 8, some(5000)); }
static void call(uint32_t routine) { record(8, 8, routine); }
static void marker(void) { record(9, 12, some(1000)), number(some(1000), 4); }

/* Primitives up to the size, as further children of a list that has n; how many it has then. */
static uint32_t padded(uint32_t n)
{
    for (; left() >= 8 && n < 1000; n++)
        primitive();
    return n;
}

/* ---- the shapes that are timed */

/* One routine: a sequence of sequences of up to 1,000 primitives. */
static void flat(const struct shape *s, size_t size)
{
    size_t outer;
    uint32_t n = 0;

    (void)s, (void)size;
    sheet(1);
    routine(5);
    outer = sequence(0);
    for (; left() >= 16; n++) {
        size_t inner = sequence(0);
        close_list(inner, padded(0));
    }
    close_list(outer, n);
}

/* The kinds that a tower is made of, from outside to inside: one construct on each depth, its other children primitives or empty. */
enum floor { SEQUENCE, HEAD_BODY, BRANCH, TAIL_BODY, TIMED, HEAD_INIT, HEAD_CONDITION, HEAD_OVERRUN, TAIL_CONDITION, TAIL_OVERRUN, CONDITION, LAST_BRANCH, FLOORS };

static void before(enum floor f, uint32_t scope)
{
    switch (f) {
    case SEQUENCE: sequence(1); break;
    case HEAD_BODY: head_loop(2, scope), primitives(2); break;
    case HEAD_INIT: head_loop(1, scope); break;
    case HEAD_CONDITION: head_loop(1, scope), primitives(1); break;
    case HEAD_OVERRUN: head_loop(1, scope), primitives(3); break;
    case TAIL_BODY: tail_loop(2, scope); break;
    case TAIL_CONDITION: tail_loop(1, scope), primitives(1); break;
    case TAIL_OVERRUN: tail_loop(1, scope), primitives(2); break;
    case CONDITION: alternative(2); break;
    case BRANCH: alternative(2), primitives(1); break;
    case LAST_BRANCH: alternative(2), primitives(2); break;
    default: timed_loop();
    }
}

static void after(enum floor f)
{
    static const uint8_t n[FLOORS] = {[HEAD_BODY] = 1, [HEAD_INIT] = 3, [HEAD_CONDITION] = 2, [TAIL_BODY] = 2, [TAIL_CONDITION] = 1, [CONDITION] = 2, [BRANCH] = 1};
    primitives(n[f]);
}

static size_t tower_bytes(const enum floor *floors, size_t kinds, size_t height)
{
    static const uint8_t n[FLOORS] = {8, 36, 24, 28, 8, 36, 36, 36, 28, 28, 24, 24};
    size_t sum = 8;

    for (size_t i = 0; i < height; i++)
        sum += n[floors[i % kinds]];
    return sum;
}

/* So many constructs, each inside the one before, and a primitive in the innermost. */
static void tower(const enum floor *floors, size_t kinds, size_t height, uint32_t scope)
{
    for (size_t i = 0; i < height; i++)
        before(floors[i % kinds], scope);
    primitive();
    for (size_t i = height; i-- > 0;)
        after(floors[i % kinds]);
}

/* Towers in a sequence, each down to depth 24, the last as high as there is room for. */
static void towers(const enum floor *floors, size_t kinds, uint32_t scope)
{
    size_t outer, height = 22;
    uint32_t n = 0;

    sheet(1);
    routine(5);
    outer = sequence(0);
    for (; left() >= 16; n++) {
        while (height > 0 && tower_bytes(floors, kinds, height) > left())
            height--;
        tower(floors, kinds, height, scope);
    }
    close_list(outer, padded(n));
}

static void deep(const struct shape *s, size_t size)
{
    static const enum floor floors[] = {SEQUENCE, HEAD_BODY, BRANCH, TAIL_BODY, TIMED};
    (void)s, (void)size;
    towers(floors, 5, 0);
}

/* A scope with one alternative: so many marked branches, of which so many have a primitive after their marker, and a plain one. */
static void marked(uint32_t branches, uint32_t longer)
{
    head_loop(100, 1);
    primitives(2);
    alternative(branches + 1);
    primitive();
    for (uint32_t i = 0; i < branches; i++) {
        uint32_t more = (i + 1) * longer / branches - i * longer / branches;
        sequence(1 + more);
        marker();
        primitives(more);
    }
    primitive();
    primitive();
}

/* Scopes in a sequence; each takes 60 bytes and 20 or 28 for a marked branch. */
static void alternatives(const struct shape *s, size_t size)
{
    uint32_t scopes = size < 6000 ? 1 : (uint32_t)size / 6000;
    uint32_t branches = size < 6000 ? ((uint32_t)size - 88) * 10 / 232 : 255;
    uint32_t longer = ((uint32_t)size - 28 - scopes * (60 + 20 * branches)) / 8;

    (void)s;
    sheet(1);
    routine(5);
    sequence(scopes);
    for (uint32_t i = 0; i < scopes; i++)
        marked(branches, (i + 1) * longer / scopes - i * longer / scopes);
}

/* Loops of each kind, alone and inside each other: 292 bytes. */
#define LOOPS_ONCE 292
static void loops_once(void)
{
    head_loop(10, 0), primitives(4);
    tail_loop(10, 1), primitives(3);
    timed_loop(), primitive();
    head_loop(10, 1), primitives(2), tail_loop(7, 0), primitives(3), primitive();
    tail_loop(10, 0), head_loop(0, 0), primitives(4), primitives(2);
    timed_loop(), head_loop(3, 1), primitives(3), primitive();
}

static void loops(const struct shape *s, size_t size)
{
    size_t outer;
    uint32_t n = 0;

    (void)s, (void)size;
    sheet(1);
    routine(5);
    outer = sequence(0);
    for (; left() >= 16 && n < 1000; n++) {
        size_t inner = sequence(0);
        uint32_t m = 0;
        for (; left() >= LOOPS_ONCE && m < 60; m += 6)
            loops_once();
        close_list(inner, left() < LOOPS_ONCE ? padded(m) : m);
    }
    close_list(outer, n);
}

/* 64 routines, or as many as there is room for, each a sequence of calls: one of the routine before, and the others of routines whose
 * bounds stay small enough, so that the last bound is no more than a value may be. */
static void calls(const struct shape *s, size_t size)
{
    uint32_t routines = (size - 12) / 24 < 64 ? (uint32_t)(size - 12) / 24 : 64;
    uint32_t records = ((uint32_t)size - 12 - routines * 16) / 8;

    (void)s;
    sheet(routines);
    for (uint32_t k = 1; k <= routines; k++) {
        uint32_t n = k * records / routines - (k - 1) * records / routines;
        routine(some(100));
        sequence(n);
        for (uint32_t i = 0; i < n; i++) {
            if (k == 1)
                primitive();
            else
                call(i == 0 ? k - 1 : k <= 8 ? 1 : 1 + some(8));
        }
    }
}

/* A bit of everything: 344 bytes, and 8 more in a routine after the first. */
static void mixed_once(uint32_t k)
{
    static const enum floor floors[] = {SEQUENCE, BRANCH, TAIL_BODY, SEQUENCE, HEAD_BODY};

    sequence(5), primitives(5);
    if (k > 1)
        call(1);
    head_loop(20, 1), primitives(2);
    {
        sequence(2), primitive();
        tail_loop(3, 0), alternative(3), primitive();
        sequence(2), marker(), primitive();
        sequence(1), marker();
        sequence(2), primitives(2);
        primitives(2);
    }
    primitive();
    tower(floors, 5, 5, 0);
    timed_loop(), sequence(0);
}

static void mixed(const struct shape *s, size_t size)
{
    uint32_t routines = size < 1880 ? 1 : (uint32_t)size / 940;

    (void)s;
    sheet(routines);
    for (uint32_t k = 1; k <= routines; k++) {
        size_t outer, whole = room;
        uint32_t n = 0;
        room = k == routines ? whole : size * k / routines;
        routine(some(100));
        outer = sequence(0);
        if (k > 1)
            call(k - 1), n++;
        for (; left() >= 352; n += k > 1 ? 5 : 4)
            mixed_once(k);
        close_list(outer, padded(n));
        room = whole;
    }
}

const struct shape shapes[] = {
    {"flat", flat, 0, 0},
    {"deep", deep, 0, 0},
    {"alternatives", alternatives, 0, 0},
    {"loops", loops, 0, 0},
    {"calls", calls, 0, 0},
    {"mixed", mixed, 0, 0},
    {NULL, NULL, 0, 0}};

/* ---- sheets that go as deep as they can in one kind, or keep as many marked branches as they can */

static void only(const struct shape *s, size_t size)
{
    enum floor floors[] = {(enum floor)s->floor};

    (void)size;
    towers(floors, 1, s->scope);
}

/* Alternatives inside each other down to depth 24, each keeping its marked branches while the next is read. */
static void kept(const struct shape *s, size_t size)
{
    uint32_t each = ((uint32_t)size - 76 - 21 * 24) / (21 * 20);

    (void)s;
    sheet(1);
    routine(5);
    head_loop(100, 1), primitives(2);
    for (uint32_t depth = 2; depth <= 22; depth++) {
        alternative(each + 2), primitive();
        for (uint32_t i = 0; i < each; i++)
            sequence(1), marker();
        if (depth == 22)
            sequence(1), marker();
    }
    for (uint32_t depth = 2; depth <= 22; depth++)
        primitive();
    primitive();
}

const struct shape worst[] = {
    {"sequences", only, SEQUENCE, 0},
    {"bodies of head loops", only, HEAD_BODY, 0},
    {"bodies of head scopes", only, HEAD_BODY, 1},
    {"inits", only, HEAD_INIT, 0},
    {"conditions of head loops", only, HEAD_CONDITION, 0},
    {"overruns of head scopes", only, HEAD_OVERRUN, 1},
    {"bodies of tail loops", only, TAIL_BODY, 0},
    {"bodies of tail scopes", only, TAIL_BODY, 1},
    {"conditions of tail loops", only, TAIL_CONDITION, 0},
    {"overruns of tail scopes", only, TAIL_OVERRUN, 1},
    {"conditions of alternatives", only, CONDITION, 0},
    {"first branches", only, BRANCH, 0},
    {"last branches", only, LAST_BRANCH, 0},
    {"timed loops", only, TIMED, 0},
    {"marked branches kept", kept, 0, 0},
    {NULL, NULL, 0, 0}};

size_t build_sheet(const struct shape *shape, size_t size, uint8_t *place)
{
    bytes = place;
    length = 0;
    room = size;
    seed = 1;
    shape->fill(shape, size);
    return length;
}

const struct shape *shape_named(const char *name)
{
    for (const struct shape *s = shapes; s->name != NULL; s++)
        if (strcmp(s->name, name) == 0)
            return s;
    for (const struct shape *s = worst; s->name != NULL; s++)
        if (strcmp(s->name, name) == 0)
            return s;
    return NULL;
}
