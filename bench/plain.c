/* The calculator of document 01 in plain C, written to be fast under gcc -O3 and clang -O3: one pass, recursion along the nesting, no heap.
 * It tests of a good record as little as it can; what is wrong with a bad one is found out off that way, in the cold functions. */
#include "plain.h"

#include <string.h>

#define COLD __attribute__((cold, noinline))
#define INLINE inline __attribute__((always_inline)) /* left to themselves, neither compiler inlines these everywhere */

/* Length and kind of a record are read and compared as one number. */
#define HEAD(kind, length) ((uint32_t)(kind) << 16 | (length))

enum { SHEET = HEAD(100, 12), ROUTINE = HEAD(1, 8) };
enum { PRIMITIVE = HEAD(2, 8), SEQUENCE = HEAD(3, 8), ALTERNATIVE = HEAD(4, 8), HEAD_LOOP = HEAD(5, 12) };
enum { TAIL_LOOP = HEAD(6, 12), TIMED_LOOP = HEAD(7, 8), CALL = HEAD(8, 8), MARKER = HEAD(9, 12) };

enum { NO_ROOM = 1, TOO_LONG, CUT, BAD_KIND, BAD_LENGTH, BAD_FIELD, BAD_CALL, TOO_DEEP, STRAY_MARKER, NO_PLAIN_BRANCH, EXTRA, TOO_BIG };

#define LONGEST 60000
#define PLACES 64
#define DEEPEST 24
#define HIGHEST 1000000 /* of counts and limits, so also of passes */
#define LIMIT UINT64_C(1099511627775)
#define MARKED_MOST (LONGEST / 20) /* a marked branch takes a sequence and a marker */

/* How a construct stands to the scope around it. LAST_BRANCH: all other branches of its alternative are marked. */
enum standing { OUTSIDE, IN_SCOPE, IN_ALTERNATIVE, BRANCH, LAST_BRANCH, FIRST_OF_BRANCH, FIRST_OF_LAST };

struct marked {
    uint64_t value, limit;
};

struct reader {
    const uint8_t *sheet, *end;
    uint64_t passes;     /* that the counts from the scope's loop down to here allow */
    uint64_t added;      /* what the markers read so far add to the innermost scope */
    struct marked *open; /* past the marked branches of the alternatives that are being read */
    uint64_t big;        /* where the first record ended with too large a value; 0 is none, since the sheet record stands there */
    uint64_t number, place;
    uint64_t work; /* constructs: each is counted by the record that owns it */
    uint64_t done; /* routines read */
    uint64_t bounds[PLACES];
    struct marked marks[MARKED_MOST];
};

/* An ended construct; next is NULL where the sheet is refused. Two words, so that it comes back in registers. */
struct part {
    const uint8_t *next;
    uint64_t value;
};

static inline uint32_t word(const uint8_t *p)
{
    uint32_t w;
    memcpy(&w, p, 4);
    return w;
}

static COLD struct part refuse(struct reader *r, const uint8_t *p, unsigned number)
{
    r->number = number;
    r->place = (uint64_t)(p - r->sheet);
    return (struct part){NULL, 0};
}

/* A record whose length and kind are not those of a construct, or that the sheet's end cuts. */
static COLD struct part fault(struct reader *r, const uint8_t *p)
{
    static const uint8_t lengths[] = {0, 0, 8, 8, 8, 12, 12, 8, 8, 12};
    uint32_t kind;

    if (r->end - p < 4)
        return refuse(r, p, CUT);
    kind = word(p) >> 16;
    if (kind < 2 || kind > 9)
        return refuse(r, p, BAD_KIND);
    return refuse(r, p, (word(p) & 0xffff) != lengths[kind] ? BAD_LENGTH : CUT);
}

/* Reading goes on past too large a value, because any other fault is told before it. */
static COLD uint64_t too_big(struct reader *r, const uint8_t *start)
{
    if (r->big == 0)
        r->big = (uint64_t)(start - r->sheet);
    return 0;
}

static inline struct part ended(struct reader *r, const uint8_t *start, const uint8_t *next, uint64_t value)
{
    return (struct part){next, value > LIMIT ? too_big(r, start) : value};
}

static INLINE struct part construct(struct reader *r, const uint8_t *p, unsigned left, enum standing standing);

/* Reads the construct after c in its place; whether it was good. */
static INLINE int is_read(struct reader *r, struct part *c, unsigned left, enum standing standing)
{
    *c = construct(r, c->next, left, standing);
    return c->next != NULL;
}

static struct part sequence(struct reader *r, const uint8_t *start, unsigned left, enum standing standing)
{
    uint32_t n = word(start + 4);
    enum standing rest = standing > IN_ALTERNATIVE ? IN_ALTERNATIVE : standing;
    struct part c = {start + 8, 0};
    uint64_t sum = 0;

    if (n > 1000 || left == 0)
        return refuse(r, start, n > 1000 ? BAD_FIELD : TOO_DEEP);
    r->work += n;
    standing = standing == BRANCH ? FIRST_OF_BRANCH : standing == LAST_BRANCH ? FIRST_OF_LAST : rest;
    for (; n != 0; n--, standing = rest) {
        if (!is_read(r, &c, left - 1, standing))
            return c;
        sum += c.value;
    }
    return ended(r, start, c.next, sum);
}

/* What marked branches add to their scope: held just over the limit, since a scope that pays so much is too big in any case. */
static void charge(struct reader *r, const struct marked *from, const struct marked *to, uint64_t plain)
{
    for (; from != to; from++) {
        if (from->value > plain)
            r->added += (from->limit < r->passes ? from->limit : r->passes) * (from->value - plain);
        if (r->added > LIMIT)
            r->added = LIMIT + 1;
    }
}

/* A marker opens a place in r->marks; its branch's value is known when the branch ends, the excess when the alternative ends. */
static struct part alternative(struct reader *r, const uint8_t *start, unsigned left, enum standing standing)
{
    uint32_t n = word(start + 4);
    struct marked *first = r->open;
    struct part c = {start + 8, 0};
    uint64_t condition, plain = 0;

    if (n < 2 || n > 256 || left == 0)
        return refuse(r, start, n < 2 || n > 256 ? BAD_FIELD : TOO_DEEP);
    r->work += 1 + n;
    if (!is_read(r, &c, left - 1, OUTSIDE))
        return c;
    condition = c.value;
    for (uint32_t i = 0; i < n; i++) {
        struct marked *mine = r->open;
        if (!is_read(r, &c, left - 1, standing == OUTSIDE ? OUTSIDE : mine - first == n - 1 ? LAST_BRANCH : BRANCH))
            return c;
        if (r->open != mine)
            mine->value = c.value;
        else if (c.value > plain)
            plain = c.value;
    }
    charge(r, first, r->open, plain);
    r->open = first;
    return ended(r, start, c.next, condition + plain);
}

/* The body of a counted loop, after c; adds to paid what its markers add, if the loop is their scope. */
static INLINE int is_body_read(struct reader *r, struct part *c, unsigned left, enum standing standing, uint64_t count, uint32_t scope,
                               uint64_t *paid)
{
    uint64_t passes = r->passes, added = r->added;
    int good;

    if (scope == 0 && standing != IN_SCOPE)
        return is_read(r, c, left, OUTSIDE);
    r->passes = scope == 1 ? count : passes * count < HIGHEST ? passes * count : HIGHEST;
    if (scope == 1)
        r->added = 0;
    good = is_read(r, c, left, IN_SCOPE);
    r->passes = passes;
    if (scope == 1) {
        *paid += r->added;
        r->added = added;
    }
    return good;
}

static struct part head_loop(struct reader *r, const uint8_t *start, unsigned left, enum standing standing)
{
    uint64_t count, condition, value;
    struct part c;

    if (r->end - start < 12)
        return refuse(r, start, CUT);
    count = word(start + 4);
    if (count > HIGHEST || word(start + 8) > 1 || left == 0)
        return refuse(r, start, count > HIGHEST || word(start + 8) > 1 ? BAD_FIELD : TOO_DEEP);
    r->work += 4;
    c.next = start + 12;
    if (!is_read(r, &c, left - 1, OUTSIDE))
        return c;
    value = c.value;
    if (!is_read(r, &c, left - 1, OUTSIDE))
        return c;
    condition = c.value;
    if (!is_body_read(r, &c, left - 1, standing, count, word(start + 8), &value))
        return c;
    value += condition + count * (c.value + condition);
    if (!is_read(r, &c, left - 1, OUTSIDE))
        return c;
    return ended(r, start, c.next, value + c.value);
}

static struct part tail_loop(struct reader *r, const uint8_t *start, unsigned left, enum standing standing)
{
    uint64_t count, body, value = 0;
    struct part c;

    if (r->end - start < 12)
        return refuse(r, start, CUT);
    count = word(start + 4);
    if (count - 1 >= HIGHEST || word(start + 8) > 1 || left == 0)
        return refuse(r, start, count - 1 >= HIGHEST || word(start + 8) > 1 ? BAD_FIELD : TOO_DEEP);
    r->work += 3;
    c.next = start + 12;
    if (!is_body_read(r, &c, left - 1, standing, count, word(start + 8), &value))
        return c;
    body = c.value;
    if (!is_read(r, &c, left - 1, OUTSIDE))
        return c;
    value += count * (body + c.value);
    if (!is_read(r, &c, left - 1, OUTSIDE))
        return c;
    return ended(r, start, c.next, value + c.value);
}

static struct part timed_loop(struct reader *r, const uint8_t *start, unsigned left)
{
    struct part c = {start + 8, 0};

    if (left == 0)
        return refuse(r, start, TOO_DEEP);
    r->work++;
    if (!is_read(r, &c, left - 1, OUTSIDE))
        return c;
    return ended(r, start, c.next, word(start + 4) + c.value);
}

static struct part marker(struct reader *r, const uint8_t *p, unsigned left, enum standing standing)
{
    if (r->end - p < 12)
        return refuse(r, p, CUT);
    if (word(p + 4) > HIGHEST || left == 0)
        return refuse(r, p, word(p + 4) > HIGHEST ? BAD_FIELD : TOO_DEEP);
    if (standing != FIRST_OF_BRANCH)
        return refuse(r, p, standing == FIRST_OF_LAST ? NO_PLAIN_BRANCH : STRAY_MARKER);
    r->open->limit = word(p + 4);
    r->open++;
    return (struct part){p + 12, word(p + 8)};
}

/* Inlined where a construct is read: most are primitives, and take no call then. */
static INLINE struct part construct(struct reader *r, const uint8_t *p, unsigned left, enum standing standing)
{
    uint32_t first;

    if (r->end - p < 8)
        return fault(r, p);
    first = word(p + 4);
    if (word(p) == PRIMITIVE && left != 0)
        return (struct part){p + 8, first};
    switch (word(p)) {
    case PRIMITIVE:
        return refuse(r, p, TOO_DEEP);
    case CALL:
        if (first - 1 >= r->done || left == 0)
            return refuse(r, p, first - 1 >= r->done ? BAD_CALL : TOO_DEEP);
        return (struct part){p + 8, r->bounds[first - 1]};
    case SEQUENCE:
        return sequence(r, p, left, standing);
    case ALTERNATIVE:
        return alternative(r, p, left, standing);
    case HEAD_LOOP:
        return head_loop(r, p, left, standing);
    case TAIL_LOOP:
        return tail_loop(r, p, left, standing);
    case TIMED_LOOP:
        return timed_loop(r, p, left);
    case MARKER:
        return marker(r, p, left, standing);
    default:
        return fault(r, p);
    }
}

/* The fault of a sheet's or a routine's record, which nothing else may stand for, or 0. */
static unsigned fault_of(const struct reader *r, const uint8_t *p, uint32_t head)
{
    if (r->end - p < 4)
        return CUT;
    if (word(p) != head)
        return word(p) >> 16 != head >> 16 ? BAD_KIND : BAD_LENGTH;
    return r->end - p < (head & 0xffff) ? CUT : 0;
}

static struct part routine(struct reader *r, const uint8_t *start)
{
    unsigned number = fault_of(r, start, ROUTINE);
    struct part c;

    if (number != 0)
        return refuse(r, start, number);
    r->work++;
    c.next = start + 8;
    if (!is_read(r, &c, DEEPEST, OUTSIDE))
        return c;
    return ended(r, start, c.next, word(start + 4) + c.value);
}

static struct part routines(struct reader *r)
{
    unsigned number = fault_of(r, r->sheet, SHEET);
    struct part c;
    uint32_t n;

    if (number != 0)
        return refuse(r, r->sheet, number);
    n = word(r->sheet + 8);
    if (word(r->sheet + 4) != 1 || n < 1 || n > PLACES)
        return refuse(r, r->sheet, BAD_FIELD);
    c.next = r->sheet + 12;
    while (r->done < n) {
        c = routine(r, c.next);
        if (c.next == NULL)
            return c;
        r->bounds[r->done++] = c.value;
    }
    if (c.next != r->end)
        return refuse(r, c.next, EXTRA);
    return r->big != 0 ? refuse(r, r->sheet + r->big, TOO_BIG) : c;
}

uint64_t plain_work(const uint8_t *sheet, size_t sheet_length, uint64_t *table, size_t table_length, uint64_t answer[3])
{
    struct reader r; /* not cleared: its bounds and marks are written before they are read */
    struct part c = {NULL, 0};

    r.sheet = sheet;
    r.end = sheet + sheet_length;
    r.open = r.marks;
    r.passes = r.added = r.big = r.number = r.place = r.work = r.done = 0;
    if (table_length < PLACES)
        r.number = NO_ROOM;
    else if (sheet_length > LONGEST)
        r.number = TOO_LONG;
    else
        c = routines(&r);
    if (c.next != NULL)
        memcpy(table, r.bounds, r.done * sizeof r.bounds[0]);
    answer[0] = r.number;
    answer[1] = r.place;
    answer[2] = c.value;
    return c.next != NULL ? r.work : 0;
}

void plain_answer(const uint8_t *sheet, size_t sheet_length, uint64_t *table, size_t table_length, uint64_t answer[3])
{
    plain_work(sheet, sheet_length, table, table_length, answer);
}
