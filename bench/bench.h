/* The two calculators side by side. */
#ifndef BENCH_H
#define BENCH_H

#include "plain.h"
#include "sheets.h"

/* The archive's entries, as target/staticlib/libboundary.a has them: the one that is timed, and the one that hands the count over. */
void maxt_answer(const uint8_t *sheet, size_t sheet_length, uint64_t *table, size_t table_length, uint64_t answer[3]);
uint64_t maxt_work(const uint8_t *sheet, size_t sheet_length, uint64_t *table, size_t table_length, uint64_t answer[3]);

typedef void calculator(const uint8_t *, size_t, uint64_t *, size_t, uint64_t *);
typedef uint64_t counter(const uint8_t *, size_t, uint64_t *, size_t, uint64_t *);

struct named {
    const char *name;
    calculator *answer;
};

/* plain, archive; a null name ends the list. */
extern const struct named calculators[];

/* The smallest stack that each calculator needs for any of the sheets, and all of them served with 256 KB. 0 if all went well. */
int stacks(void);

#endif
