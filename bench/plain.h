/* The calculator of document 01 in plain C: what the proved one is measured against. */
#ifndef PLAIN_H
#define PLAIN_H

#include <stddef.h>
#include <stdint.h>

/* Same promise as the archive's maxt_answer: answer is number, place, bound. It counts the constructs too, and drops the number. */
void plain_answer(const uint8_t *sheet, size_t sheet_length, uint64_t *table, size_t table_length, uint64_t answer[3]);

/* Same promise as the archive's maxt_work: returns the number of constructs, 0 where the sheet is refused. */
uint64_t plain_work(const uint8_t *sheet, size_t sheet_length, uint64_t *table, size_t table_length, uint64_t answer[3]);

#endif
