// The index: its calls, and its words as docs/LAYOUT.md lists them.
#ifndef INDEX_H
#define INDEX_H

#include <stdbool.h>
#include <stddef.h>
#include "records.h"

#define STATIONS 8
#define NONE 4294967295u

// The code of a call that was taken back.
#define WITHDRAWN 11

// The calls of crate c_calls. A slice of words is lent as its first word and its length.
uint32_t index_open(uint32_t *words, size_t length, uint32_t places, uint32_t limit);
uint32_t index_open_scaled(uint32_t *words, size_t length, uint32_t places, uint32_t limit, uint32_t weight, uint32_t moisture,
                           uint32_t speed, uint32_t draw);
// Weak: an earlier library, which is measured in turns with this one, may not have it.
__attribute__((weak)) uint32_t index_open_ruled(uint32_t *words, size_t length, uint32_t places, uint32_t limit, uint32_t weight,
                                                uint32_t moisture, uint32_t speed, uint32_t draw, uint32_t rule);
uint32_t index_submit(uint32_t *words, size_t length, uint32_t s, uint32_t kind, int32_t grade, int32_t weight, int32_t moisture,
                      int32_t speed, int32_t draw, uint32_t curve);
uint32_t index_step(uint32_t *words, size_t length, uint32_t s);
uint32_t index_run(uint32_t *words, size_t length, uint32_t s);
uint32_t index_take(uint32_t *words, size_t length, uint32_t s);
uint32_t index_withdraw(uint32_t *words, size_t length, uint32_t s);
uint32_t index_report_number(const uint32_t *words, size_t length);
uint64_t index_report(const uint32_t *words, size_t length);
uint32_t index_audit_number(const uint32_t *words, size_t length);
bool index_audit(const uint32_t *words, size_t length);

// An index that was opened.
struct index {
    uint32_t *words;
    size_t length;
};

enum row_kind { SPARE, REMOVED, LEAF, CUT };

size_t words_for(uint32_t places);
void submit(struct index index, uint32_t s, struct call call);
void step(struct index index, uint32_t s);
struct answer take(struct index index, uint32_t s);
void withdraw(struct index index, uint32_t s);

// Whether the call of station s is unfinished.
int unfinished(struct index index, uint32_t s);

// Where the call of station s stands: its row, and the first row that it has missed.
uint32_t cursor_of(struct index index, uint32_t s);
uint32_t missed_of(struct index index, uint32_t s);

// The kind of a row; the parent of a leaf or a cut, NONE above NONE; the record of a leaf.
uint32_t kind_of(struct index index, uint32_t row);
uint32_t parent_of(struct index index, uint32_t row);
struct record record_at(struct index index, uint32_t row);

#endif
