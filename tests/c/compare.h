/* The library beside the second C implementation, call by call: the same answer, the same memory
   behind it, and nothing read or written outside what was lent. A difference is named, and ends the
   run. What is lent to be filled has room for what is needed and `more` (at least none): -1 is one
   too few. Inputs have at most COMPARE_OCTETS octets or half as many numbers. */
#ifndef COMPARE_H
#define COMPARE_H

#include "second.h"

enum { COMPARE_OCTETS = 4096 };

/* Inputs are lent where memory ends behind them (0, as at the start) or in front of them (1). */
void compare_in_front(int in_front);

/* A session as moult_read_session takes it. Where framing is not agreed, the functions without a
   session are compared, too. */
typedef struct {
    uint32_t agreed;
    uint32_t rate;
} compare_session;

void compare_payload(compare_session in, const uint8_t *payload, size_t n, int more_numbers,
                     int more_octets);
void compare_write(compare_session in, const uint16_t *rows, size_t rows_n, const uint8_t *bodies,
                   size_t bodies_n, int more);
void compare_body_octets(uint16_t kind, uint16_t tc);
void compare_ptime(uint32_t rate, size_t frames);
void compare_settings_read(const uint8_t *text, size_t n);
void compare_settings_write(moult_settings settings, int more);
void compare_unpack(uint8_t mode, const uint8_t *body, size_t body_n, int more);
void compare_pack(uint8_t mode, const uint16_t *fields, size_t fields_n, int more);
/* What stands at index `at`, and every entry from the start on. */
void compare_journal(const uint8_t *journal, size_t n, size_t at);
void compare_entry_write(uint64_t ticks, uint64_t source, const uint8_t *payload, size_t n,
                         int more);

/* An operation on a packet record; `row` is looked at where it replaces. */
enum { COMPARE_PUSH, COMPARE_POP, COMPARE_REPLACE };
typedef struct {
    int what;
    size_t row;
    uint16_t kind;
    uint16_t tc;
} compare_operation;

/* A run of operations from the empty record, compared behind each: all of the record, and what it
   says of the rows at both its ends, of two indices that have none, and of `row`. Gives the record at
   the end. */
moult_record compare_record(const compare_operation *run, size_t n, size_t row);
/* What the record says of every row. */
void compare_rows(moult_record record);
/* Each operation and every question on a record that no operation made: there is no fault, and a
   refusal changes nothing. */
void compare_made_up(moult_record record, compare_operation values);

#endif
