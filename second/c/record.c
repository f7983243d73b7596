/* The packet record. It is a row list, and behind each operation all else is worked out afresh from
   that: no sum is carried on. */
#include "second.h"

#include <string.h>

/* One row more than a record holds. */
typedef struct {
    uint16_t numbers[MOULT_MAX_NUMBERS + 2];
    size_t rows;
} row_list;

/* The rows of a record; of one that no operation made, as many as it has room for. */
static row_list rows_of(const moult_record *record)
{
    row_list list = {{0}, record->rows};
    if (list.rows > MOULT_MAX_FRAMES)
        list.rows = MOULT_MAX_FRAMES;
    memcpy(list.numbers, record->numbers, list.rows * 2 * sizeof list.numbers[0]);
    return list;
}

static void put_row(row_list *list, size_t row, uint16_t kind, uint16_t tc)
{
    list->numbers[2 * row] = kind;
    list->numbers[2 * row + 1] = tc;
}

moult_record second_record_empty(void)
{
    moult_record record = MOULT_RECORD_EMPTY;
    return record;
}

static moult_record_change refused(moult_record record, uint32_t number, size_t place)
{
    moult_record_change change = {number, place, record};
    return change;
}

/* The record of these rows in place of `before`, if they may stand in one payload. */
static moult_record_change changed(moult_record before, const row_list *list)
{
    second_row_totals total = second_check_rows(list->numbers, list->rows);
    if (total.number)
        return refused(before, total.number, total.place);
    moult_record_change change = {0, 0, MOULT_RECORD_EMPTY};
    moult_record *record = &change.record;
    size_t start = 0;
    for (size_t i = 0; i < list->rows; i++) {
        record->starts[i] = (uint16_t)start;
        start += second_wire_octets(list->numbers[2 * i], list->numbers[2 * i + 1]);
    }
    memcpy(record->numbers, list->numbers, list->rows * 2 * sizeof list->numbers[0]);
    record->rows = list->rows;
    record->octets = total.wire;
    record->ticks = (uint32_t)total.ticks;
    return change;
}

moult_record_change second_record_push(moult_record record, uint16_t kind, uint16_t tc)
{
    row_list list = rows_of(&record);
    put_row(&list, list.rows++, kind, tc);
    return changed(record, &list);
}

moult_record_change second_record_pop(moult_record record)
{
    row_list list = rows_of(&record);
    if (list.rows == 0)
        return refused(record, MOULT_UNKNOWN, 0);
    list.rows--;
    return changed(record, &list);
}

moult_record_change second_record_replace(moult_record record, size_t row, uint16_t kind,
                                          uint16_t tc)
{
    row_list list = rows_of(&record);
    if (row >= list.rows)
        return refused(record, MOULT_UNKNOWN, 0);
    put_row(&list, row, kind, tc);
    return changed(record, &list);
}

size_t second_record_rows(moult_record record)
{
    return record.rows;
}

size_t second_record_octets(moult_record record)
{
    return record.octets;
}

uint32_t second_record_ticks(moult_record record)
{
    return record.ticks;
}

static int has_row(const moult_record *record, size_t row)
{
    return row < record->rows && row < MOULT_MAX_FRAMES;
}

moult_row second_record_row(moult_record record, size_t row)
{
    moult_row answer = {MOULT_UNKNOWN, 0, 0, 0};
    if (has_row(&record, row)) {
        answer.number = 0;
        answer.kind = record.numbers[2 * row];
        answer.tc = record.numbers[2 * row + 1];
    }
    return answer;
}

moult_start second_record_start(moult_record record, size_t row)
{
    moult_start answer = {MOULT_UNKNOWN, 0, 0};
    if (has_row(&record, row)) {
        answer.number = 0;
        answer.start = record.starts[row];
    }
    return answer;
}
