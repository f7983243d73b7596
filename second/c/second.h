/* A second implementation of moult.h's functions, under the prefix second_: written from RFC 8817,
   RFC 8130 and docs/FORMAT.md, and apart from the library and from second/rust. The C tests and the
   fuzzer compare the library with it, and the benchmark measures it beside the library. */
#ifndef SECOND_H
#define SECOND_H

#include "moult.h"

/* One walk answers everything about a payload but its rows and bodies; all but number and place is
   0 where refused. */
typedef struct {
    uint32_t number;
    uint32_t rate;
    size_t place;
    size_t frames;
    size_t octets; /* of the bodies */
    size_t ticks;
} second_walked;

/* What a row list comes to: octets of the bodies and on the wire, and ticks; or its refusal, with all
   others 0. */
typedef struct {
    uint32_t number;
    size_t place;
    size_t bodies;
    size_t wire;
    size_t ticks;
} second_row_totals;

second_row_totals second_check_rows(const uint16_t *rows, size_t frames);
/* The octets on the wire of a frame whose row has passed. */
size_t second_wire_octets(uint16_t kind, uint16_t tc);

second_walked second_walk(const uint8_t *payload, size_t n);
second_walked second_walk_session(uint32_t agreed, uint32_t rate, const uint8_t *payload, size_t n);

int32_t second_count(const uint8_t *payload, size_t n);
moult_reading second_read(const uint8_t *payload, size_t n, uint16_t *rows, size_t rows_n,
                          uint8_t *bodies, size_t bodies_n);
size_t second_body_octets(uint16_t kind, uint16_t tc);
moult_writing second_write(const uint16_t *rows, size_t rows_n, const uint8_t *bodies,
                           size_t bodies_n, uint8_t *out, size_t out_n);
moult_ticks second_packet_ticks(const uint8_t *payload, size_t n);
moult_millis second_ptime(uint32_t rate, size_t frames);
moult_part second_augmentation(const uint8_t *payload, size_t n, size_t row);
moult_part second_frame_or(const uint8_t *payload, size_t n, size_t row, const uint8_t *stand_in,
                           size_t stand_in_n);
moult_reading second_read_session(uint32_t agreed, uint32_t rate, const uint8_t *payload, size_t n,
                                  uint16_t *rows, size_t rows_n, uint8_t *bodies, size_t bodies_n);
moult_writing second_write_session(uint32_t agreed, uint32_t rate, const uint16_t *rows,
                                   size_t rows_n, const uint8_t *bodies, size_t bodies_n,
                                   uint8_t *out, size_t out_n);
moult_ticks second_packet_ticks_session(uint32_t agreed, uint32_t rate, const uint8_t *payload,
                                        size_t n);
moult_part second_augmentation_session(uint32_t agreed, uint32_t rate, const uint8_t *payload,
                                       size_t n, size_t row);
moult_part second_frame_or_session(uint32_t agreed, uint32_t rate, const uint8_t *payload, size_t n,
                                   size_t row, const uint8_t *stand_in, size_t stand_in_n);
moult_settings_reading second_settings_read(const uint8_t *text, size_t n);
moult_writing second_settings_write(uint16_t first, uint16_t second, uint16_t third, uint16_t tcmax,
                                    uint8_t *out, size_t out_n);
moult_writing second_unpack(uint8_t mode, const uint8_t *body, size_t body_n, uint16_t *fields,
                            size_t fields_n);
moult_writing second_pack(uint8_t mode, const uint16_t *fields, size_t fields_n, uint8_t *out,
                          size_t out_n);
moult_entry second_journal_entry_at(const uint8_t *journal, size_t n, size_t at);
moult_writing second_journal_write_entry(uint64_t ticks, uint64_t source, const uint8_t *payload,
                                         size_t payload_n, uint8_t *out, size_t out_n);
moult_record second_record_empty(void);
moult_record_change second_record_push(moult_record record, uint16_t kind, uint16_t tc);
moult_record_change second_record_pop(moult_record record);
moult_record_change second_record_replace(moult_record record, size_t row, uint16_t kind,
                                          uint16_t tc);
size_t second_record_rows(moult_record record);
size_t second_record_octets(moult_record record);
uint32_t second_record_ticks(moult_record record);
moult_row second_record_row(moult_record record, size_t row);
moult_start second_record_start(moult_record record, size_t row);

#endif
