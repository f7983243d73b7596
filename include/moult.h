/* moult: reads and writes RTP payloads of MELPe and TSVCIS speech frames (RFC 8817), and tells
   their time, setting text (fmtp) and 600 bps fields (RFC 8130); keeps payloads in a journal, and a
   packet's frame starts in a record. Link with -lmoult, or with libmoult.a; it needs no library but
   C's. moult(3) has the whole story; this is a first host:

       uint16_t rows[MOULT_MAX_NUMBERS];
       uint8_t bodies[MOULT_MAX_OCTETS];
       moult_reading r = moult_read(payload, n, rows, MOULT_MAX_NUMBERS, bodies, MOULT_MAX_OCTETS);
       if (r.number != MOULT_ACCEPTED)
           printf("refused %u (%s), place %zu\n", r.number, moult_refusal_text(r.number), r.place);
       const uint8_t *body = bodies;
       for (size_t i = 0; i < r.rows; i++) {
           uint16_t kind = rows[2 * i], tc = rows[2 * i + 1];
           size_t octets = moult_body_octets(kind, tc);
           use_frame(kind, body, octets);
           body += octets;
       }

   A payload is what stands behind the RTP header: up to 1,400 octets, the frames one after
   another, oldest first. Each frame is given to the host as a row and a body. A row is two
   numbers: the frame's kind, and its TC, the number of augmentation octets of a TSVCIS frame (0
   for any other). A body is the frame's octets without the rate code bits and the count.

   Every call is a function of what it is lent. Buffers stay the caller's, nothing is kept after
   the call, nothing is allocated, no error is left in errno, and any thread may call at any time.
   Any octets of any length may be handed in. A pointer may be NULL where its length is 0. Buffers
   that are written must not overlap any other buffer lent in the same call.

   An answer with number 0 (and place 0) is accepted: the first places of the lent buffers are
   filled, as many as the answer reports, and everything beyond them is unchanged. Any other number
   is a refusal: its place says where or how much, all other values are 0 (a record is as it was),
   and no lent memory has changed.

   Later versions may add functions, kinds and refusal numbers. A host takes a number that it does
   not know for a refusal like any other, and steps over the body of a kind that it does not know
   by moult_body_octets. What is declared here stays as it is as long as the library is called
   libmoult.so.0. */
#ifndef MOULT_H
#define MOULT_H

#include <stddef.h>
#include <stdint.h>

#ifdef __cplusplus
extern "C" {
#endif

/* The version of this header, 0.1.0: 10,000 times the first number, 100 times the second, and the
   third. moult_version() is that of the library. */
#define MOULT_VERSION 100

/* Most octets of a payload, most frames in one, and the numbers of that many rows. */
#define MOULT_MAX_OCTETS 1400
#define MOULT_MAX_FRAMES 200
#define MOULT_MAX_NUMBERS 400
/* Octets that hold any setting text written, numbers that hold the fields of any mode, and the
   octets of a 600 bps body. */
#define MOULT_MAX_SETTINGS 31
#define MOULT_MAX_FIELDS 11
#define MOULT_BODY_600 7
/* Octets of the longest entry of a journal. */
#define MOULT_MAX_ENTRY 1412

/* Kinds of frames, the first number of a row, with the last octet of the frame on the wire. */
enum {
    MOULT_KIND_2400 = 1,          /* body of 7 octets, last at most 63; on the wire 0 to 63 */
    MOULT_KIND_1200 = 2,          /* body of 11 octets, last at most 1; on the wire 128, 129 */
    MOULT_KIND_600 = 3,           /* body of 7 octets, last at most 63; on the wire 64 to 127 */
    MOULT_KIND_COMFORT_NOISE = 4, /* body of 2 octets, last at most 31; on the wire 160 to 191 */
    MOULT_KIND_TSVCIS = 5,        /* body of 7 + TC octets, the seventh at most 63: a 2400 bps frame
                                     and its augmentation; TC is 1 to 255. On the wire its count
                                     follows: 192 + (TC - 15) for TC 15 to 77, else TC and 255 */
    MOULT_KIND_TSVCIS_LONG = 6    /* the same with a long count where a short one would do: TC is 15
                                     to 77; on the wire TC and 255 follow */
};

/* Refusal numbers. Payloads are read from the last frame to the first, and "unread" is how many
   octets were left then, the refused frame's included: its last octet is payload[place - 1]. */
enum {
    MOULT_ACCEPTED = 0,
    MOULT_TOO_LONG = 1,                /* place: 1400, the limit, also for over 200 rows; journal
                                          reader: where the entry begins */
    MOULT_FRAME_CUT = 2,               /* cut at its front; place: unread */
    MOULT_RESERVED_BITS = 3,           /* place: unread; writer: index in the lent bodies, counted
                                          from their start; fields: index in the body */
    MOULT_LONG_COUNT_ZERO = 4,         /* place: unread */
    MOULT_LONG_COUNT_SHORT_RANGE = 5,  /* no longer given: a long count of 15 to 77 makes kind 6 */
    MOULT_COMFORT_NOISE_NOT_LAST = 6,  /* place: unread; writer and record: row, from 0 */
    MOULT_AUGMENTATION_NOT_2400 = 7,   /* place: unread */
    MOULT_RATES_MIXED = 8,             /* place: unread (the later frames set the rate); writer and
                                          record: row, from 0 (the earlier rows do); in a session
                                          with framing the agreed rate is set before both */
    MOULT_NUMBERS_TOO_SHORT = 9,       /* number list; place: rows needed (two numbers each), or
                                          fields needed */
    MOULT_OCTETS_TOO_SHORT = 10,       /* octet buffer; place: octets needed */
    MOULT_ODD_ROWS = 11,               /* place: length of the row list */
    MOULT_UNKNOWN = 12,                /* kind, rate, row or number of frames; place: of a kind, in
                                          writer and record: row, from 0; else, also for an agreed
                                          rate and for a row that a record does not have, 0 */
    MOULT_WRONG_TC = 13,               /* place: row, from 0 */
    MOULT_WRONG_LENGTH = 14,           /* place: length needed */
    MOULT_WRONG_SETTINGS = 15,         /* text or settings; place: 0 */
    MOULT_WRONG_MODE = 16,             /* place: 0 */
    MOULT_FIELD_TOO_LARGE = 17,        /* place: field, from 0 */
    MOULT_BAD_NUMBER = 18,             /* in a journal; place: where the entry begins, from the
                                          journal's start; writer: 0 */
    MOULT_ENTRY_CUT = 19               /* cut short; place: where the entry begins */
};

/* A reading: rows (two numbers each) and body octets put into the lent buffers; the rate of the
   payload's coder frames (2400, 1200 or 600; 0 where there are none) and how long they last, in
   ticks of 1/8000 second. */
typedef struct {
    uint32_t number;
    uint32_t rate;
    size_t place;
    size_t rows;
    size_t octets;
    size_t ticks;
} moult_reading;

/* A writing: octets put into the lent buffer; for moult_unpack, fields. */
typedef struct {
    uint32_t number;
    size_t place;
    size_t octets;
} moult_writing;

/* A packet's time, in ticks of 1/8000 second. */
typedef struct {
    uint32_t number;
    size_t place;
    size_t ticks;
} moult_ticks;

/* A ptime, in milliseconds. */
typedef struct {
    uint32_t number;
    size_t place;
    size_t millis;
} moult_millis;

/* A part of the payload or, where stand_in is 1, of the stand-in: `length` octets from `start` on. */
typedef struct {
    uint32_t stand_in;
    size_t start;
    size_t length;
} moult_part;

/* One to three different rates out of 2400, 1200 and 600, the preferred one first, unused places
   0 and last; tcmax is 1 to 255. */
typedef struct {
    uint16_t first;
    uint16_t second;
    uint16_t third;
    uint16_t tcmax;
} moult_settings;

/* Settings read; all 0 where refused. */
typedef struct {
    uint32_t number;
    size_t place;
    moult_settings settings;
} moult_settings_reading;

/* What stands at an index of a journal. entries is 1 where it is an entry: its ticks of 1/8000 second
   since the entry before, its source number (what both mean for the first entry and for a source is
   the host's), and its payload, from start up to next, where the next entry begins.
   entries is 0 at the journal's end (number 0) and where refused, and so are all values. */
typedef struct {
    uint32_t number;
    uint32_t entries;
    size_t place;
    uint64_t ticks;
    uint64_t source;
    size_t start;
    size_t next;
} moult_entry;

/* A packet record: the rows of a packet, where each row's frame starts on the wire, and octets and
   ticks of them all. Unused places are 0. It is passed by value and may be copied, kept and compared
   member by member; a host changes it by moult_record_push, _pop and _replace only. */
typedef struct {
    uint16_t numbers[MOULT_MAX_NUMBERS]; /* kind and TC of each row */
    uint16_t starts[MOULT_MAX_FRAMES];   /* where each row's frame starts on the wire */
    size_t rows;
    size_t octets; /* of all frames on the wire */
    uint32_t ticks;
} moult_record;

/* The record of no rows, to initialise one with. */
#define MOULT_RECORD_EMPTY {{0}, {0}, 0, 0, 0}

/* What came of an operation on a record: where refused, the record is as it was. */
typedef struct {
    uint32_t number;
    size_t place;
    moult_record record;
} moult_record_change;

/* A row of a record. */
typedef struct {
    uint32_t number;
    uint16_t kind;
    uint16_t tc;
    size_t place;
} moult_row;

/* Where a row's frame starts on the wire, in octets from the payload's start. */
typedef struct {
    uint32_t number;
    size_t place;
    size_t start;
} moult_start;

/* The version of the library that is linked, as MOULT_VERSION. */
uint32_t moult_version(void);

/* Counts the frames of a payload of n octets: 0 to 200, or minus the refusal number (-1 to -8).
   Only the empty payload is 0. */
int32_t moult_count(const uint8_t *payload, size_t n);

/* Reads a payload of n octets: for each frame, oldest first, its kind and TC into rows, and its
   body into bodies.
   Refuses 1, then from the last frame to the first 2 (for a lone 255), 4, 3, 2, 6, 7, 8 with the
   place "unread";
   then 9 with the rows needed if rows_n, halved and rounded down, is too small, and 10 with the
   octets needed if bodies_n is. MOULT_MAX_NUMBERS and MOULT_MAX_OCTETS are enough for any payload. */
moult_reading moult_read(const uint8_t *payload, size_t n, uint16_t *rows, size_t rows_n,
                         uint8_t *bodies, size_t bodies_n);

/* The octets of the body of a row: 7, 11, 7, 2, and 7 + TC for kinds 5 and 6. 0 where the library
   does not know the kind or the TC is wrong for it; no body has 0 octets, and it knows every row
   that moult_read gives. */
size_t moult_body_octets(uint16_t kind, uint16_t tc);

/* Writes the payload of rows (rows_n numbers, two a frame) and bodies (one after another) into out.
   Refuses 11 with rows_n; 1 for more than 200 rows; row by row, with the row as place, 12, 13, 6
   (the comfort noise row that another follows), 8 (the first row whose rate differs from an earlier
   one); 1 for more than 1,400 octets; 14 with the bodies' length needed; 3 with the index of the
   first bad body end in bodies; 10 with the octets needed. MOULT_MAX_OCTETS are enough for any
   payload. */
moult_writing moult_write(const uint16_t *rows, size_t rows_n, const uint8_t *bodies,
                          size_t bodies_n, uint8_t *out, size_t out_n);

/* The ticks of 1/8000 second that a payload's coder frames last: 180, 540 or 720 each at 2400, 1200
   or 600 bps; comfort noise adds none. Refuses as moult_read does, 1 to 8. */
moult_ticks moult_packet_ticks(const uint8_t *payload, size_t n);

/* The ptime for settings, in milliseconds rounded up, of 1 to 200 coder frames at rate 2400, 1200 or
   600. (How long a payload lasts is its ticks, eight to a millisecond.)
   Refuses 12 with place 0 for any other rate or number of frames. */
moult_millis moult_ptime(uint32_t rate, size_t frames);

/* Where the augmentation of a row (from 0) stands in the payload; start 0 and length 0 if the
   payload is refused, the row is missing or its frame is not TSVCIS (kind 5 or 6). stand_in is
   0. */
moult_part moult_augmentation(const uint8_t *payload, size_t n, size_t row);

/* Where the wire octets of a row (from 0) stand in the payload, rate code bits and count included;
   if the payload is refused or the row missing, the whole stand-in, whose octets are never looked
   at. The part is of the caller's own buffer, so it lives as long as that does. */
moult_part moult_frame_or(const uint8_t *payload, size_t n, size_t row, const uint8_t *stand_in,
                          size_t stand_in_n);

/* Sessions. Bit 55 (B_55, value 64 in the seventh octet of a 2400 or 600 bps frame) may alternate as
   an end-to-end framing bit; it then says nothing about the rate. The five functions below are those
   of the same names without _session in a session: where `agreed` is 0, framing is not agreed,
   `rate` is not looked at, and they answer as those do. Any other number is agreed, with the rate
   2400 or 600. Then
   - a last octet of 0 to 127 is a frame of that rate, kind 1 or 3; its octets are its body as it
     stands, bit 55 included;
   - the ends of bodies of kinds 1, 3, 5 and 6 are at most 127, to the reader (7) and the writer (3);
   - coder frames are all of that rate (8), a frame alone, too: kind 2 has no place then, and at 600
     neither have kinds 5 and 6.
   Any other agreed rate is refused 12 with place 0, before all else; the views then answer as for a
   payload that is refused. All functions that take no session work as not agreed. moult_unpack
   refuses 3 for a body with bit 55 set, so a host clears that bit before it unpacks. */
moult_reading moult_read_session(uint32_t agreed, uint32_t rate, const uint8_t *payload, size_t n,
                                 uint16_t *rows, size_t rows_n, uint8_t *bodies, size_t bodies_n);
moult_writing moult_write_session(uint32_t agreed, uint32_t rate, const uint16_t *rows,
                                  size_t rows_n, const uint8_t *bodies, size_t bodies_n,
                                  uint8_t *out, size_t out_n);
moult_ticks moult_packet_ticks_session(uint32_t agreed, uint32_t rate, const uint8_t *payload,
                                       size_t n);
moult_part moult_augmentation_session(uint32_t agreed, uint32_t rate, const uint8_t *payload,
                                      size_t n, size_t row);
moult_part moult_frame_or_session(uint32_t agreed, uint32_t rate, const uint8_t *payload, size_t n,
                                  size_t row, const uint8_t *stand_in, size_t stand_in_n);

/* Reads a setting text of n octets, such as "bitrate=2400,600;tcmax=101" (no closing NUL): what
   stands behind "a=fmtp:97 ". A missing bitrate means 2400 only, a missing tcmax 35, so the empty
   text is read; names in any letter case.
   Refuses 15 with place 0: any other name, a name or rate twice, an empty value, a leading zero, a
   space, a comma or semicolon too many. A host takes out parameters of others first. */
moult_settings_reading moult_settings_read(const uint8_t *text, size_t n);

/* Writes settings, in moult_settings' order, as text: bitrate and then tcmax, lower case, no
   closing NUL.
   Refuses 15 with place 0, then 10 with the octets needed; MOULT_MAX_SETTINGS are enough. */
moult_writing moult_settings_write(uint16_t first, uint16_t second, uint16_t third, uint16_t tcmax,
                                   uint8_t *out, size_t out_n);

/* Unpacks a 600 bps body into the fields of mode 1 to 3; `octets` of the answer counts fields.
   Refuses 16 with place 0; 14 with place 7; 3 with place 6; 9 with the fields needed (11, 10, 10). */
moult_writing moult_unpack(uint8_t mode, const uint8_t *body, size_t body_n, uint16_t *fields,
                           size_t fields_n);

/* Packs exactly the fields of mode 1 to 3 into a body of 7 octets.
   Refuses 16 with place 0; 14 with the fields needed; 17 with the first field too large; 10 with
   place 7. */
moult_writing moult_pack(uint8_t mode, const uint16_t *fields, size_t fields_n, uint8_t *out,
                         size_t out_n);

/* The entry at index `at` of a journal of n octets: 0, then `next` of each entry, until entries is 0.
   An index at or behind the journal's end is the end.
   Refuses with place `at`: at ticks, source and length in turn 18 from the first octet that leaves no
   good number possible (below 2^32, in the shortest form), 19 where the journal ends inside it; then
   1 for a length over 1,400; 19 for a payload cut short. The entries before a refusal stand. */
moult_entry moult_journal_entry_at(const uint8_t *journal, size_t n, size_t at);

/* Writes one entry of a journal into out; entries one after another are a journal. Any payload of up
   to 1,400 octets may be written, one that moult_read refuses, too.
   Refuses 18 with place 0 for ticks or source of 2^32 or more; 1 with place 1400; 10 with the octets
   needed. MOULT_MAX_ENTRY are enough for any entry. */
moult_writing moult_journal_write_entry(uint64_t ticks, uint64_t source, const uint8_t *payload,
                                        size_t payload_n, uint8_t *out, size_t out_n);

/* Packet records, for a host that asks for frame starts again and again: they are kept, not added up.

       moult_record record = MOULT_RECORD_EMPTY;
       moult_record_change c = moult_record_push(record, MOULT_KIND_2400, 0);
       if (c.number == MOULT_ACCEPTED)
           record = c.record;
       size_t start = moult_record_start(record, 0).start;

   push takes a row at the end, pop drops the last row, replace puts another in place of a row (from
   0). Behind each, the record is that of the rows that result.
   They refuse 12 with place 0 where the row to drop or to replace is missing; then what moult_write
   refuses of rows alone, for all rows that would result: 1 with place 1400 for more than 200 rows;
   row by row, with the row as place, 12, 13, 6, 8; 1 with place 1400 for more than 1,400 octets. So
   the place may be another row than the one handed in.
   Records work as not agreed (sessions, above). A record that none of these functions made is taken
   without a fault; of it is promised only that a refusal changes nothing. */
moult_record moult_record_empty(void);
moult_record_change moult_record_push(moult_record record, uint16_t kind, uint16_t tc);
moult_record_change moult_record_pop(moult_record record);
moult_record_change moult_record_replace(moult_record record, size_t row, uint16_t kind,
                                         uint16_t tc);

/* How many rows a record has, the octets of their frames on the wire, and the ticks of 1/8000 second
   that they last. */
size_t moult_record_rows(moult_record record);
size_t moult_record_octets(moult_record record);
uint32_t moult_record_ticks(moult_record record);

/* A row (from 0) of a record, and where its frame starts on the wire. Refuse 12 with place 0 where
   the row is missing. */
moult_row moult_record_row(moult_record record, size_t row);
moult_start moult_record_start(moult_record record, size_t row);

/* A refusal number in English, for a log. Of a moult_count below 0 it is the number with the sign
   taken away. */
static inline const char *moult_refusal_text(uint32_t number)
{
    switch (number) {
    case MOULT_ACCEPTED:
        return "accepted";
    case MOULT_TOO_LONG:
        return "too long";
    case MOULT_FRAME_CUT:
        return "frame cut at the front";
    case MOULT_RESERVED_BITS:
        return "reserved or foreign bits set";
    case MOULT_LONG_COUNT_ZERO:
        return "long count is 0";
    case MOULT_LONG_COUNT_SHORT_RANGE:
        return "long count of 15 to 77";
    case MOULT_COMFORT_NOISE_NOT_LAST:
        return "comfort noise not last";
    case MOULT_AUGMENTATION_NOT_2400:
        return "augmentation not behind a 2400 bps frame";
    case MOULT_RATES_MIXED:
        return "rates mixed";
    case MOULT_NUMBERS_TOO_SHORT:
        return "number list too short";
    case MOULT_OCTETS_TOO_SHORT:
        return "octet buffer too short";
    case MOULT_ODD_ROWS:
        return "odd row list";
    case MOULT_UNKNOWN:
        return "unknown kind, rate, row or number of frames";
    case MOULT_WRONG_TC:
        return "TC wrong for the kind";
    case MOULT_WRONG_LENGTH:
        return "length wrong";
    case MOULT_WRONG_SETTINGS:
        return "setting text or settings wrong";
    case MOULT_WRONG_MODE:
        return "mode not 1 to 3";
    case MOULT_FIELD_TOO_LARGE:
        return "field too large";
    case MOULT_BAD_NUMBER:
        return "bad number";
    case MOULT_ENTRY_CUT:
        return "entry cut short";
    default:
        return "refused, by a number that this header does not know";
    }
}

/* A kind in English. */
static inline const char *moult_kind_text(uint16_t kind)
{
    switch (kind) {
    case MOULT_KIND_2400:
        return "2400 bps";
    case MOULT_KIND_1200:
        return "1200 bps";
    case MOULT_KIND_600:
        return "600 bps";
    case MOULT_KIND_COMFORT_NOISE:
        return "comfort noise";
    case MOULT_KIND_TSVCIS:
        return "TSVCIS";
    case MOULT_KIND_TSVCIS_LONG:
        return "TSVCIS with a long count";
    default:
        return "a kind that this header does not know";
    }
}

#ifdef __cplusplus
}
#endif

#endif
