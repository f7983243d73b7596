/* Reader, writer, count, times and views: a walk from the end, then a second pass that fills;
   nothing is written before all checks have passed. What differs by session is written once, over
   the rate agreed: each function without a session is the same with a rate that is known to be 0. */
#include "second.h"

#include <string.h>

/* What a frame's kind fixes. */
typedef struct {
    uint16_t rate; /* 0 for comfort noise, which has none */
    uint8_t base;  /* octets of the body without augmentation */
    uint8_t end;   /* largest last octet of the base, in a body */
    uint8_t code;  /* rate code bits that stand in it on the wire */
    uint8_t least; /* TC, from .. */
    uint8_t most;  /* .. to */
} kind_row;

static const kind_row kinds[] = {
    [MOULT_KIND_2400] = {2400, 7, 63, 0, 0, 0},
    [MOULT_KIND_1200] = {1200, 11, 1, 128, 0, 0},
    [MOULT_KIND_600] = {600, 7, 63, 64, 0, 0},
    [MOULT_KIND_COMFORT_NOISE] = {0, 2, 31, 160, 0, 0},
    [MOULT_KIND_TSVCIS] = {2400, 7, 63, 0, 1, 255},
    [MOULT_KIND_TSVCIS_LONG] = {2400, 7, 63, 0, 15, 77},
};

/* ---- sessions: the rate agreed, 2400 or 600; 0 where framing is not agreed */

#define ONE_FOR_ALL_SESSIONS static inline __attribute__((always_inline))

/* The compiler lays out a function before it knows the session: it shall do so for not agreed. */
#define FRAMED(agreed) __builtin_expect_with_probability((agreed) != 0, 0, 1.0)

static inline int is_session(uint32_t agreed, uint32_t rate)
{
    return !agreed || rate == 2400 || rate == 600;
}

static inline uint32_t rate_agreed(uint32_t agreed, uint32_t rate)
{
    return agreed ? rate : 0;
}

/* What a kind fixes in a session. Bit 55 has the value 64 in the last octet of a base of seven
   octets; where framing is agreed it is the sender's, and stays in the body. */
static inline kind_row kind_in(uint32_t agreed, uint16_t kind)
{
    kind_row k = kinds[kind];
    if (FRAMED(agreed) && k.base == 7) {
        k.end = 127;
        k.code = 0;
    }
    return k;
}

/* ---- rows */

static inline int is_kind(uint16_t kind)
{
    return kind > 0 && kind < sizeof kinds / sizeof kinds[0];
}

static inline int fits_kind(uint16_t kind, uint16_t tc)
{
    return tc >= kinds[kind].least && tc <= kinds[kind].most;
}

static inline size_t body_octets(uint16_t kind, size_t tc)
{
    return kinds[kind].base + tc;
}

static inline int in_short_range(size_t tc)
{
    return tc >= 15 && tc <= 77;
}

/* Kind 5 has a short count where TC allows one, else a long one; kind 6 always a long one; kinds 1
   to 4 have none. */
static inline size_t count_octets(uint16_t kind, size_t tc)
{
    if (tc == 0)
        return 0;
    return kind == MOULT_KIND_TSVCIS && in_short_range(tc) ? 1 : 2;
}

static inline size_t ticks_of(uint32_t rate)
{
    return rate == 2400 ? 180 : rate == 1200 ? 540 : rate == 600 ? 720 : 0;
}

size_t second_body_octets(uint16_t kind, uint16_t tc)
{
    return is_kind(kind) && fits_kind(kind, tc) ? body_octets(kind, tc) : 0;
}

/* ---- from octets */

typedef struct {
    uint16_t kind;
    size_t tc;
    size_t base; /* as in its kind's row, which is a constant where a frame is named */
    size_t wire; /* its octets */
    uint32_t rate;
    uint32_t code;
} frame;

static inline frame frame_of(uint32_t agreed, uint16_t kind, size_t tc, size_t count)
{
    kind_row k = kind_in(agreed, kind);
    frame f = {kind, tc, k.base, k.base + tc + count, k.rate, k.code};
    return f;
}

/* Names the frame that ends at `unread`; gives 0 or the refusal number. */
ONE_FOR_ALL_SESSIONS uint32_t name(uint32_t agreed, const uint8_t *p, size_t unread, frame *f)
{
    uint32_t last = p[unread - 1];
    if (FRAMED(agreed) ? agreed == 2400 && last < 128 : last < 64) {
        *f = frame_of(agreed, MOULT_KIND_2400, 0, 0);
    } else if (last < 128) {
        *f = frame_of(agreed, MOULT_KIND_600, 0, 0);
    } else if (last < 130) {
        *f = frame_of(agreed, MOULT_KIND_1200, 0, 0);
    } else if (last < 160) {
        return MOULT_RESERVED_BITS;
    } else if (last < 192) {
        *f = frame_of(agreed, MOULT_KIND_COMFORT_NOISE, 0, 0);
    } else if (last < 255) {
        *f = frame_of(agreed, MOULT_KIND_TSVCIS, last - 192 + 15, 1);
    } else {
        if (unread == 1)
            return MOULT_FRAME_CUT;
        size_t tc = p[unread - 2];
        if (tc == 0)
            return MOULT_LONG_COUNT_ZERO;
        if (in_short_range(tc))
            *f = frame_of(agreed, MOULT_KIND_TSVCIS_LONG, tc, 2);
        else
            *f = frame_of(agreed, MOULT_KIND_TSVCIS, tc, 2);
    }
    return 0;
}

/* The same, of a frame that a walk has passed. */
ONE_FOR_ALL_SESSIONS frame passed(uint32_t agreed, const uint8_t *p, size_t unread)
{
    frame f;
    if (name(agreed, p, unread, &f))
        __builtin_unreachable();
    return f;
}

/* The frame that ends at `unread`, `later` frames being read, with the rate that coder frames must
   have (0 for any); gives 0 or the refusal number. */
ONE_FOR_ALL_SESSIONS uint32_t step(uint32_t agreed, const uint8_t *p, size_t unread, size_t later,
                                   uint32_t rate, frame *f)
{
    uint32_t number = name(agreed, p, unread, f);
    if (number)
        return number;
    if (unread < f->wire)
        return MOULT_FRAME_CUT;
    if (f->kind == MOULT_KIND_COMFORT_NOISE)
        return later ? MOULT_COMFORT_NOISE_NOT_LAST : 0;
    if (f->tc && p[unread - f->wire + 6] > (FRAMED(agreed) ? 127 : 63))
        return MOULT_AUGMENTATION_NOT_2400;
    if (rate && rate != f->rate)
        return MOULT_RATES_MIXED;
    return 0;
}

static inline second_walked walk_refused(uint32_t number, size_t place)
{
    second_walked w = {number, 0, place, 0, 0, 0};
    return w;
}

/* Inlined where it is asked, so that its answer stays in registers, too. Until a coder frame is read
   the rate agreed holds, which is not reported. */
ONE_FOR_ALL_SESSIONS second_walked walk(uint32_t agreed, const uint8_t *p, size_t n)
{
    second_walked w = {0, 0, 0, 0, 0, 0};
    size_t coders = 0;
    if (n > MOULT_MAX_OCTETS)
        return walk_refused(MOULT_TOO_LONG, MOULT_MAX_OCTETS);
    for (size_t unread = n; unread;) {
        frame f;
        uint32_t rate = FRAMED(agreed) && !w.rate ? agreed : w.rate;
        uint32_t number = step(agreed, p, unread, w.frames, rate, &f);
        if (number)
            return walk_refused(number, unread);
        unread -= f.wire;
        w.frames++;
        w.octets += f.base + f.tc;
        if (f.rate) {
            w.rate = f.rate;
            coders++;
        }
    }
    w.ticks = coders * ticks_of(w.rate);
    return w;
}

/* Of any two numbers: an agreed rate that there is not is refused before all else. */
static inline second_walked walk_session(uint32_t agreed, uint32_t rate, const uint8_t *p, size_t n)
{
    if (!is_session(agreed, rate))
        return walk_refused(MOULT_UNKNOWN, 0);
    return walk(rate_agreed(agreed, rate), p, n);
}

second_walked second_walk(const uint8_t *payload, size_t n)
{
    return walk(0, payload, n);
}

second_walked second_walk_session(uint32_t agreed, uint32_t rate, const uint8_t *payload, size_t n)
{
    return walk_session(agreed, rate, payload, n);
}

int32_t second_count(const uint8_t *payload, size_t n)
{
    second_walked w = walk(0, payload, n);
    return w.number ? -(int32_t)w.number : (int32_t)w.frames;
}

static moult_ticks ticks_walked(second_walked w)
{
    moult_ticks t = {w.number, w.place, w.ticks};
    return t;
}

moult_ticks second_packet_ticks(const uint8_t *payload, size_t n)
{
    return ticks_walked(walk(0, payload, n));
}

moult_ticks second_packet_ticks_session(uint32_t agreed, uint32_t rate, const uint8_t *payload,
                                        size_t n)
{
    return ticks_walked(walk_session(agreed, rate, payload, n));
}

moult_millis second_ptime(uint32_t rate, size_t frames)
{
    moult_millis t = {0, 0, 0};
    if (ticks_of(rate) == 0 || frames == 0 || frames > MOULT_MAX_FRAMES)
        t.number = MOULT_UNKNOWN;
    else
        t.millis = (frames * ticks_of(rate) + 7) / 8;
    return t;
}

ONE_FOR_ALL_SESSIONS void fill(uint32_t agreed, const uint8_t *p, size_t n, uint16_t *rows,
                               size_t frames, uint8_t *bodies, size_t octets)
{
    size_t unread = n;
    while (unread) {
        frame f = passed(agreed, p, unread);
        size_t body = f.base + f.tc;
        unread -= f.wire;
        frames--;
        octets -= body;
        rows[2 * frames] = f.kind;
        rows[2 * frames + 1] = (uint16_t)f.tc;
        if (body == 7)
            memcpy(bodies + octets, p + unread, 7);
        else
            memcpy(bodies + octets, p + unread, body);
        uint8_t *end = bodies + octets + f.base - 1;
        *end = (uint8_t)(*end - f.code);
    }
}

static moult_reading read_refused(uint32_t number, size_t place)
{
    moult_reading r = {number, 0, place, 0, 0, 0};
    return r;
}

ONE_FOR_ALL_SESSIONS moult_reading read_in(uint32_t agreed, const uint8_t *payload, size_t n,
                                           uint16_t *rows, size_t rows_n, uint8_t *bodies,
                                           size_t bodies_n)
{
    second_walked w = walk(agreed, payload, n);
    if (w.number)
        return read_refused(w.number, w.place);
    if (rows_n / 2 < w.frames)
        return read_refused(MOULT_NUMBERS_TOO_SHORT, w.frames);
    if (bodies_n < w.octets)
        return read_refused(MOULT_OCTETS_TOO_SHORT, w.octets);
    fill(agreed, payload, n, rows, w.frames, bodies, w.octets);
    moult_reading r = {0, w.rate, 0, w.frames, w.octets, w.ticks};
    return r;
}

moult_reading second_read(const uint8_t *payload, size_t n, uint16_t *rows, size_t rows_n,
                          uint8_t *bodies, size_t bodies_n)
{
    return read_in(0, payload, n, rows, rows_n, bodies, bodies_n);
}

moult_reading second_read_session(uint32_t agreed, uint32_t rate, const uint8_t *payload, size_t n,
                                  uint16_t *rows, size_t rows_n, uint8_t *bodies, size_t bodies_n)
{
    if (!is_session(agreed, rate))
        return read_refused(MOULT_UNKNOWN, 0);
    return read_in(rate_agreed(agreed, rate), payload, n, rows, rows_n, bodies, bodies_n);
}

/* The frame of a row and where it starts: walks back over the rows behind it. Its kind is 0 if it is
   missing. */
typedef struct {
    frame named;
    size_t start;
} located;

static const located missing = {{0, 0, 0, 0, 0, 0}, 0};

ONE_FOR_ALL_SESSIONS located locate(uint32_t agreed, const uint8_t *p, size_t n, size_t row)
{
    second_walked w = walk(agreed, p, n);
    located l = missing;
    if (w.number || row >= w.frames)
        return l;
    l.start = n;
    for (size_t i = w.frames; i > row; i--) {
        l.named = passed(agreed, p, l.start);
        l.start -= l.named.wire;
    }
    return l;
}

static inline located locate_session(uint32_t agreed, uint32_t rate, const uint8_t *p, size_t n,
                                     size_t row)
{
    return is_session(agreed, rate) ? locate(rate_agreed(agreed, rate), p, n, row) : missing;
}

static inline moult_part augmentation_of(located l)
{
    moult_part part = {0, 0, 0};
    if (l.named.tc) {
        part.start = l.start + l.named.base;
        part.length = l.named.tc;
    }
    return part;
}

moult_part second_augmentation(const uint8_t *payload, size_t n, size_t row)
{
    return augmentation_of(locate(0, payload, n, row));
}

moult_part second_augmentation_session(uint32_t agreed, uint32_t rate, const uint8_t *payload,
                                       size_t n, size_t row)
{
    return augmentation_of(locate_session(agreed, rate, payload, n, row));
}

static inline moult_part own_octets_or(located l, size_t stand_in_n)
{
    moult_part part = {1, 0, stand_in_n};
    if (l.named.kind) {
        part.stand_in = 0;
        part.start = l.start;
        part.length = l.named.wire;
    }
    return part;
}

moult_part second_frame_or(const uint8_t *payload, size_t n, size_t row, const uint8_t *stand_in,
                           size_t stand_in_n)
{
    (void)stand_in;
    return own_octets_or(locate(0, payload, n, row), stand_in_n);
}

moult_part second_frame_or_session(uint32_t agreed, uint32_t rate, const uint8_t *payload, size_t n,
                                   size_t row, const uint8_t *stand_in, size_t stand_in_n)
{
    (void)stand_in;
    return own_octets_or(locate_session(agreed, rate, payload, n, row), stand_in_n);
}

/* ---- to octets */

static moult_writing writing(uint32_t number, size_t place, size_t octets)
{
    moult_writing w = {number, place, octets};
    return w;
}

/* A row by itself and where coder frames must have a rate (0 for any); gives 0 or the refusal
   number. */
static inline uint32_t row_refusal(const uint16_t *rows, size_t frames, size_t row, uint32_t rate)
{
    uint16_t kind = rows[2 * row], tc = rows[2 * row + 1];
    if (!is_kind(kind))
        return MOULT_UNKNOWN;
    if (!fits_kind(kind, tc))
        return MOULT_WRONG_TC;
    if (kind == MOULT_KIND_COMFORT_NOISE)
        return row + 1 < frames ? MOULT_COMFORT_NOISE_NOT_LAST : 0;
    return rate && rate != kinds[kind].rate ? MOULT_RATES_MIXED : 0;
}

static inline size_t wire_octets(uint16_t kind, size_t tc)
{
    return body_octets(kind, tc) + count_octets(kind, tc);
}

static inline second_row_totals rows_refused(uint32_t number, size_t place)
{
    second_row_totals t = {number, place, 0, 0, 0};
    return t;
}

/* All checks of rows alone. */
ONE_FOR_ALL_SESSIONS second_row_totals check_rows(uint32_t agreed, const uint16_t *rows,
                                                  size_t frames)
{
    second_row_totals t = {0, 0, 0, 0, 0};
    uint32_t rate = agreed;
    if (frames > MOULT_MAX_FRAMES)
        return rows_refused(MOULT_TOO_LONG, MOULT_MAX_OCTETS);
    for (size_t i = 0; i < frames; i++) {
        uint32_t number = row_refusal(rows, frames, i, rate);
        if (number)
            return rows_refused(number, i);
        uint16_t kind = rows[2 * i], tc = rows[2 * i + 1];
        if (kind != MOULT_KIND_COMFORT_NOISE)
            rate = kinds[kind].rate;
        t.bodies += body_octets(kind, tc);
        t.wire += wire_octets(kind, tc);
        t.ticks += ticks_of(kinds[kind].rate);
    }
    if (t.wire > MOULT_MAX_OCTETS)
        return rows_refused(MOULT_TOO_LONG, MOULT_MAX_OCTETS);
    return t;
}

second_row_totals second_check_rows(const uint16_t *rows, size_t frames)
{
    return check_rows(0, rows, frames);
}

size_t second_wire_octets(uint16_t kind, uint16_t tc)
{
    return wire_octets(kind, tc);
}

static inline void put_frame(uint32_t agreed, uint16_t kind, uint16_t tc, const uint8_t *body,
                             uint8_t *out)
{
    kind_row k = kind_in(agreed, kind);
    size_t length = body_octets(kind, tc);
    if (length == 7)
        memcpy(out, body, 7);
    else
        memcpy(out, body, length);
    uint8_t *end = out + k.base - 1;
    *end = (uint8_t)(*end + k.code);
    if (tc == 0)
        return;
    if (count_octets(kind, tc) == 1) {
        out[length] = (uint8_t)(192 + tc - 15);
    } else {
        out[length] = (uint8_t)tc;
        out[length + 1] = 255;
    }
}

ONE_FOR_ALL_SESSIONS moult_writing write_in(uint32_t agreed, const uint16_t *rows, size_t rows_n,
                                            const uint8_t *bodies, size_t bodies_n, uint8_t *out,
                                            size_t out_n)
{
    size_t frames = rows_n / 2;
    if (rows_n % 2)
        return writing(MOULT_ODD_ROWS, rows_n, 0);
    second_row_totals total = check_rows(agreed, rows, frames);
    if (total.number)
        return writing(total.number, total.place, 0);
    if (bodies_n != total.bodies)
        return writing(MOULT_WRONG_LENGTH, total.bodies, 0);
    size_t at = 0;
    for (size_t i = 0; i < frames; i++) {
        kind_row k = kind_in(agreed, rows[2 * i]);
        size_t end = at + k.base - 1;
        if (bodies[end] > k.end)
            return writing(MOULT_RESERVED_BITS, end, 0);
        at = end + 1 + rows[2 * i + 1];
    }
    if (out_n < total.wire)
        return writing(MOULT_OCTETS_TOO_SHORT, total.wire, 0);
    size_t from = 0, to = 0;
    for (size_t i = 0; i < frames; i++) {
        uint16_t kind = rows[2 * i], tc = rows[2 * i + 1];
        put_frame(agreed, kind, tc, bodies + from, out + to);
        from += body_octets(kind, tc);
        to += wire_octets(kind, tc);
    }
    return writing(0, 0, total.wire);
}

moult_writing second_write(const uint16_t *rows, size_t rows_n, const uint8_t *bodies,
                           size_t bodies_n, uint8_t *out, size_t out_n)
{
    return write_in(0, rows, rows_n, bodies, bodies_n, out, out_n);
}

moult_writing second_write_session(uint32_t agreed, uint32_t rate, const uint16_t *rows,
                                   size_t rows_n, const uint8_t *bodies, size_t bodies_n,
                                   uint8_t *out, size_t out_n)
{
    if (!is_session(agreed, rate))
        return writing(MOULT_UNKNOWN, 0, 0);
    return write_in(rate_agreed(agreed, rate), rows, rows_n, bodies, bodies_n, out, out_n);
}
