/* The setting text, read and written: at most one item of each name, in either order. */
#include "second.h"

#include <string.h>

static int name_is(const uint8_t *text, size_t n, const char *name, size_t length)
{
    if (n < length)
        return 0;
    for (size_t i = 0; i < length; i++) {
        uint8_t octet = text[i];
        if (octet >= 'A' && octet <= 'Z')
            octet = (uint8_t)(octet + 32);
        if (octet != (uint8_t)name[i])
            return 0;
    }
    return 1;
}

/* The octets of a rate at the start of the text, 0 if none is there. */
static size_t rate_at(const uint8_t *text, size_t n, uint16_t *rate)
{
    if (n >= 4 && memcmp(text, "2400", 4) == 0) {
        *rate = 2400;
        return 4;
    }
    if (n >= 4 && memcmp(text, "1200", 4) == 0) {
        *rate = 1200;
        return 4;
    }
    if (n >= 3 && memcmp(text, "600", 3) == 0) {
        *rate = 600;
        return 3;
    }
    return 0;
}

/* Reads rates up to the end of the item; gives the octets taken, 0 if the value is wrong. */
static size_t read_rates(const uint8_t *text, size_t n, moult_settings *s)
{
    uint16_t rates[3] = {0, 0, 0};
    size_t at = 0;
    for (size_t count = 0; count < 3; count++) {
        uint16_t rate = 0;
        size_t taken = rate_at(text + at, n - at, &rate);
        if (taken == 0 || rate == rates[0] || rate == rates[1])
            return 0;
        rates[count] = rate;
        at += taken;
        if (at == n || text[at] != ',') {
            s->first = rates[0];
            s->second = rates[1];
            s->third = rates[2];
            return at;
        }
        at++;
    }
    return 0;
}

static size_t read_tcmax(const uint8_t *text, size_t n, moult_settings *s)
{
    unsigned value = 0;
    size_t at = 0;
    while (at < n && at < 3 && text[at] >= '0' && text[at] <= '9') {
        value = 10 * value + (unsigned)(text[at] - '0');
        at++;
    }
    if (at == 0 || text[0] == '0' || value > 255)
        return 0;
    s->tcmax = (uint16_t)value;
    return at;
}

/* One item; gives the octets taken, 0 if it is wrong or its name was met before. */
static size_t read_item(const uint8_t *text, size_t n, moult_settings *s)
{
    size_t taken = 0, name = 0;
    if (name_is(text, n, "bitrate=", 8) && s->first == 0) {
        name = 8;
        taken = read_rates(text + 8, n - 8, s);
    } else if (name_is(text, n, "tcmax=", 6) && s->tcmax == 0) {
        name = 6;
        taken = read_tcmax(text + 6, n - 6, s);
    }
    return taken ? name + taken : 0;
}

moult_settings_reading second_settings_read(const uint8_t *text, size_t n)
{
    moult_settings_reading refused = {MOULT_WRONG_SETTINGS, 0, {0, 0, 0, 0}};
    moult_settings_reading answer = {0, 0, {0, 0, 0, 0}};
    size_t at = 0;
    /* An empty text has no item. Any other has one behind each `;` too, even where nothing is left
       to read, which is refused: once begun, the loop is left from within. */
    while (at < n || at > 0) {
        size_t taken = read_item(text + at, n - at, &answer.settings);
        if (taken == 0)
            return refused;
        at += taken;
        if (at == n)
            break;
        if (text[at] != ';')
            return refused;
        at++;
    }
    if (answer.settings.first == 0)
        answer.settings.first = 2400;
    if (answer.settings.tcmax == 0)
        answer.settings.tcmax = 35;
    return answer;
}

static int is_rate(uint16_t rate)
{
    return rate == 2400 || rate == 1200 || rate == 600;
}

static int settings_good(moult_settings s)
{
    if (!is_rate(s.first) || s.tcmax < 1 || s.tcmax > 255)
        return 0;
    if (s.second == 0)
        return s.third == 0;
    if (!is_rate(s.second) || s.second == s.first)
        return 0;
    return s.third == 0 || (is_rate(s.third) && s.third != s.first && s.third != s.second);
}

static uint8_t *put(uint8_t *at, const char *text, size_t n)
{
    memcpy(at, text, n);
    return at + n;
}

static uint8_t *put_rate(uint8_t *at, uint16_t rate)
{
    if (rate == 2400)
        return put(at, "2400", 4);
    if (rate == 1200)
        return put(at, "1200", 4);
    return put(at, "600", 3);
}

static uint8_t *put_number(uint8_t *at, unsigned value)
{
    if (value >= 100)
        *at++ = (uint8_t)('0' + value / 100);
    if (value >= 10)
        *at++ = (uint8_t)('0' + value / 10 % 10);
    *at++ = (uint8_t)('0' + value % 10);
    return at;
}

moult_writing second_settings_write(uint16_t first, uint16_t second, uint16_t third, uint16_t tcmax,
                               uint8_t *out, size_t out_n)
{
    moult_settings s = {first, second, third, tcmax};
    uint8_t text[MOULT_MAX_SETTINGS];
    moult_writing w = {0, 0, 0};
    if (!settings_good(s)) {
        w.number = MOULT_WRONG_SETTINGS;
        return w;
    }
    uint8_t *at = put_rate(put(text, "bitrate=", 8), s.first);
    if (s.second)
        at = put_rate(put(at, ",", 1), s.second);
    if (s.third)
        at = put_rate(put(at, ",", 1), s.third);
    at = put_number(put(at, ";tcmax=", 7), s.tcmax);
    size_t n = (size_t)(at - text);
    if (out_n < n) {
        w.number = MOULT_OCTETS_TOO_SHORT;
        w.place = n;
        return w;
    }
    memcpy(out, text, n);
    w.octets = n;
    return w;
}
