/*
 * A plain converter in C, to measure beside: what document 01 asks, as one would write it without proofs. It reads the deck, plans, checks the
 * whole reel and then writes. No part of it is taken from the proved crates. Only what is accepted is measured, so it seeks no column of a refusal.
 */
#include "plain.h"

#include <stdbool.h>
#include <string.h>

enum mode { TC, TF, TR, TRF };
enum format { FF, FV, FU };

/* A or B: (n,m), or (g) with two = false and g in m. */
struct size {
    bool two;
    uint32_t n, m;
};

struct field {
    uint8_t kind;
    uint32_t r, input, output, t;
};

struct plan {
    enum mode mode;
    enum format format;
    struct size a, b;
    uint32_t first; /* R */
    struct field fields[64];
    size_t count;
    bool selects; /* TF or TRF */
    bool cv;
    bool keeping;
    size_t lost;
};

/* What the cards say before it is judged. */
struct deck {
    unsigned seen; /* one bit for each parameter that stands */
    bool twice_u;
    size_t fs, cv_card, second_cv, sixty_fifth, beyond; /* cards, 0 for none */
};

struct refusal {
    uint64_t number, place;
};

enum { SEEN_T = 1, SEEN_F = 2, SEEN_A = 4, SEEN_B = 8, SEEN_I = 16, SEEN_O = 32, SEEN_R = 64 };

static bool is_digit(uint8_t c) { return c >= '0' && c <= '9'; }
static bool within(uint32_t low, uint32_t high, uint32_t x) { return low <= x && x <= high; }
static uint32_t word(const uint8_t *p) { return (uint32_t)p[0] << 24 | (uint32_t)p[1] << 16 | (uint32_t)p[2] << 8 | p[3]; }

static void put_word(uint8_t *p, uint32_t x)
{
    p[0] = (uint8_t)(x >> 24);
    p[1] = (uint8_t)(x >> 16);
    p[2] = (uint8_t)(x >> 8);
    p[3] = (uint8_t)x;
}

static void put_length(uint8_t *p, size_t x)
{
    p[0] = (uint8_t)(x >> 8);
    p[1] = (uint8_t)x;
    p[2] = 0;
    p[3] = 0;
}

/* ---- lines and cards */

enum card { NO_CARD, U_CARD, FS_CARD, END_CARD };

static bool begins(const uint8_t *line, size_t len, const char *text)
{
    size_t n = strlen(text);
    return len >= n && memcmp(line, text, n) == 0;
}

/* Which card a line is, and where its operand starts. */
static enum card card_of(const uint8_t *line, size_t len, size_t *operand)
{
    if (len < 1 || len > 80)
        return NO_CARD;
    for (size_t i = 0; i < len; i++)
        if (line[i] < 0x20 || line[i] > 0x7E)
            return NO_CARD;
    if (begins(line, len, "// U "))
        return *operand = 5, U_CARD;
    if (begins(line, len, "// UTT "))
        return *operand = 7, U_CARD;
    if (begins(line, len, "// FS "))
        return *operand = 6, FS_CARD;
    if (begins(line, len, "// END") && (len == 6 || line[6] == ' '))
        return *operand = len, END_CARD;
    return NO_CARD;
}

struct operand {
    const uint8_t *at, *end;
};

/* Refusals 1 and 2; the operands of the cards in order. */
static struct refusal read_lines(const uint8_t *deck, size_t len, struct operand operands[64], size_t *cards)
{
    size_t number = 0, fault = 0;
    bool ended = false;
    const uint8_t *at = deck, *end = deck + len;
    while (at < end) {
        const uint8_t *stop = memchr(at, '\n', (size_t)(end - at));
        if (!stop)
            stop = end;
        size_t operand = 0;
        enum card card = card_of(at, (size_t)(stop - at), &operand);
        number++;
        if (card == NO_CARD)
            return (struct refusal){1, number};
        if (!fault && ((card == U_CARD) != (number == 1) || ended || number > 64))
            fault = number;
        if (card == END_CARD)
            ended = true;
        if (number <= 64) {
            const uint8_t *from = at + operand;
            const uint8_t *blank = from < stop ? memchr(from, ' ', (size_t)(stop - from)) : NULL;
            operands[number - 1] = (struct operand){from, blank ? blank : stop};
        }
        at = stop + 1;
    }
    if (fault)
        return (struct refusal){2, fault};
    if (!ended)
        return (struct refusal){2, number + 1};
    *cards = number;
    return (struct refusal){0, 0};
}

/* ---- operands: each reader moves o->at, and answers whether the text is of its grammar */

static bool take(struct operand *o, uint8_t c)
{
    if (o->at == o->end || *o->at != c)
        return false;
    o->at++;
    return true;
}

static bool read_number(struct operand *o, uint32_t *x)
{
    size_t digits = 0;
    *x = 0;
    while (o->at < o->end && is_digit(*o->at)) {
        if (++digits > 5)
            return false;
        *x = *x * 10 + (*o->at++ - '0');
    }
    return digits > 0;
}

static bool read_size(struct operand *o, struct size *s)
{
    uint32_t x;
    if (!take(o, '=') || !take(o, '(') || !read_number(o, &x))
        return false;
    s->two = take(o, ',');
    s->n = 0;
    s->m = x;
    if (s->two) {
        s->n = x;
        if (!read_number(o, &s->m))
            return false;
    }
    return take(o, ')');
}

static bool read_mode(struct operand *o, struct plan *p)
{
    if (take(o, 'C'))
        p->mode = TC;
    else if (take(o, 'F'))
        p->mode = TF;
    else if (take(o, 'R'))
        p->mode = take(o, 'F') ? TRF : TR;
    else
        return false;
    return true;
}

static bool read_format(struct operand *o, struct plan *p)
{
    if (take(o, 'F'))
        p->format = FF;
    else if (take(o, 'V'))
        p->format = FV;
    else if (take(o, 'U'))
        p->format = FU;
    else
        return false;
    return true;
}

static bool read_parameter(struct operand *o, struct plan *p, unsigned *which)
{
    if (take(o, 'T'))
        return *which = SEEN_T, read_mode(o, p);
    if (take(o, 'F'))
        return *which = SEEN_F, read_format(o, p);
    if (take(o, 'A'))
        return *which = SEEN_A, read_size(o, &p->a);
    if (take(o, 'B'))
        return *which = SEEN_B, read_size(o, &p->b);
    if (take(o, 'I'))
        return *which = SEEN_I, take(o, 'R') || take(o, 'N') || take(o, 'U');
    if (take(o, 'O'))
        return *which = SEEN_O, take(o, 'R') || take(o, 'N') || take(o, 'U');
    if (take(o, 'R'))
        return *which = SEEN_R, read_number(o, &p->first);
    return false;
}

static bool read_u(struct operand o, struct plan *p, struct deck *d)
{
    do {
        unsigned which;
        if (!read_parameter(&o, p, &which))
            return false;
        if (d->seen & which)
            d->twice_u = true;
        d->seen |= which;
    } while (take(&o, ','));
    return o.at == o.end;
}

static bool read_field(struct operand *o, struct field *f)
{
    if (!read_number(o, &f->r) || !take(o, ','))
        return false;
    if (take(o, '(')) {
        if (take(o, 'P'))
            f->kind = BHX_PACK;
        else if (take(o, 'U'))
            f->kind = BHX_UNPACK;
        else
            return false;
        if (!take(o, ',') || !read_number(o, &f->input) || !take(o, ',') || !read_number(o, &f->output) || !take(o, ')'))
            return false;
    } else {
        f->kind = BHX_COPY;
        if (!read_number(o, &f->input))
            return false;
        f->output = f->input;
    }
    return take(o, ',') && read_number(o, &f->t);
}

static bool field_allowed(const struct field *f)
{
    uint32_t most = f->kind == BHX_COPY ? 4096 : 16;
    return within(1, 4096, f->r) && within(1, 4096, f->t) && within(1, most, f->input) && within(1, most, f->output);
}

static bool read_fs(struct operand o, size_t card, struct plan *p, struct deck *d)
{
    do {
        if (take(&o, 'C')) {
            if (!take(&o, 'V'))
                return false;
            if (!d->cv_card)
                d->cv_card = card;
            else if (!d->second_cv)
                d->second_cv = card;
            continue;
        }
        struct field f;
        if (!read_field(&o, &f))
            return false;
        if (!d->beyond && !field_allowed(&f))
            d->beyond = card;
        if (p->count < 64)
            p->fields[p->count++] = f;
        else if (!d->sixty_fifth)
            d->sixty_fifth = card;
    } while (take(&o, '/'));
    return o.at == o.end;
}

/* ---- the plan */

static bool size_allowed(const struct plan *p, struct size s)
{
    if (s.two)
        return within(1, 4096, s.n) && within(1, 32760, s.m);
    return within(p->format == FV ? 9 : 1, 32760, s.m);
}

static bool combines(const struct plan *p, const struct deck *d)
{
    const struct size a = p->a, b = p->b;
    bool two = p->format == FF || (p->format == FV && p->selects);
    if (p->format == FU && p->mode != TC)
        return false;
    if (p->mode == TC && p->first != 1)
        return false;
    if (a.two != two || b.two != two)
        return false;
    if (p->format == FF && (a.m % a.n || b.m % b.n))
        return false;
    if (p->mode == TC && (a.n != b.n || a.m != b.m))
        return false;
    if (p->mode == TR && p->format == FF && a.n != b.n)
        return false;
    if (p->mode == TF && p->format == FF && a.m / a.n != b.m / b.n)
        return false;
    if (p->format == FV && two && (a.n + 8 > a.m || b.n + 8 > b.m))
        return false;
    return !p->selects || d->fs > 0;
}

/* The values, as bits, that a field permits in half j of its input. */
static uint16_t permitted_by(const struct field *f, uint32_t j)
{
    const uint16_t digit = 0x03FF, sign = 0xFC00, zone = 0x8000;
    if (f->kind == BHX_PACK)
        return j % 2 ? digit : j == 2 * f->input - 2 ? sign : zone;
    return j == 2 * f->input - 1 ? sign : digit;
}

/* Refusal 10: the lowest half without a permitted value, or -1. */
static long permitted_values(const struct plan *p, uint16_t permitted[8192])
{
    memset(permitted, 0xFF, 4 * (size_t)p->a.n);
    for (size_t i = 0; i < p->count; i++) {
        const struct field *f = &p->fields[i];
        if (f->kind == BHX_COPY)
            continue;
        for (uint32_t j = 0; j < 2 * f->input; j++)
            permitted[2 * (f->r - 1) + j] &= permitted_by(f, j);
    }
    for (uint32_t h = 0; h < 2 * p->a.n; h++)
        if (!permitted[h])
            return (long)h;
    return -1;
}

/* Which input half each half of the finished output record is taken from, or -1. */
static void put_sources(const struct field *f, int16_t *out)
{
    int32_t from = 2 * ((int32_t)f->r - 1), end = from + 2 * (int32_t)f->input, many = 2 * (int32_t)f->output;
    if (f->kind == BHX_COPY) {
        for (int32_t j = 0; j < many; j++)
            out[j] = (int16_t)(from + j);
        return;
    }
    out[many - 1] = (int16_t)(end - 2);
    out[many - 2] = (int16_t)(end - 1);
    int32_t step = f->kind == BHX_PACK ? 2 : 1;
    int32_t source = end - 3;
    for (int32_t j = many - 3; j >= 0; j--) {
        if (f->kind == BHX_UNPACK && j % 2 == 0) {
            out[j] = -1;
            continue;
        }
        out[j] = (int16_t)(source >= from ? source : -1);
        source -= step;
    }
}

static void judge_keeping(struct plan *p, const uint16_t permitted[8192])
{
    int16_t sources[8192];
    bool seen[8192];
    memset(sources, 0xFF, 4 * (size_t)p->b.n);
    memset(seen, 0, 2 * (size_t)p->a.n);
    for (size_t i = 0; i < p->count; i++)
        put_sources(&p->fields[i], sources + 2 * (p->fields[i].t - 1));
    for (uint32_t j = 0; j < 2 * p->b.n; j++)
        if (sources[j] >= 0)
            seen[sources[j]] = true;
    p->keeping = false;
    for (uint32_t h = 0; h < 2 * p->a.n; h++)
        if (!seen[h] && (permitted[h] & (permitted[h] - 1))) {
            p->lost = h;
            return;
        }
    if (p->format == FV && !p->cv && p->a.m != p->a.n + 8) {
        p->lost = 2 * p->a.n;
        return;
    }
    p->keeping = true;
}

/* Refusals 3 to 7. */
static struct refusal read_operands(const struct operand operands[64], size_t cards, struct plan *p, struct deck *d)
{
    if (!read_u(operands[0], p, d))
        return (struct refusal){3, 1};
    for (size_t i = 1; i + 1 < cards; i++)
        if (!read_fs(operands[i], i + 1, p, d))
            return (struct refusal){3, i + 1};
    if (d->twice_u)
        return (struct refusal){4, 1};
    if (d->second_cv)
        return (struct refusal){4, d->second_cv};
    if ((d->seen & 15) != 15)
        return (struct refusal){5, 1};
    if (d->sixty_fifth)
        return (struct refusal){6, d->sixty_fifth};
    if (!size_allowed(p, p->a) || !size_allowed(p, p->b) || !within(1, 65536, p->first))
        return (struct refusal){7, 1};
    if (d->beyond)
        return (struct refusal){7, d->beyond};
    return (struct refusal){0, 0};
}

/* Refusals 1 to 10, and keeping. */
static struct refusal make_plan(const uint8_t *deck, size_t len, struct plan *p)
{
    struct operand operands[64];
    struct deck d = {0};
    size_t cards;
    struct refusal r = read_lines(deck, len, operands, &cards);
    if (r.number)
        return r;
    p->first = 1;
    p->count = 0;
    r = read_operands(operands, cards, p, &d);
    if (r.number)
        return r;
    p->selects = p->mode == TF || p->mode == TRF;
    p->cv = d.cv_card != 0;
    d.fs = cards - 2;
    if (!combines(p, &d))
        return (struct refusal){8, 1};
    if (!p->selects && d.fs)
        return (struct refusal){8, 2};
    if (p->cv && p->format != FV)
        return (struct refusal){8, d.cv_card};
    p->keeping = true;
    p->lost = 0;
    if (!p->selects)
        return (struct refusal){0, 0};
    for (size_t i = 0; i < p->count; i++) {
        const struct field *f = &p->fields[i];
        if (f->r + f->input - 1 > p->a.n || f->t + f->output - 1 > p->b.n)
            return (struct refusal){9, i + 1};
    }
    uint16_t permitted[8192];
    long barren = permitted_values(p, permitted);
    if (barren >= 0)
        return (struct refusal){10, (uint64_t)barren};
    judge_keeping(p, permitted);
    return (struct refusal){0, 0};
}

/* ---- blocks */

/* Refusal 11: how many blocks a reel has, or -1. */
static long read_header(const uint8_t *reel, size_t len)
{
    if (len < 8 || len > 65536)
        return -1;
    uint32_t k = word(reel);
    if (k > (len - 8) / 4 || word(reel + 4) != 4 * k + 8)
        return -1;
    uint32_t last = 4 * k + 8;
    for (uint32_t i = 0; i < k; i++) {
        uint32_t next = word(reel + 8 + 4 * i);
        if (next <= last)
            return -1;
        last = next;
    }
    return last == len ? (long)k : -1;
}

/* In FV: how many records a block has, or 0 where it breaks its rule. */
static size_t variable_records(const uint8_t *block, size_t size, size_t least)
{
    if (size < 9 || ((size_t)block[0] << 8 | block[1]) != size || block[2] || block[3])
        return 0;
    size_t records = 0;
    for (size_t at = 4; at < size; records++) {
        if (size - at < 5)
            return 0;
        size_t length = (size_t)block[at] << 8 | block[at + 1];
        if (length < 4 + least || length > size - at || block[at + 2] || block[at + 3])
            return 0;
        at += length;
    }
    return records;
}

/* Refusal 12: the first block that breaks its rule, or 0; and the records of all. */
static size_t bad_block(const struct plan *p, const uint8_t *reel, size_t blocks, size_t *records)
{
    *records = 0;
    for (size_t i = 0; i < blocks; i++) {
        size_t from = word(reel + 4 + 4 * i), size = word(reel + 8 + 4 * i) - from, here = 0;
        if (size > p->a.m)
            return i + 1;
        if (p->format == FF) {
            if (size % p->a.n)
                return i + 1;
            here = size / p->a.n;
        } else if (p->format == FV) {
            here = variable_records(reel + from, size, p->selects ? p->a.n : 1);
        } else {
            here = 1;
        }
        if (!here)
            return i + 1;
        *records += here;
    }
    return 0;
}

/* ---- records */

static bool packs(const uint8_t *in, uint32_t n)
{
    for (uint32_t i = 0; i < n; i++) {
        uint8_t high = in[i] >> 4;
        if ((in[i] & 15) > 9 || (i + 1 == n ? high < 10 : high != 15))
            return false;
    }
    return true;
}

static bool unpacks(const uint8_t *in, uint32_t n)
{
    for (uint32_t i = 0; i < n; i++) {
        uint8_t low = in[i] & 15;
        if ((in[i] >> 4) > 9 || (i + 1 == n ? low < 10 : low > 9))
            return false;
    }
    return true;
}

static bool record_permitted(const struct plan *p, const uint8_t *record)
{
    for (size_t i = 0; i < p->count; i++) {
        const struct field *f = &p->fields[i];
        if (f->kind == BHX_PACK && !packs(record + f->r - 1, f->input))
            return false;
        if (f->kind == BHX_UNPACK && !unpacks(record + f->r - 1, f->input))
            return false;
    }
    return true;
}

static uint8_t turned(uint8_t x) { return (uint8_t)(x << 4 | x >> 4); }

static void pack(const uint8_t *in, uint32_t n, uint8_t *out, uint32_t m)
{
    int32_t i = (int32_t)n - 2;
    out[m - 1] = turned(in[n - 1]);
    for (int32_t j = (int32_t)m - 2; j >= 0; j--) {
        uint8_t low = i >= 0 ? in[i--] & 15 : 0;
        uint8_t high = i >= 0 ? in[i--] & 15 : 0;
        out[j] = (uint8_t)(high << 4 | low);
    }
}

static void unpack(const uint8_t *in, uint32_t n, uint8_t *out, uint32_t m)
{
    int32_t half = 2 * ((int32_t)n - 1) - 1;
    out[m - 1] = turned(in[n - 1]);
    for (int32_t j = (int32_t)m - 2; j >= 0; j--) {
        uint8_t digit = 0;
        if (half >= 0) {
            digit = half % 2 ? in[half / 2] & 15 : in[half / 2] >> 4;
            half--;
        }
        out[j] = 0xF0 | digit;
    }
}

static void put_record(const struct plan *p, const uint8_t *record, size_t len, uint8_t *out)
{
    if (!p->selects) {
        memcpy(out, record, len);
        return;
    }
    memset(out, 0x40, p->b.n);
    for (size_t i = 0; i < p->count; i++) {
        const struct field *f = &p->fields[i];
        const uint8_t *from = record + f->r - 1;
        uint8_t *to = out + f->t - 1;
        if (f->kind == BHX_COPY)
            memcpy(to, from, f->input);
        else if (f->kind == BHX_PACK)
            pack(from, f->input, to, f->output);
        else
            unpack(from, f->input, to, f->output);
    }
    if (p->cv)
        memcpy(out + p->b.n, record + p->a.n, len - p->a.n);
}

static size_t output_length(const struct plan *p, size_t len)
{
    if (!p->selects)
        return len;
    return p->b.n + (p->cv ? len - p->a.n : 0);
}

/* The data of the record at a place of a block, and the place behind it. */
static const uint8_t *next_record(const struct plan *p, const uint8_t **at, const uint8_t *end, size_t *len)
{
    const uint8_t *data = *at;
    if (p->format == FF) {
        *len = p->a.n;
    } else if (p->format == FV) {
        *len = ((size_t)data[0] << 8 | data[1]) - 4;
        data += 4;
    } else {
        *len = (size_t)(end - data);
    }
    *at = data + *len;
    return data;
}

struct measure {
    size_t blocks, records, bytes;
};

/* Refusals 13 and 14 of the records taken, and what the output measures. */
static struct refusal check_records(const struct plan *p, const uint8_t *reel, size_t blocks, struct measure *m)
{
    size_t cost = p->format == FV ? 4 : 0, number = 0, size = 0, too_long = 0;
    memset(m, 0, sizeof *m);
    for (size_t i = 0; i < blocks; i++) {
        const uint8_t *at = reel + word(reel + 4 + 4 * i) + cost, *end = reel + word(reel + 8 + 4 * i);
        bool begins = true;
        while (at < end) {
            size_t len;
            const uint8_t *data = next_record(p, &at, end, &len);
            if (++number < p->first)
                continue;
            if (p->selects && !record_permitted(p, data))
                return (struct refusal){13, number};
            size_t more = cost + output_length(p, len);
            if (p->mode == TF ? begins : m->blocks == 0 || size + more > p->b.m) {
                m->blocks++;
                m->bytes += cost;
                size = cost;
            }
            begins = false;
            size += more;
            m->bytes += more;
            m->records++;
            if (size > p->b.m && !too_long)
                too_long = number;
        }
    }
    return too_long ? (struct refusal){14, too_long} : (struct refusal){0, 0};
}

static void close_block(const struct plan *p, uint8_t *start, uint8_t *end)
{
    if (p->format == FV)
        put_length(start, (size_t)(end - start));
}

static void write_reel(const struct plan *p, const uint8_t *reel, size_t blocks, size_t out_blocks, uint8_t *out)
{
    size_t cost = p->format == FV ? 4 : 0, number = 0;
    uint8_t *offset = out + 4, *to = out + 4 * out_blocks + 8, *block = NULL;
    put_word(out, (uint32_t)out_blocks);
    for (size_t i = 0; i < blocks; i++) {
        const uint8_t *at = reel + word(reel + 4 + 4 * i) + cost, *end = reel + word(reel + 8 + 4 * i);
        bool begins = true;
        while (at < end) {
            size_t len;
            const uint8_t *data = next_record(p, &at, end, &len);
            if (++number < p->first)
                continue;
            size_t length = output_length(p, len);
            if (p->mode == TF ? begins : !block || (size_t)(to - block) + cost + length > p->b.m) {
                if (block)
                    close_block(p, block, to);
                put_word(offset, (uint32_t)(to - out));
                offset += 4;
                block = to;
                to += cost;
            }
            begins = false;
            if (p->format == FV)
                put_length(to, 4 + length);
            to += cost;
            put_record(p, data, len, to);
            to += length;
        }
    }
    if (block)
        close_block(p, block, to);
    put_word(offset, (uint32_t)(to - out));
}

/* ---- what users call */

static bhx_planned planned(const struct plan *p)
{
    return (bhx_planned){0, 0, 0, p->keeping, p->lost, p->count};
}

bhx_planned plain_plan(const uint8_t *deck, size_t deck_len)
{
    struct plan p;
    struct refusal r = make_plan(deck, deck_len, &p);
    if (r.number)
        return (bhx_planned){r.number, r.place, 0, 0, 0, 0};
    return planned(&p);
}

bhx_planned plain_plan_into(const uint8_t *deck, size_t deck_len, bhx_field *table, size_t entries)
{
    struct plan p;
    struct refusal r = make_plan(deck, deck_len, &p);
    if (r.number)
        return (bhx_planned){r.number, r.place, 0, 0, 0, 0};
    if (entries < p.count)
        return (bhx_planned){15, p.count, 0, 0, 0, 0};
    for (size_t i = 0; i < p.count; i++) {
        const struct field *f = &p.fields[i];
        table[i] = (bhx_field){f->kind, BHX_DATA, (uint16_t)f->r, (uint16_t)f->input, (uint16_t)f->output, (uint16_t)f->t};
    }
    return planned(&p);
}

bhx_ran plain_run(const uint8_t *deck, size_t deck_len, const uint8_t *reel, size_t reel_len, uint8_t *out, size_t room)
{
    struct plan p;
    struct measure m;
    struct refusal r = make_plan(deck, deck_len, &p);
    if (r.number)
        return (bhx_ran){r.number, r.place, 0, 0, 0, 0};
    long blocks = read_header(reel, reel_len);
    if (blocks < 0)
        return (bhx_ran){11, 0, 0, 0, 0, 0};
    size_t records, bad = bad_block(&p, reel, (size_t)blocks, &records);
    if (bad)
        return (bhx_ran){12, bad, 0, 0, 0, 0};
    size_t length = reel_len;
    if (p.mode == TC) {
        m = (struct measure){(size_t)blocks, records, 0};
    } else {
        r = check_records(&p, reel, (size_t)blocks, &m);
        if (r.number)
            return (bhx_ran){r.number, r.place, 0, 0, 0, 0};
        length = 4 * m.blocks + 8 + m.bytes;
    }
    if (length > room || length > 65536)
        return (bhx_ran){15, length, 0, 0, 0, 0};
    if (p.mode == TC)
        memcpy(out, reel, reel_len);
    else
        write_reel(&p, reel, (size_t)blocks, m.blocks, out);
    return (bhx_ran){0, 0, 0, length, m.records, m.blocks};
}
