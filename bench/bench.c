/*
 * Measures the proved converter beside the plain one, in one process and by turns. Before a workload is measured, both must answer alike and
 * leave every lent byte alike, also the bytes past the reel that is written; else the program ends with 1.
 */
#include "plain.h"

#include <pthread.h>
#include <stdbool.h>
#include <stdio.h>
#include <stdlib.h>
#include <string.h>
#include <time.h>

enum { REPETITIONS = 31, DECK = 8192, REEL = BHX_MOST_REEL };

/* A workload: a deck, and a reel where it is run and not only planned. */
struct work {
    char name[64];
    uint8_t deck[DECK];
    size_t deck_len;
    uint8_t reel[REEL];
    size_t reel_len; /* 0: the deck is planned into a table */
};

struct times {
    double ours, plain;         /* the median time of a call, in seconds */
    double ratio, low, high;    /* of the repetitions: the median, and the 10 and the 90 percent points */
    uint64_t records, fields;
};

static struct work current; /* the workload that is made or measured */
static uint8_t out_ours[REEL], out_plain[REEL];
static bhx_field table_ours[BHX_MOST_FIELDS], table_plain[BHX_MOST_FIELDS];
static double least_time = 0.004; /* the least time of one measurement, in seconds */

/* ---- reels */

static uint32_t seed = 1;

static uint32_t chance(uint32_t below)
{
    seed = seed * 1664525u + 1013904223u;
    return (seed >> 8) % below;
}

static void put_word(uint8_t *p, size_t x)
{
    p[0] = (uint8_t)(x >> 24);
    p[1] = (uint8_t)(x >> 16);
    p[2] = (uint8_t)(x >> 8);
    p[3] = (uint8_t)x;
}

/* The most bytes of data that a reel of so many blocks may have. */
static size_t room_of(size_t most, size_t blocks) { return most - 8 - 4 * blocks; }

/* Fills in the header of a reel whose blocks have these sizes; the data stands behind it already. */
static void put_header(struct work *w, const size_t *sizes, size_t blocks)
{
    size_t at = 4 * blocks + 8;
    put_word(w->reel, blocks);
    for (size_t i = 0; i <= blocks; i++) {
        put_word(w->reel + 4 + 4 * i, at);
        if (i < blocks)
            at += sizes[i];
    }
    w->reel_len = at;
}

/* One record of data: what `shape` says of each byte. z: a zoned digit, s: a sign before a digit, d: two digits, e: a digit before a sign. */
static void put_data(uint8_t *to, size_t n, const char *shape)
{
    size_t many = shape ? strlen(shape) : 0;
    for (size_t i = 0; i < n; i++) {
        char c = i < many ? shape[i] : '.';
        uint8_t digit = (uint8_t)chance(10), sign = (uint8_t)(10 + chance(6));
        to[i] = c == 'z' ? 0xF0 | digit : c == 's' ? (uint8_t)(sign << 4 | digit) : c == 'd' ? (uint8_t)(chance(10) << 4 | digit)
              : c == 'e' ? (uint8_t)(digit << 4 | sign) : (uint8_t)chance(256);
    }
}

/* Records of n bytes in blocks of m, as many as a reel of `most` bytes holds. */
static void fixed_reel(struct work *w, size_t most, size_t n, size_t m, const char *shape)
{
    static size_t sizes[REEL / 4];
    size_t blocks = 1;
    while (blocks * m < room_of(most, blocks))
        blocks++;
    size_t left = room_of(most, blocks) / n * n, at = 4 * blocks + 8;
    for (size_t i = 0; i < blocks; i++) {
        sizes[i] = left < m ? left : m;
        left -= sizes[i];
    }
    while (blocks > 0 && sizes[blocks - 1] == 0)
        blocks--;
    at = 4 * blocks + 8;
    for (size_t i = 0; i < blocks; i++)
        for (size_t k = 0; k < sizes[i]; k += n, at += n)
            put_data(w->reel + at, n, shape);
    put_header(w, sizes, blocks);
}

/* Variable records of `least` to `longest` bytes of data in blocks of at most m, so many that a reel of `most` bytes holds them. */
static void variable_reel(struct work *w, size_t most, size_t least, size_t longest, size_t m, const char *shape)
{
    static size_t sizes[REEL / 4];
    static uint8_t data[REEL];
    size_t blocks = 0, at = 0, size = 0;
    for (;;) {
        size_t n = least + chance((uint32_t)(longest - least + 1));
        bool opens = blocks == 0 || size + 4 + n > m;
        if (at + 4 + n + (opens ? 4 : 0) > room_of(most, blocks + opens))
            break;
        if (opens) {
            at += 4;
            size = 4;
            blocks++;
        }
        put_word(data + at, (4 + n) << 16);
        put_data(data + at + 4, n, shape);
        at += 4 + n;
        size += 4 + n;
        sizes[blocks - 1] = size;
    }
    size_t from = 0;
    for (size_t i = 0; i < blocks; i++) {
        put_word(data + from, sizes[i] << 16);
        from += sizes[i];
    }
    memcpy(w->reel + 4 * blocks + 8, data, at);
    put_header(w, sizes, blocks);
}

/* ---- decks */

static void begin(struct work *w, const char *name)
{
    memset(w, 0, sizeof *w);
    snprintf(w->name, sizeof w->name, "%s", name);
}

static void card(struct work *w, const char *text)
{
    w->deck_len += (size_t)snprintf((char *)w->deck + w->deck_len, DECK - w->deck_len, "%s\n", text);
}

static void deck(struct work *w, const char *name, const char *u, const char *fs)
{
    char text[128];
    begin(w, name);
    snprintf(text, sizeof text, "// UTT %s", u);
    card(w, text);
    if (fs) {
        snprintf(text, sizeof text, "// FS %s", fs);
        card(w, text);
    }
    card(w, "// END");
}

/* So many copy fields of s bytes, one to a card and each card 80 bytes long, over records of n bytes; the last fields stand two to a card. */
static void many_fields(struct work *w, const char *name, size_t n, size_t fields, size_t s, bool scattered)
{
    char text[128], padded[128];
    begin(w, name);
    snprintf(text, sizeof text, "// UTT TRF,FF,A=(%zu,%zu),B=(%zu,%zu)", n, n, n, n);
    snprintf(padded, sizeof padded, "%-80s", text);
    card(w, padded);
    for (size_t i = 0; i < fields; i++) {
        size_t r = scattered ? i * (n / fields) + 1 : 1, t = scattered ? (fields - 1 - i) * (n / fields) + 1 : 1;
        size_t used = (size_t)snprintf(text, sizeof text, "// FS %zu,%zu,%zu", r, s, t);
        if (fields == 64 && i < 4 && i % 2 == 0) {
            i++;
            r = scattered ? i * (n / fields) + 1 : 1, t = scattered ? (fields - 1 - i) * (n / fields) + 1 : 1;
            snprintf(text + used, sizeof text - used, "/%zu,%zu,%zu", r, s, t);
        }
        snprintf(padded, sizeof padded, "%-80s", text);
        card(w, padded);
    }
    snprintf(padded, sizeof padded, "%-80s", "// END");
    card(w, padded);
}

/* ---- one call of each, not inlined so that a tool can tell them apart, and their comparison */

__attribute__((noinline)) static uint64_t call_ours(const struct work *w)
{
    if (w->reel_len)
        return bhx_run(w->deck, w->deck_len, w->reel, w->reel_len, out_ours, REEL).length;
    return bhx_plan_into(w->deck, w->deck_len, table_ours, BHX_MOST_FIELDS).fields;
}

__attribute__((noinline)) static uint64_t call_plain(const struct work *w)
{
    if (w->reel_len)
        return plain_run(w->deck, w->deck_len, w->reel, w->reel_len, out_plain, REEL).length;
    return plain_plan_into(w->deck, w->deck_len, table_plain, BHX_MOST_FIELDS).fields;
}

static void fill_lent(int pattern)
{
    memset(out_ours, pattern, REEL);
    memset(out_plain, pattern, REEL);
    memset(table_ours, pattern, sizeof table_ours);
    memset(table_plain, pattern, sizeof table_plain);
}

static bool same_entries(void)
{
    for (size_t i = 0; i < BHX_MOST_FIELDS; i++) {
        const bhx_field a = table_ours[i], b = table_plain[i];
        if (a.kind != b.kind || a.part != b.part || a.r != b.r || a.input != b.input || a.output != b.output || a.t != b.t)
            return false;
    }
    return true;
}

static void must(bool holds, const struct work *w, const char *what)
{
    if (holds)
        return;
    printf("%s: %s\n", w->name, what);
    exit(1);
}

static void compare(const struct work *w, struct times *t)
{
    fill_lent(0xA5);
    if (w->reel_len) {
        bhx_ran a = bhx_run(w->deck, w->deck_len, w->reel, w->reel_len, out_ours, REEL);
        bhx_ran b = plain_run(w->deck, w->deck_len, w->reel, w->reel_len, out_plain, REEL);
        must(memcmp(&a, &b, sizeof a) == 0, w, "the answers differ");
        must(a.refusal == 0, w, "the run is refused");
        must(memcmp(out_ours, out_plain, REEL) == 0, w, "the outputs differ");
        t->records = a.records;
    }
    bhx_planned a = bhx_plan_into(w->deck, w->deck_len, table_ours, BHX_MOST_FIELDS);
    bhx_planned b = plain_plan_into(w->deck, w->deck_len, table_plain, BHX_MOST_FIELDS);
    must(memcmp(&a, &b, sizeof a) == 0, w, "the plans differ");
    must(a.refusal == 0, w, "the plan is refused");
    must(same_entries(), w, "the tables differ");
    t->fields = a.fields;
}

/* ---- time */

static double now(void)
{
    struct timespec t;
    clock_gettime(CLOCK_PROCESS_CPUTIME_ID, &t);
    return (double)t.tv_sec + 1e-9 * (double)t.tv_nsec;
}

static volatile uint64_t sink;

/* The time of a call, of so many calls one after the other. */
static double timed(uint64_t (*call)(const struct work *), const struct work *w, size_t calls)
{
    double from = now();
    for (size_t i = 0; i < calls; i++)
        sink += call(w);
    return (now() - from) / (double)calls;
}

/* How many calls take the least time or more. */
static size_t calls_for(uint64_t (*call)(const struct work *), const struct work *w)
{
    for (size_t calls = 1;; calls *= 2)
        if (timed(call, w, calls) * (double)calls >= least_time)
            return calls;
}

static int by_value(const void *a, const void *b)
{
    double x = *(const double *)a, y = *(const double *)b;
    return x < y ? -1 : x > y;
}

static double point(double *values, int percent)
{
    qsort(values, REPETITIONS, sizeof *values, by_value);
    return values[(REPETITIONS - 1) * percent / 100];
}

/* By turns: ours, plain, ours, plain, .. The outputs are cleared before each measurement, outside of what is timed. */
static struct times measure(const struct work *w)
{
    struct times t = {0};
    double ours[REPETITIONS], plain[REPETITIONS], ratios[REPETITIONS];
    compare(w, &t);
    size_t calls_ours = calls_for(call_ours, w), calls_plain = calls_for(call_plain, w);
    for (int i = 0; i < REPETITIONS; i++) {
        fill_lent(0);
        ours[i] = timed(call_ours, w, calls_ours);
        plain[i] = timed(call_plain, w, calls_plain);
        ratios[i] = ours[i] / plain[i];
    }
    t.ours = point(ours, 50);
    t.plain = point(plain, 50);
    t.ratio = point(ratios, 50);
    t.low = point(ratios, 10);
    t.high = point(ratios, 90);
    return t;
}

/* ---- the tables */

static void timed_row(const struct work *w)
{
    struct times t = measure(w);
    printf("| %s | %llu | %llu | %.1f | %.1f | %.2f | %.2f to %.2f |\n", w->name, (unsigned long long)t.records, (unsigned long long)t.fields,
        1e6 * t.ours, 1e6 * t.plain, t.ratio, t.low, t.high);
    fflush(stdout);
}

__attribute__((noinline)) static uint64_t say_name(const struct work *w)
{
    puts(w->name);
    return 0;
}

/* One call of each, for a tool that counts the instructions from the beginning of one function to that of the next. */
static void once_row(const struct work *w)
{
    struct times t;
    compare(w, &t);
    sink += call_ours(w);
    sink += call_plain(w);
    sink += say_name(w);
}

/* ---- the stack of a call */

enum { STACK = 1 << 20, PAINT = 0xA7 };
static _Alignas(4096) uint8_t stack[STACK];

/* What a thread runs: nothing, or one call. */
struct called {
    uint64_t (*call)(const struct work *);
    const struct work *work;
};

static void *call_once(void *given)
{
    const struct called *c = given;
    if (c->call)
        sink += c->call(c->work);
    return NULL;
}

/* How many bytes of a painted stack, which grows downwards, a thread leaves changed. */
static size_t painted_use(struct called c)
{
    pthread_t thread;
    pthread_attr_t how;
    memset(stack, PAINT, STACK);
    if (pthread_attr_init(&how) || pthread_attr_setstack(&how, stack, STACK) || pthread_create(&thread, &how, call_once, &c) || pthread_join(thread, NULL))
        exit(1);
    size_t i = 0;
    while (i < STACK && stack[i] == PAINT)
        i++;
    return STACK - i;
}

/* Without what a thread takes that calls nothing. */
static void stack_row(const struct work *w)
{
    struct times t;
    compare(w, &t);
    size_t none = painted_use((struct called){NULL, w});
    size_t ours = painted_use((struct called){call_ours, w}) - none, plain = painted_use((struct called){call_plain, w}) - none;
    printf("| %s | %zu | %zu |\n", w->name, ours, plain);
}

static void (*row)(const struct work *w) = timed_row;

static const char mixed[] = "1,(P,16,9),1/17,(P,16,9),10/33,(P,16,9),19/49,(U,8,15),28/57,(U,8,15),43";
static const char mixed_shape[] = "zzzzzzzzzzzzzzzszzzzzzzzzzzzzzzszzzzzzzzzzzzzzzsddddddde" "ddddddde" "................";

static void fixed_workloads(void)
{
    deck(&current, "FF, 80 bytes, TRF, one copy field", "TRF,FF,A=(80,3200),B=(80,3200)", "1,80,1");
    fixed_reel(&current, REEL, 80, 3200, NULL);
    row(&current);
    deck(&current, "FF, 80 bytes, TR", "TR,FF,A=(80,3200),B=(80,1600)", NULL);
    fixed_reel(&current, REEL - 200, 80, 3200, NULL);
    row(&current);
    deck(&current, "FF, 80 bytes, TF, three packs and two unpacks", "TF,FF,A=(80,3200),B=(60,2400)", mixed);
    fixed_reel(&current, REEL, 80, 3200, mixed_shape);
    row(&current);
    deck(&current, "FF, one byte, TR", "TR,FF,A=(1,32760),B=(1,32760)", NULL);
    fixed_reel(&current, REEL, 1, 32760, NULL);
    row(&current);
    deck(&current, "FF, one byte, TRF, one copy field", "TRF,FF,A=(1,32760),B=(1,32760)", "1,1,1");
    fixed_reel(&current, REEL, 1, 32760, NULL);
    row(&current);
    deck(&current, "FF, one byte, TRF, one pack field", "TRF,FF,A=(1,32760),B=(1,32760)", "1,(P,1,1),1");
    fixed_reel(&current, REEL, 1, 32760, "s");
    row(&current);
    many_fields(&current, "FF, 4,096 bytes, TRF, 64 copies of 64 bytes", 4096, 64, 64, true);
    fixed_reel(&current, REEL, 4096, 4096, NULL);
    row(&current);
    many_fields(&current, "FF, 4,096 bytes, TRF, 64 copies of 4,096 bytes", 4096, 64, 4096, false);
    fixed_reel(&current, REEL, 4096, 4096, NULL);
    row(&current);
}

static void variable_workloads(void)
{
    deck(&current, "FV, 20 to 120 bytes, TRF, one copy field and CV", "TRF,FV,A=(20,4096),B=(20,4096)", "1,20,1/CV");
    variable_reel(&current, REEL, 20, 120, 4096, NULL);
    row(&current);
    deck(&current, "FV, 16 to 40 bytes, TF, one pack field and CV", "TF,FV,A=(16,4096),B=(9,4096)", "1,(P,16,9),1/CV");
    variable_reel(&current, REEL, 16, 40, 4096, "zzzzzzzzzzzzzzzs");
    row(&current);
    deck(&current, "FV, 1 to 8 bytes, TR", "TR,FV,A=(4096),B=(4096)", NULL);
    variable_reel(&current, REEL, 1, 8, 4096, NULL);
    row(&current);
}

static void copied_workloads(void)
{
    deck(&current, "FF, 80 bytes, TC", "TC,FF,A=(80,3200),B=(80,3200)", NULL);
    fixed_reel(&current, REEL, 80, 3200, NULL);
    row(&current);
    deck(&current, "FV, 20 to 120 bytes, TC", "TC,FV,A=(4096),B=(4096)", NULL);
    variable_reel(&current, REEL, 20, 120, 4096, NULL);
    row(&current);
    deck(&current, "FU, TC", "TC,FU,A=(3200),B=(3200)", NULL);
    fixed_reel(&current, REEL, 80, 3200, NULL);
    row(&current);
}

static void plan_workloads(void)
{
    many_fields(&current, "plan: 64 cards, 64 copies of 4,096 bytes", 4096, 64, 4096, false);
    row(&current);
    many_fields(&current, "plan: 64 cards, 64 copies of 64 bytes", 4096, 64, 64, true);
    row(&current);
    deck(&current, "plan: 3 cards, 80 bytes, five fields", "TF,FF,A=(80,3200),B=(60,2400)", mixed);
    row(&current);
}

static void workloads(void)
{
    fixed_workloads();
    variable_workloads();
    copied_workloads();
    plan_workloads();
}

/* The times at n, 2n and 4n, of ours and of the plain one, and how they grow. */
static void growth_row(const char *what, const struct times t[3])
{
    printf("| %s | %.1f | %.1f | %.1f | %.2f | %.2f | %.2f | %.2f |\n", what, 1e6 * t[0].ours, 1e6 * t[1].ours, 1e6 * t[2].ours,
        t[1].ours / t[0].ours, t[2].ours / t[1].ours, t[1].plain / t[0].plain, t[2].plain / t[1].plain);
    fflush(stdout);
}

/* n doubles twice: what `make` fills in for step 0, 1 and 2. */
static void grow(const char *what, void (*make)(int step))
{
    struct times t[3];
    for (int step = 0; step < 3; step++) {
        make(step);
        t[step] = measure(&current);
    }
    growth_row(what, t);
}

static size_t doubled(size_t n, int step) { return n << step; }

static void more_fixed(int step)
{
    deck(&current, "records", "TRF,FF,A=(80,3200),B=(80,3200)", "1,80,1");
    fixed_reel(&current, doubled(REEL / 4, step), 80, 3200, NULL);
}

static void more_bytes(int step)
{
    deck(&current, "records", "TR,FF,A=(1,32760),B=(1,32760)", NULL);
    fixed_reel(&current, doubled(REEL / 4, step), 1, 32760, NULL);
}

static void more_variable(int step)
{
    deck(&current, "records", "TRF,FV,A=(20,4096),B=(20,4096)", "1,20,1/CV");
    variable_reel(&current, doubled(REEL / 4, step), 20, 120, 4096, NULL);
}

static void more_planned_fields(int step) { many_fields(&current, "fields", 4096, doubled(16, step), 4096, false); }

static void more_fields(int step)
{
    more_planned_fields(step);
    fixed_reel(&current, REEL, 4096, 4096, NULL);
}

static void longer_planned(int step) { many_fields(&current, "length", doubled(1024, step), 64, doubled(1024, step), false); }

static void longer(int step)
{
    size_t n = doubled(1024, step);
    many_fields(&current, "length", n, 4, n, false);
    fixed_reel(&current, 14 * n + 64, n, n, NULL);
}

static void more_cards(int step) { many_fields(&current, "cards", 64, doubled(15, step), 1, true); }

static void growth(void)
{
    puts("| what grows | ours at n | at 2n | at 4n | 2n to n | 4n to 2n | plain C, 2n to n | 4n to 2n |");
    puts("|---|---|---|---|---|---|---|---|");
    grow("records: 16, 32, 64 KiB of 80-byte records, TRF, one copy field", more_fixed);
    grow("records: 16, 32, 64 KiB of one-byte records, TR", more_bytes);
    grow("records: 16, 32, 64 KiB of variable records, TRF with CV", more_variable);
    grow("fields: 16, 32, 64 copies of 4,096 bytes, 15 records", more_fields);
    grow("plan, fields: 16, 32, 64 copies of 4,096 bytes", more_planned_fields);
    grow("record length: 14 records of 1,024, 2,048, 4,096 bytes, 4 copies", longer);
    grow("plan, record length: 64 copies of 1,024, 2,048, 4,096 bytes", longer_planned);
    grow("plan, cards: 17, 32, 62 cards of 80 bytes, one short field each", more_cards);
}

int main(int argc, char **argv)
{
    const char *how = argc > 1 ? argv[1] : "";
    if (strcmp(how, "once") == 0) {
        row = once_row;
        workloads();
        return 0;
    }
    if (strcmp(how, "stack") == 0) {
        row = stack_row;
        puts("| workload | ours, bytes of stack | plain C, bytes of stack |");
        puts("|---|---|---|");
        workloads();
        return 0;
    }
    if (strcmp(how, "quick") == 0)
        least_time = 0.0005;
    puts("| workload | records | fields | ours, microseconds | plain C, microseconds | ratio | 10 to 90 percent |");
    puts("|---|---|---|---|---|---|---|");
    workloads();
    puts("");
    growth();
    return 0;
}
