/*
 * The C interface at its edges: the layout of what is lent and answered, empty decks and reels, rooms and tables of every size, and that a refused
 * call leaves all lent memory as it was. Each buffer has guards around it, and all its bytes are compared. C99, and C++ as well.
 */
#include "bhexodana.h"

#include <stdio.h>
#include <string.h>

/* The build fails where a layout is another one. */
#define HOLDS(name, test) typedef char name[(test) ? 1 : -1]
HOLDS(version, BHEXODANA_VERSION == 5);
HOLDS(field_size, sizeof(bhx_field) == 10);
HOLDS(field_kind, offsetof(bhx_field, kind) == 0);
HOLDS(field_part, offsetof(bhx_field, part) == 1);
HOLDS(field_part_size, sizeof(((bhx_field *)0)->part) == 1);
HOLDS(parts, BHX_DATA == 0 && BHX_KEY == 1);
HOLDS(field_r, offsetof(bhx_field, r) == 2);
HOLDS(field_input, offsetof(bhx_field, input) == 4);
HOLDS(field_output, offsetof(bhx_field, output) == 6);
HOLDS(field_t, offsetof(bhx_field, t) == 8);
HOLDS(planned_size, sizeof(bhx_planned) == 48);
HOLDS(planned_refusal, offsetof(bhx_planned, refusal) == 0);
HOLDS(planned_place, offsetof(bhx_planned, place) == 8);
HOLDS(planned_column, offsetof(bhx_planned, column) == 16);
HOLDS(planned_keeping, offsetof(bhx_planned, keeping) == 24);
HOLDS(planned_lost, offsetof(bhx_planned, lost) == 32);
HOLDS(planned_fields, offsetof(bhx_planned, fields) == 40);
HOLDS(ran_size, sizeof(bhx_ran) == 48);
HOLDS(ran_refusal, offsetof(bhx_ran, refusal) == 0);
HOLDS(ran_place, offsetof(bhx_ran, place) == 8);
HOLDS(ran_column, offsetof(bhx_ran, column) == 16);
HOLDS(ran_length, offsetof(bhx_ran, length) == 24);
HOLDS(ran_records, offsetof(bhx_ran, records) == 32);
HOLDS(ran_blocks, offsetof(bhx_ran, blocks) == 40);
HOLDS(twinned_size, sizeof(bhx_twinned) == 40);
HOLDS(twinned_refusal, offsetof(bhx_twinned, refusal) == 0);
HOLDS(twinned_place, offsetof(bhx_twinned, place) == 8);
HOLDS(twinned_column, offsetof(bhx_twinned, column) == 16);
HOLDS(twinned_reason, offsetof(bhx_twinned, reason) == 24);
HOLDS(twinned_length, offsetof(bhx_twinned, length) == 32);
HOLDS(judged_size, sizeof(bhx_judged) == 40);
HOLDS(judged_refusal, offsetof(bhx_judged, refusal) == 0);
HOLDS(judged_place, offsetof(bhx_judged, place) == 8);
HOLDS(judged_column, offsetof(bhx_judged, column) == 16);
HOLDS(judged_yes, offsetof(bhx_judged, yes) == 24);
HOLDS(judged_number, offsetof(bhx_judged, number) == 32);
HOLDS(length_size, sizeof(size_t) == 8);

enum { GUARD = 64, ROOM = BHX_MOST_REEL + 16, ENTRIES = 70 };

static const char deck[] = "// UTT TRF,FF,A=(8,16),B=(7,7)\n// FS 1,4,1/5,(P,4,3),5\n// END\n";
static const char twins[] = "// UTT TRF,FF,A=(8,16),B=(6,6)\n// FS 1,4,1/5,(P,4,2),5\n// END\n";
static const char copies[] = "// U TC,FU,A=(9),B=(9)\n// END";
static const char barren[] = "// U TRF,FF,A=(2,2),B=(3,3)\n// FS 1,(P,2,2),1/1,(U,1,1),3\n// END\n";
static const char cut[] = "// U TC,FU,A=(5),B=(5\n// END\n";
static const char twice[] = "// UTT TC,FU,TC,A=(5),B=(5)\n// END\n";
static const char keyed[] = "// U TRF,FF,A=(K=2,D=4),B=(5,10)\n// FS (K,1),2,1/1,(P,4,3),3\n// END\n";
static const char small[] = "// U TF,FF,A=(8,8),B=(8,8)\n// FS 1,8,1/1,0,1\n// END\n";

static const uint8_t empty_reel[8] = {0, 0, 0, 0, 0, 0, 0, 8};
static const uint8_t reel[28] = {
    0x00, 0x00, 0x00, 0x01, 0x00, 0x00, 0x00, 0x0C, 0x00, 0x00, 0x00, 0x1C,
    0xC1, 0xC2, 0xC3, 0xC4, 0xF1, 0xF2, 0xF3, 0xC4,
    0xC1, 0xC2, 0xC3, 0xC4, 0xF9, 0xF2, 0xF3, 0xC4,
};
static const uint8_t result[30] = {
    0x00, 0x00, 0x00, 0x02, 0x00, 0x00, 0x00, 0x10, 0x00, 0x00, 0x00, 0x17, 0x00, 0x00, 0x00, 0x1E,
    0xC1, 0xC2, 0xC3, 0xC4, 0x01, 0x23, 0x4C, 0xC1, 0xC2, 0xC3, 0xC4, 0x09, 0x23, 0x4C,
};

static int calls = 0, wrong = 0;

static void check(int holds, const char *what)
{
    if (holds)
        return;
    wrong++;
    printf("wrong: %s\n", what);
}

/* ---- lent memory: a pattern in and around it, of which only the first bytes may change */

static uint8_t lent_out[GUARD + ROOM + GUARD], before_out[sizeof lent_out];
static union {
    uint8_t bytes[GUARD + ENTRIES * sizeof(bhx_field) + GUARD];
    bhx_field aligned;
} lent_table, before_table;

static void fill(uint8_t *lent, uint8_t *before, size_t size)
{
    size_t i;
    for (i = 0; i < size; i++)
        lent[i] = (uint8_t)(31 + 7 * i + i / 251);
    memcpy(before, lent, size);
}

/* Whether nothing changed but the `changed` bytes behind the guard, which are compared with what they must be. */
static int stays(const uint8_t *lent, const uint8_t *before, size_t size, const uint8_t *now, size_t changed)
{
    return memcmp(lent, before, GUARD) == 0 && memcmp(lent + GUARD, now, changed) == 0 &&
           memcmp(lent + GUARD + changed, before + GUARD + changed, size - GUARD - changed) == 0;
}

/* ---- what is expected, by the header's names */

static bhx_planned planned(uint64_t refusal, uint64_t place, uint64_t column, uint64_t keeping, uint64_t lost, uint64_t fields)
{
    bhx_planned p;
    p.refusal = refusal;
    p.place = place;
    p.column = column;
    p.keeping = keeping;
    p.lost = lost;
    p.fields = fields;
    return p;
}

static bhx_field field_of(uint8_t part, uint8_t kind, uint16_t r, uint16_t input, uint16_t output, uint16_t t)
{
    bhx_field f;
    f.kind = kind;
    f.part = part;
    f.r = r;
    f.input = input;
    f.output = output;
    f.t = t;
    return f;
}

static bhx_field field(uint8_t kind, uint16_t r, uint16_t input, uint16_t output, uint16_t t)
{
    return field_of(BHX_DATA, kind, r, input, output, t);
}

static void same_plan(const char *what, bhx_planned p, bhx_planned want)
{
    check(p.refusal == want.refusal && p.place == want.place && p.column == want.column, what);
    check(p.keeping == want.keeping && p.lost == want.lost && p.fields == want.fields, what);
}

/* ---- runs and plans with their answers */

static void ran(const char *what, const char *cards, const uint8_t *s, size_t s_len, size_t room, uint64_t refusal, uint64_t place, uint64_t column,
                const uint8_t *now, uint64_t length, uint64_t records, uint64_t blocks)
{
    bhx_ran r;
    calls++;
    fill(lent_out, before_out, sizeof lent_out);
    r = bhx_run((const uint8_t *)cards, strlen(cards), s, s_len, lent_out + GUARD, room);
    check(r.refusal == refusal && r.place == place && r.column == column, what);
    check(r.length == length && r.records == records && r.blocks == blocks, what);
    check(stays(lent_out, before_out, sizeof lent_out, now, (size_t)length), what);
}

static void runs(const char *what, const char *cards, const uint8_t *s, size_t s_len, size_t room, const uint8_t *now, uint64_t length,
                 uint64_t records, uint64_t blocks)
{
    ran(what, cards, s, s_len, room, 0, 0, 0, now, length, records, blocks);
}

static void refuses_run(const char *what, const char *cards, const uint8_t *s, size_t s_len, size_t room, uint64_t refusal, uint64_t place,
                        uint64_t column)
{
    ran(what, cards, s, s_len, room, refusal, place, column, s, 0, 0, 0);
}

static void twinned(const char *what, const char *cards, size_t room, uint64_t refusal, uint64_t place, uint64_t column, uint64_t reason, const uint8_t *now,
                    uint64_t length)
{
    bhx_twinned t;
    calls++;
    fill(lent_out, before_out, sizeof lent_out);
    t = bhx_twins((const uint8_t *)cards, strlen(cards), lent_out + GUARD, room);
    check(t.refusal == refusal && t.place == place && t.column == column, what);
    check(t.reason == reason && t.length == length, what);
    check(stays(lent_out, before_out, sizeof lent_out, now, (size_t)length), what);
}

static void shows(const char *what, const char *cards, size_t room, uint64_t reason, const uint8_t *now, uint64_t length)
{
    twinned(what, cards, room, 0, 0, 0, reason, now, length);
}

static void refuses_twins(const char *what, const char *cards, size_t room, uint64_t refusal, uint64_t place, uint64_t column)
{
    twinned(what, cards, room, refusal, place, column, 0, empty_reel, 0);
}

static void judged(const char *what, const char *cards, const uint8_t *ours, size_t ours_len, const uint8_t *theirs, size_t theirs_len, uint64_t refusal,
                   uint64_t place, uint64_t column, uint64_t yes, uint64_t number)
{
    bhx_judged j;
    calls++;
    j = bhx_judge((const uint8_t *)cards, strlen(cards), ours, ours_len, theirs, theirs_len);
    check(j.refusal == refusal && j.place == place && j.column == column, what);
    check(j.yes == yes && j.number == number, what);
}

static void is_true(const char *what, const char *cards, const uint8_t *ours, size_t ours_len, const uint8_t *theirs, size_t theirs_len)
{
    judged(what, cards, ours, ours_len, theirs, theirs_len, 0, 0, 0, 1, 0);
}

static void is_apart(const char *what, const char *cards, const uint8_t *ours, size_t ours_len, const uint8_t *theirs, size_t theirs_len, uint64_t number)
{
    judged(what, cards, ours, ours_len, theirs, theirs_len, 0, 0, 0, 0, number);
}

static void refuses_judge(const char *what, const char *cards, const uint8_t *ours, size_t ours_len, const uint8_t *theirs, size_t theirs_len,
                          uint64_t refusal, uint64_t place, uint64_t column)
{
    judged(what, cards, ours, ours_len, theirs, theirs_len, refusal, place, column, 0, 0);
}

/* Each entry has the part 255 before the call, which no field has: refused leaves it, finished writes 0 or 1 into the first ones. */
static void plans(const char *what, const char *cards, size_t entries, bhx_planned want, const bhx_field *fields)
{
    bhx_planned p;
    uint64_t i;
    size_t n;
    size_t changed = (size_t)want.fields * sizeof(bhx_field);
    bhx_field *table = (bhx_field *)(void *)(lent_table.bytes + GUARD);
    calls++;
    fill(lent_table.bytes, before_table.bytes, sizeof lent_table.bytes);
    for (n = 0; n < ENTRIES; n++)
        table[n].part = 255;
    memcpy(before_table.bytes, lent_table.bytes, sizeof lent_table.bytes);
    p = bhx_plan_into((const uint8_t *)cards, strlen(cards), table, entries);
    same_plan(what, p, want);
    for (i = 0; i < want.fields; i++) {
        check(table[i].kind == fields[i].kind && table[i].part == fields[i].part && table[i].r == fields[i].r, what);
        check(table[i].input == fields[i].input, what);
        check(table[i].output == fields[i].output && table[i].t == fields[i].t, what);
    }
    for (n = (size_t)want.fields; n < ENTRIES; n++)
        check(table[n].part == 255, what);
    check(stays(lent_table.bytes, before_table.bytes, sizeof lent_table.bytes, lent_table.bytes + GUARD, changed), what);
}

/* Five records of one byte from two blocks, two to a block: a length, a count of records and one of blocks that differ. */
static void test_counts(void)
{
    static const uint8_t s[21] = {0, 0, 0, 2, 0, 0, 0, 16, 0, 0, 0, 20, 0, 0, 0, 21, 1, 2, 3, 4, 5};
    static const uint8_t now[25] = {0, 0, 0, 3, 0, 0, 0, 20, 0, 0, 0, 22, 0, 0, 0, 24, 0, 0, 0, 25, 1, 2, 3, 4, 5};
    runs("five records in three blocks", "// U TR,FF,A=(1,4),B=(1,2)\n// END", s, sizeof s, ROOM, now, 25, 5, 3);
}

/* A short block in the middle is taken, one of no whole records is not. */
static void test_short_blocks(void)
{
    static const uint8_t s[30] = {0, 0, 0, 3, 0, 0, 0, 20, 0, 0, 0, 24, 0, 0, 0, 26, 0, 0, 0, 30, 1, 2, 3, 4, 5, 6, 7, 8, 9, 10};
    static const uint8_t filled[30] = {0, 0, 0, 3, 0, 0, 0, 20, 0, 0, 0, 24, 0, 0, 0, 28, 0, 0, 0, 30, 1, 2, 3, 4, 5, 6, 7, 8, 9, 10};
    uint8_t odd[sizeof s];
    runs("a short block in the middle, copied", "// U TC,FF,A=(2,4),B=(2,4)\n// END", s, sizeof s, ROOM, s, 30, 5, 3);
    runs("a short block in the middle, filled", "// U TR,FF,A=(2,4),B=(2,4)\n// END", s, sizeof s, ROOM, filled, 30, 5, 3);
    memcpy(odd, s, sizeof odd);
    odd[15] = 27;
    refuses_run("three bytes in the middle", "// U TC,FF,A=(2,4),B=(2,4)\n// END", odd, sizeof odd, ROOM, 12, 2, 0);
}

static void test_runs(void)
{
    static const uint8_t no_reel[13] = {0, 0, 0, 1, 0, 0, 0, 12, 0, 0, 0, 14, 0x40};
    uint8_t bad[sizeof reel], undefined[14] = {0, 0, 0, 1, 0, 0, 0, 12, 0, 0, 0, 14, 1, 2};
    runs("the paper's run", deck, reel, sizeof reel, ROOM, result, 30, 2, 2);
    runs("room for just the reel", deck, reel, sizeof reel, 30, result, 30, 2, 2);
    refuses_run("a byte too little", deck, reel, sizeof reel, 29, 15, 30, 0);
    refuses_run("no room", deck, reel, sizeof reel, 0, 15, 30, 0);
    runs("an empty reel", deck, empty_reel, 8, 8, empty_reel, 8, 0, 0);
    refuses_run("an empty reel and room 7", deck, empty_reel, 8, 7, 15, 8, 0);
    refuses_run("no byte of a reel", deck, reel, 0, ROOM, 11, 0, 0);
    refuses_run("no byte of a reel and no room", deck, reel, 0, 0, 11, 0, 0);
    refuses_run("not a reel", deck, no_reel, sizeof no_reel, ROOM, 11, 0, 0);
    refuses_run("no deck", "", reel, sizeof reel, ROOM, 2, 1, 0);
    refuses_run("nothing at all", "", reel, 0, 0, 2, 1, 0);
    refuses_run("a refused plan", barren, reel, sizeof reel, ROOM, 10, 0, 0);
    refuses_run("a parameter that stands twice", twice, reel, sizeof reel, ROOM, 4, 1, 14);
    refuses_run("a block too long", "// U TC,FU,A=(9),B=(9)\n// END", reel, sizeof reel, ROOM, 12, 1, 0);
    runs("copied", copies, undefined, sizeof undefined, ROOM, undefined, sizeof undefined, 1, 1);
    memcpy(bad, reel, sizeof bad);
    bad[24] = 0xFA;
    refuses_run("a half that is not permitted, in the last record", deck, bad, sizeof bad, ROOM, 13, 2, 0);
}

/* The plan of a deck without a table. */
static void plain(const char *what, const char *cards, bhx_planned want)
{
    calls++;
    same_plan(what, bhx_plan((const uint8_t *)cards, strlen(cards)), want);
}

static void test_plans(void)
{
    bhx_planned keeps = planned(0, 0, 0, 1, 0, 2), loses = planned(0, 0, 0, 0, 9, 2), short_table = planned(15, 2, 0, 0, 0, 0);
    bhx_planned none = planned(2, 1, 0, 0, 0, 0), no_half = planned(10, 0, 0, 0, 0, 0), no_field = planned(0, 0, 0, 1, 0, 0);
    bhx_field two[2], lossy[2], turned[3];
    two[0] = lossy[0] = field(BHX_COPY, 1, 4, 4, 1);
    two[1] = field(BHX_PACK, 5, 4, 3, 5);
    lossy[1] = field(BHX_PACK, 5, 4, 2, 5);
    turned[0] = field(BHX_PACK, 2, 5, 3, 7);
    turned[1] = field(BHX_UNPACK, 8, 1, 4, 3);
    turned[2] = field(BHX_COPY, 9, 2, 2, 10);
    plain("the plan without a table", twins, loses);
    plain("the plan that keeps, without a table", deck, keeps);
    plain("the plan of no deck, without a table", "", none);
    plain("an operand that stops short, one past its end", cut, planned(3, 1, 22, 0, 0, 0));
    plain("a parameter that stands twice, behind seven bytes", twice, planned(4, 1, 14, 0, 0, 0));
    plain("a number outside its limits, in a second field", small, planned(7, 2, 15, 0, 0, 0));
    plans("a number outside its limits, with a table", small, 64, planned(7, 2, 15, 0, 0, 0), NULL);
    plans("a table of 0", deck, 0, short_table, NULL);
    plans("a table of 1", deck, 1, short_table, NULL);
    plans("a table of 2", deck, 2, keeps, two);
    plans("a table of 64", deck, 64, keeps, two);
    plans("a table of 70", deck, ENTRIES, keeps, two);
    plans("the plan that loses", twins, 64, loses, lossy);
    plans("each kind, five numbers that differ", "// U TRF,FF,A=(12,12),B=(11,11)\n// FS 2,(P,5,3),7/8,(U,1,4),3/9,2,10\n// END", 3, planned(0, 0, 0, 0, 0, 3), turned);
    plans("no field, a table of 0", copies, 0, no_field, NULL);
    plans("no field, a table of 70", copies, ENTRIES, no_field, NULL);
    plans("no deck", "", 64, none, NULL);
    plans("no deck, a table of 0", "", 0, none, NULL);
    plans("a refused plan", barren, 1, no_half, NULL);
}

/* 64 fields fill a table of 64; a 65th is refused, at its card. */
static void test_many_fields(void)
{
    char cards[4096];
    bhx_field fields[BHX_MOST_FIELDS];
    bhx_planned full = planned(0, 0, 0, 1, 0, 64), short_table = planned(15, 64, 0, 0, 0, 0), over = planned(6, 10, 0, 0, 0, 0);
    size_t i, end = (size_t)sprintf(cards, "// U TF,FF,A=(64,64),B=(64,64)\n");
    for (i = 0; i < 64; i++) {
        fields[i] = field(BHX_COPY, (uint16_t)(i + 1), 1, 1, (uint16_t)(64 - i));
        end += (size_t)sprintf(cards + end, "%s%u,1,%u%s", i % 8 ? "/" : "// FS ", fields[i].r, fields[i].t, i % 8 == 7 ? "\n" : "");
    }
    strcpy(cards + end, "// END\n");
    plans("64 fields, a table of 63", cards, 63, short_table, NULL);
    plans("64 fields, a table of 64", cards, 64, full, fields);
    plans("64 fields, a table of 70", cards, ENTRIES, full, fields);
    strcpy(cards + end, "// FS 1,1,1\n// END\n");
    plans("65 fields", cards, ENTRIES, over, NULL);
}

/* A key before the data: the part of each field, blocks of one record, and what is lost counted through the key. */
static void test_keys(void)
{
    static const char lossy[] = "// U TF,FF,A=(K=2,D=1),B=(2,2)\n// FS (K,1),(P,2,1),1/1,1,2\n// END\n";
    static const char of_data[] = "// U TF,FF,A=(K=2,D=2),B=(4,4)\n// FS (K,1),2,1/1,1,3\n// END\n";
    static const uint8_t s[28] = {
        0x00, 0x00, 0x00, 0x02, 0x00, 0x00, 0x00, 0x10, 0x00, 0x00, 0x00, 0x16, 0x00, 0x00, 0x00, 0x1C,
        0xC1, 0xC2, 0xF1, 0xF2, 0xF3, 0xC4, 0xC3, 0xC4, 0xF5, 0xF6, 0xF7, 0xD8,
    };
    static const uint8_t now[22] = {
        0x00, 0x00, 0x00, 0x01, 0x00, 0x00, 0x00, 0x0C, 0x00, 0x00, 0x00, 0x16,
        0xC1, 0xC2, 0x01, 0x23, 0x4C, 0xC3, 0xC4, 0x05, 0x67, 0x8D,
    };
    static const uint8_t joined[24] = {
        0x00, 0x00, 0x00, 0x01, 0x00, 0x00, 0x00, 0x0C, 0x00, 0x00, 0x00, 0x18,
        0xC1, 0xC2, 0xF1, 0xF2, 0xF3, 0xC4, 0xC3, 0xC4, 0xF5, 0xF6, 0xF7, 0xD8,
    };
    static const uint8_t digits[6] = {0xF0, 0xA0, 0x00, 0xF1, 0xA0, 0x00};
    bhx_field two[2], five[5];
    bhx_planned short_table = planned(15, 5, 0, 0, 0, 0);
    static const char many[] = "// U TRF,FF,A=(K=9,D=9),B=(20,20)\n// FS (K,2),3,1/2,3,4/(K,4),(P,5,3),7\n// FS 4,(P,5,3),7/(K,1),(U,1,2),10\n// END\n";
    two[0] = field_of(BHX_KEY, BHX_COPY, 1, 2, 2, 1);
    two[1] = field(BHX_PACK, 1, 4, 3, 3);
    five[0] = field_of(BHX_KEY, BHX_COPY, 2, 3, 3, 1);
    five[1] = field(BHX_COPY, 2, 3, 3, 4);
    five[2] = field_of(BHX_KEY, BHX_PACK, 4, 5, 3, 7);
    five[3] = field(BHX_PACK, 4, 5, 3, 7);
    five[4] = field_of(BHX_KEY, BHX_UNPACK, 1, 1, 2, 10);
    plans("a key, a table of 2", keyed, 2, planned(0, 0, 0, 1, 0, 2), two);
    plans("a key, a table of 70", keyed, ENTRIES, planned(0, 0, 0, 1, 0, 2), two);
    plans("a key, a table of 1", keyed, 1, planned(15, 2, 0, 0, 0, 0), NULL);
    plans("each kind of either part", many, 64, planned(0, 0, 0, 0, 9, 5), five);
    plans("each kind of either part, a table of 4", many, 4, short_table, NULL);
    plain("a byte of the data is lost, counted through the key", of_data, planned(0, 0, 0, 0, 6, 2));
    plain("a total of 4,097", "// U TF,FF,A=(K=4095,D=2),B=(1,1)\n// FS 1,1,1\n// END", planned(7, 1, 24, 0, 0, 0));
    plain("a key in B", "// U TF,FF,A=(3,3),B=(K=1,D=2)\n// END", planned(3, 1, 23, 0, 0, 0));
    plain("a field of a key that A has not", "// U TF,FF,A=(3,3),B=(3,3)\n// FS 1,1,1\n// FS (K,1),1,1\n// END", planned(8, 3, 0, 0, 0, 0));
    plain("a field past the key", "// U TF,FF,A=(K=2,D=4),B=(3,3)\n// FS (K,2),2,1\n// END", planned(9, 1, 0, 0, 0, 0));
    runs("a key before the data", keyed, s, sizeof s, ROOM, now, sizeof now, 2, 1);
    is_true("a key before the data, judged", keyed, s, sizeof s, now, sizeof now);
    refuses_run("two records of a key in one block", keyed, joined, sizeof joined, ROOM, 12, 1, 0);
    shows("a digit of the key is dropped", lossy, 6, BHX_DROPPED, digits, 6);
    refuses_twins("a byte too little for key and data", lossy, 5, 15, 6, 0);
}

/* Records in segments: two of 6 and 3 bytes in three blocks of at most 12, and in two of at most 20, which are filled. */
static void test_spanned(void)
{
    static const char same[] = "// U TC,FS,A=(12),B=(12)\n// END\n";
    static const char wider[] = "// U TR,FS,A=(12),B=(20)\n// END\n";
    static const uint8_t s[53] = {
        0, 0, 0, 3, 0, 0, 0, 20, 0, 0, 0, 32, 0, 0, 0, 42, 0, 0, 0, 53,
        0, 12, 0, 0, 0, 8, 1, 0, 1, 2, 3, 4,
        0, 10, 0, 0, 0, 6, 2, 0, 5, 6,
        0, 11, 0, 0, 0, 7, 0, 0, 7, 8, 9,
    };
    static const uint8_t filled[45] = {
        0, 0, 0, 2, 0, 0, 0, 16, 0, 0, 0, 36, 0, 0, 0, 45,
        0, 20, 0, 0, 0, 10, 0, 0, 1, 2, 3, 4, 5, 6, 0, 6, 1, 0, 7, 8,
        0, 9, 0, 0, 0, 5, 2, 0, 9,
    };
    uint8_t bad[sizeof s];
    plans("spanned records, a table of 0", wider, 0, planned(0, 0, 0, 1, 0, 0), NULL);
    plain("a block under 9 in FS", "// U TR,FS,A=(8),B=(9)\n// END", planned(7, 1, 15, 0, 0, 0));
    plain("fields in FS", "// U TRF,FS,A=(9),B=(9)\n// FS 1,1,1\n// END", planned(8, 1, 0, 0, 0, 0));
    runs("segments, copied", same, s, sizeof s, ROOM, s, sizeof s, 2, 3);
    runs("segments, filled", wider, s, sizeof s, ROOM, filled, sizeof filled, 2, 2);
    refuses_run("a byte too little for segments", wider, s, sizeof s, sizeof filled - 1, 15, sizeof filled, 0);
    memcpy(bad, s, sizeof bad);
    bad[48] = 1;
    refuses_run("a record that is unfinished at the end", wider, bad, sizeof bad, ROOM, 12, 3, 0);
    refuses_judge("theirs is unfinished at the end", wider, s, sizeof s, bad, sizeof bad, 18, 3, 0);
    bad[38] = 0;
    refuses_run("a segment out of turn", same, bad, sizeof bad, ROOM, 12, 2, 0);
    is_true("segments, filled as a run does", wider, s, sizeof s, filled, sizeof filled);
    is_true("segments that lie as ours do", wider, s, sizeof s, s, sizeof s);
    refuses_judge("a block of theirs past g", "// U TR,FS,A=(12),B=(11)\n// END", s, sizeof s, s, sizeof s, 18, 1, 0);
    memcpy(bad, s, sizeof bad);
    bad[52]++;
    is_apart("the last byte of the second record", wider, s, sizeof s, bad, sizeof bad, 2);
    refuses_twins("twins of spanned records", wider, 0, 16, 0, 0);
}

/* Each reason, with the bytes of both records: halves that a field permits only some values of have the lowest, as the zone F and the sign A. */
static void test_twins(void)
{
    static const char unread[] = "// U TF,FF,A=(3,3),B=(2,2)\n// FS 1,1,1/3,1,2\n// END\n";
    static const char covered[] = "// U TF,FF,A=(2,2),B=(2,2)\n// FS 1,(P,2,2),1/1,1,2\n// END\n";
    static const char twice_read[] = "// U TF,FF,A=(2,2),B=(2,2)\n// FS 1,2,1/1,(U,2,1),1\n// END\n";
    static const char tail[] = "// U TF,FV,A=(4,13),B=(3,11)\n// FS 1,(P,4,3),1\n// END\n";
    static const uint8_t middle[6] = {0x00, 0x00, 0x00, 0x00, 0x10, 0x00};
    static const uint8_t digits[16] = {0x00, 0x00, 0x00, 0x00, 0xF0, 0xF0, 0xF0, 0xA0, 0x00, 0x00, 0x00, 0x00, 0xF1, 0xF0, 0xF0, 0xA0};
    static const uint8_t signs[4] = {0xF0, 0xA0, 0xF0, 0xB0};
    static const uint8_t packed[4] = {0x00, 0x0A, 0x10, 0x0A};
    static const uint8_t longer[9] = {0xF0, 0xF0, 0xF0, 0xA0, 0xF0, 0xF0, 0xF0, 0xA0, 0x00};
    shows("never read", unread, 6, BHX_NEVER_READ, middle, 6);
    shows("dropped", twins, 16, BHX_DROPPED, digits, 16);
    shows("dropped, and more room", twins, ROOM, BHX_DROPPED, digits, 16);
    shows("covered", covered, 4, BHX_COVERED, signs, 4);
    shows("covered, and dropped by the last that reads it", twice_read, ROOM, BHX_DROPPED, packed, 4);
    shows("the tail", tail, 9, BHX_TAIL, longer, 9);
    refuses_twins("a byte too little", twins, 15, 15, 16, 0);
    refuses_twins("room for one record", twins, 8, 15, 16, 0);
    refuses_twins("no room", twins, 0, 15, 16, 0);
    refuses_twins("a byte too little for the tail", tail, 8, 15, 9, 0);
    refuses_twins("a plan that keeps", deck, ROOM, 16, 0, 0);
    refuses_twins("a plan that keeps, and no room", deck, 0, 16, 0, 0);
    refuses_twins("a copy", copies, 0, 16, 0, 0);
    refuses_twins("no deck", "", ROOM, 2, 1, 0);
    refuses_twins("nothing at all", "", 0, 2, 1, 0);
    refuses_twins("a refused plan", barren, ROOM, 10, 0, 0);
    refuses_twins("a parameter that stands twice", twice, ROOM, 4, 1, 14);
    refuses_twins("a number outside its limits, and no room", small, 0, 7, 2, 15);
}

/* Records of 4,096 bytes: the tail, which needs the most room, and the lost half in the first byte and in the last. */
static void test_long_twins(void)
{
    static const char tail[] = "// U TF,FV,A=(4096,4105),B=(4096,4104)\n// FS 1,4096,1\n// END\n";
    static const char first[] = "// U TF,FF,A=(4096,4096),B=(4096,4096)\n// FS 2,4095,2\n// END\n";
    static const char last[] = "// U TF,FF,A=(4096,4096),B=(4096,4096)\n// FS 1,4096,1/1,1,4096\n// END\n";
    static uint8_t both[BHX_MOST_TWINS];
    shows("the tail of 4,096 bytes", tail, BHX_MOST_TWINS, BHX_TAIL, both, 8193);
    refuses_twins("a byte too little for it", tail, BHX_MOST_TWINS - 1, 15, 8193, 0);
    both[4096] = 0x10;
    shows("the first of 4,096 bytes", first, BHX_MOST_TWINS, BHX_NEVER_READ, both, 8192);
    both[4096] = 0;
    both[8191] = 0x10;
    shows("the last of 4,096 bytes", last, 8192, BHX_COVERED, both, 8192);
    refuses_twins("a byte too little for two of 4,096", last, 8191, 15, 8192, 0);
}

/* Both records in one block: a run gives the same output twice. */
static void test_alike(void)
{
    static const uint8_t now[28] = {0, 0, 0, 2, 0, 0, 0, 16, 0, 0, 0, 22, 0, 0, 0, 28, 0, 0, 0, 0, 0, 0x0A, 0, 0, 0, 0, 0, 0x0A};
    uint8_t both[28] = {0, 0, 0, 1, 0, 0, 0, 12, 0, 0, 0, 28};
    bhx_twinned t = bhx_twins((const uint8_t *)twins, strlen(twins), both + 12, 16);
    calls++;
    check(t.refusal == 0 && t.length == 16, "twins for a run");
    runs("the run of twins", twins, both, sizeof both, ROOM, now, 28, 2, 2);
}

/* Yes, which record is apart, and what is refused; the blocks need not be those of a run. */
static void test_judge(void)
{
    static const char wide[] = "// U TRF,FF,A=(8,16),B=(7,14)\n// FS 1,4,1/5,(P,4,3),5\n// END\n";
    static const char second[] = "// U TRF,FF,A=(8,16),B=(7,7),R2\n// FS 1,4,1/5,(P,4,3),5\n// END\n";
    static const char gap[] = "// U TRF,FF,A=(8,16),B=(7,7)\n// FS 1,4,1/5,(P,4,2),6\n// END\n";
    static const uint8_t gaps[3] = {0x00, 0x23, 0x4C};
    uint8_t one[19] = {0, 0, 0, 1, 0, 0, 0, 12, 0, 0, 0, 19}, other[sizeof result];
    memcpy(one + 12, result + 16, 7);
    is_true("what a run wrote", deck, reel, sizeof reel, result, sizeof result);
    is_true("blocks that are not full", wide, reel, sizeof reel, result, sizeof result);
    is_true("both empty", deck, empty_reel, 8, empty_reel, 8);
    is_true("both empty, from record 2 on", second, empty_reel, 8, empty_reel, 8);
    is_apart("theirs lacks a record", deck, reel, sizeof reel, one, sizeof one, 2);
    is_apart("theirs lacks all", deck, reel, sizeof reel, empty_reel, 8, 1);
    is_apart("ours lacks all", deck, empty_reel, 8, one, sizeof one, 1);
    is_apart("the first record where the second is asked for", second, reel, sizeof reel, one, sizeof one, 1);
    one[16] = 9;
    is_true("the second record alone, from record 2 on", second, reel, sizeof reel, one, sizeof one);
    memcpy(other, result, sizeof other);
    other[20] = 9;
    is_apart("ours lacks a record, from record 2 on", second, reel, sizeof reel, other, sizeof other, 2);
    memcpy(other, result, sizeof other);
    other[29] = 0x4D;
    is_apart("the sign of the last record", deck, reel, sizeof reel, other, sizeof other, 2);
    other[16] = 0;
    is_apart("the first of two records", deck, reel, sizeof reel, other, sizeof other, 1);
    memcpy(other, result, sizeof other);
    memcpy(other + 20, gaps, sizeof gaps);
    memcpy(other + 27, gaps, sizeof gaps);
    other[27] = 0xFF;
    is_true("a byte that nothing writes", gap, reel, sizeof reel, other, sizeof other);
    other[16] = 0;
    other[11] = 24;
    refuses_judge("a block of theirs past m, and a record that is apart", deck, reel, sizeof reel, other, sizeof other, 18, 1, 0);
    other[11] = 23;
    other[15] = 29;
    refuses_judge("a block of no whole records, behind a record that is apart", deck, reel, sizeof reel, other, sizeof other - 1, 18, 2, 0);
}

/* What is refused before anything is judged, in its order. */
static void test_not_judged(void)
{
    static const char copied[] = "// U TC,FF,A=(8,16),B=(8,16)\n// END\n";
    static const char with_fields[] = "// U TC,FF,A=(8,16),B=(8,16)\n// FS 1,1,1\n// END\n";
    static const char selected[] = "// U TF,FF,A=(8,16),B=(7,14)\n// FS 1,4,1/5,(P,4,3),5\n// END\n";
    uint8_t bad[sizeof reel];
    memcpy(bad, reel, sizeof bad);
    bad[24] = 0xFA;
    refuses_judge("no byte of theirs", deck, reel, sizeof reel, reel, 0, 17, 0, 0);
    refuses_judge("theirs is cut", deck, reel, sizeof reel, result, sizeof result - 1, 17, 0, 0);
    refuses_judge("no byte of ours", deck, reel, 0, result, sizeof result, 11, 0, 0);
    refuses_judge("no byte of either", deck, reel, 0, result, 0, 11, 0, 0);
    refuses_judge("nothing at all", "", reel, 0, result, 0, 2, 1, 0);
    refuses_judge("a block of ours past m", "// U TR,FF,A=(8,8),B=(8,8)\n// END", reel, sizeof reel, result, 0, 12, 1, 0);
    refuses_judge("a half of ours that is not permitted", deck, bad, sizeof bad, result, 0, 13, 2, 0);
    refuses_judge("TC", copied, reel, sizeof reel, reel, sizeof reel, 8, 1, 0);
    refuses_judge("TF", selected, reel, sizeof reel, result, sizeof result, 8, 1, 0);
    refuses_judge("TC with an FS card", with_fields, reel, 0, result, 0, 8, 1, 0);
    refuses_judge("a refused plan", barren, reel, sizeof reel, result, sizeof result, 10, 0, 0);
    refuses_judge("a parameter that stands twice", twice, reel, sizeof reel, result, sizeof result, 4, 1, 14);
    refuses_judge("a number outside its limits", small, reel, 0, result, 0, 7, 2, 15);
}

/* Records of any length: with CV the tail counts, without it a longer record is apart, and data is at least B's n. */
static void test_judged_lengths(void)
{
    static const char carried[] = "// U TRF,FV,A=(2,30),B=(1,30)\n// FS 2,1,1/CV\n// END\n";
    static const char dropped[] = "// U TRF,FV,A=(2,30),B=(1,30)\n// FS 2,1,1\n// END\n";
    static const char two[] = "// U TRF,FV,A=(2,30),B=(2,30)\n// FS 1,2,1\n// END\n";
    static const uint8_t s[23] = {0, 0, 0, 1, 0, 0, 0, 12, 0, 0, 0, 23, 0, 11, 0, 0, 0, 7, 0, 0, 1, 2, 3};
    uint8_t t[22] = {0, 0, 0, 1, 0, 0, 0, 12, 0, 0, 0, 22, 0, 10, 0, 0, 0, 6, 0, 0, 2, 3};
    static const uint8_t least[21] = {0, 0, 0, 1, 0, 0, 0, 12, 0, 0, 0, 21, 0, 9, 0, 0, 0, 5, 0, 0, 2};
    is_true("a tail that is carried", carried, s, sizeof s, t, sizeof t);
    is_apart("a tail that is not", dropped, s, sizeof s, t, sizeof t, 1);
    is_true("no tail", dropped, s, sizeof s, least, sizeof least);
    is_apart("no tail where one is carried", carried, s, sizeof s, least, sizeof least, 1);
    refuses_judge("data of theirs under B's n", two, s, sizeof s, least, sizeof least, 18, 1, 0);
    t[21] = 4;
    is_apart("another byte of the tail", carried, s, sizeof s, t, sizeof t, 1);
}

int main(void)
{
    test_runs();
    test_counts();
    test_short_blocks();
    test_plans();
    test_many_fields();
    test_keys();
    test_spanned();
    test_twins();
    test_long_twins();
    test_alike();
    test_judge();
    test_not_judged();
    test_judged_lengths();
    printf("%d calls, %d wrong\n", calls, wrong);
    return wrong ? 1 : 0;
}
