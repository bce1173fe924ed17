/*
 * Two decks over the same reel. The first packs four zoned digits into three bytes and keeps every record apart. The second packs them into two:
 * the first digit has no room, and two records that differ in it alone become twins. The plan says so before a reel is there.
 */
#include "bhexodana.h"

#include <stdio.h>
#include <string.h>

static const char keeps[] =
    "// UTT TRF,FF,A=(8,16),B=(7,7)\n"
    "// FS 1,4,1/5,(P,4,3),5\n"
    "// END\n";

static const char twins[] =
    "// UTT TRF,FF,A=(8,16),B=(6,6)\n"
    "// FS 1,4,1/5,(P,4,2),5\n"
    "// END\n";

/* One block of two records: C1C2C3C4 and a number of four zoned digits, 1234 and 9234, each with the sign C before its last digit. */
static const uint8_t reel[] = {
    0x00, 0x00, 0x00, 0x01, 0x00, 0x00, 0x00, 0x0C, 0x00, 0x00, 0x00, 0x1C,
    0xC1, 0xC2, 0xC3, 0xC4, 0xF1, 0xF2, 0xF3, 0xC4,
    0xC1, 0xC2, 0xC3, 0xC4, 0xF9, 0xF2, 0xF3, 0xC4,
};

static uint32_t word(const uint8_t *p)
{
    return (uint32_t)p[0] << 24 | (uint32_t)p[1] << 16 | (uint32_t)p[2] << 8 | p[3];
}

static const char *kind_name(uint8_t kind)
{
    return kind == BHX_COPY ? "copy" : kind == BHX_PACK ? "pack" : "unpack";
}

/* Says what the plan of a deck is; answers whether it is accepted. */
static int plan(const char *deck)
{
    bhx_field table[BHX_MOST_FIELDS];
    bhx_planned p = bhx_plan_into((const uint8_t *)deck, strlen(deck), table, BHX_MOST_FIELDS);
    uint64_t i;
    if (p.refusal != 0) {
        printf("refused by %u at %u, column %u\n", (unsigned)p.refusal, (unsigned)p.place, (unsigned)p.column);
        return 0;
    }
    for (i = 0; i < p.fields; i++)
        printf("field %u: %s %u bytes at %u to %u bytes at %u\n", (unsigned)i + 1, kind_name(table[i].kind), table[i].input, table[i].r,
               table[i].output, table[i].t);
    if (p.keeping)
        printf("keeps every record apart\n");
    else
        printf("makes twins: half byte %u is lost\n", (unsigned)p.lost);
    return 1;
}

/* Prints two records that a deck makes one. The first has half of the bytes. */
static int show(const char *deck)
{
    static uint8_t both[BHX_MOST_TWINS];
    bhx_twinned t = bhx_twins((const uint8_t *)deck, strlen(deck), both, sizeof both);
    uint64_t i;
    if (t.refusal != 0) {
        printf("refused by %u at %u, column %u\n", (unsigned)t.refusal, (unsigned)t.place, (unsigned)t.column);
        return 0;
    }
    for (i = 0; i < t.length; i++)
        printf("%s%02X", i == 0 ? "twin 1: " : i == t.length / 2 ? "\ntwin 2: " : "", both[i]);
    printf("\n");
    return 1;
}

/* Runs a deck over the reel and prints the blocks that come out. */
static int run(const char *deck)
{
    static uint8_t out[BHX_MOST_REEL];
    bhx_ran r = bhx_run((const uint8_t *)deck, strlen(deck), reel, sizeof reel, out, sizeof out);
    uint64_t i;
    uint32_t at;
    if (r.refusal != 0) {
        printf("refused by %u at %u, column %u\n", (unsigned)r.refusal, (unsigned)r.place, (unsigned)r.column);
        return 0;
    }
    printf("%u bytes, %u records, %u blocks\n", (unsigned)r.length, (unsigned)r.records, (unsigned)r.blocks);
    for (i = 0; i < r.blocks; i++) {
        printf("block %u: ", (unsigned)i + 1);
        for (at = word(out + 4 + 4 * i); at < word(out + 8 + 4 * i); at++)
            printf("%02X", out[at]);
        printf("\n");
    }
    return 1;
}

int main(void)
{
    if (!plan(keeps) || !run(keeps))
        return 1;
    printf("\n");
    return plan(twins) && show(twins) && run(twins) ? 0 : 1;
}
