/*
 * Bhexodana: converts reels of blocked records as the cards of a deck ask.
 *
 * Link with libbhexodana.a, which `./bhexodana build` writes for x86-64 Linux.
 *
 * Memory
 *   The caller owns all of it. The library keeps no pointer after a call, reserves nothing and has nothing to free. It has no state of its own,
 *   so calls from several threads are independent if they lend different memory.
 *   No pointer may be null, also where its length is 0: lend any address then.
 *   What is lent in one call must not overlap: the deck, the reels, the output and the table are different memory.
 *   The table must be aligned as an array of bhx_field is.
 *   The calls that were measured used up to some 80 KB of stack.
 *   The deck and the reels are only read. A refused call leaves every byte of the output and every entry of the table as it was. Finished runs and
 *   twins leave the bytes of the output past the length as they were, and a finished plan the entries past the field count.
 *
 * Refusals
 *   Every answer begins with a refusal, a place and a column. Refusal 0 says that the call finished; its place and column are 0, and the other numbers
 *   are what was asked for. Where it is 1 to 18 the other numbers are 0. The lowest number that applies is given, at its first place, and there at its
 *   lowest column:
 *
 *    1  a line is no card                                            card, from 1
 *    2  no card, wrong order, no END card, or over 64 cards          the first card at fault, or one past the last
 *    3  an operand is not of its grammar                             card
 *    4  a parameter or CV stands twice                               card of the second
 *    5  T, F, A or B is missing                                      1
 *    6  a 65th field                                                 its card
 *    7  a number is outside its limits                               card
 *    8  a combination of the cards is not allowed                    1; an FS card in TC or TR: 2; CV outside FV: its card; (K,r) without a key in A: its card
 *    9  a field lies outside its records, or outside its part        field, from 1
 *   10  a half byte has no permitted value                           the lowest such half, from 0
 *   11  not a reel                                                   0
 *   12  a block breaks its rule                                      block, from 1
 *   13  a record taken has a half byte that is not permitted         record, from 1 in the input
 *   14  a record's output does not fit a block of B                  record, from 1 in the input
 *   15  run: the output reel is longer than the room, or than 65,536 bytes    its length
 *       plan: the table has fewer entries than the plan has fields            the field count
 *       twins: the plan loses, and the room is too short for both records     the bytes needed
 *   16  twins: the plan keeps, in any room: no two records become alike       0
 *   17  judge: theirs is not a reel                                           0
 *   18  judge: a block of theirs breaks the rule of F and B                   block, from 1
 *
 *   A plan answers 1 to 10, and 15 where a table is lent; a run answers 1 to 15; twins answer 1 to 10, 15 and 16; judge answers 1 to 14, 17 and 18.
 *
 *   7: in FV and FS a single number of A or B is at least 9. With a key, A=(K=l,D=l), both lengths are 1 to 4,096 and together at most 4,096; a greater total is a
 *   fault of D's number.
 *
 *   8: a key in A stands only with FF, and with TF or TRF; in TF a block of B then holds one record. (K,r) stands only where A has a key. Format FS stands only with
 *   TC or TR, with one number each for A and B.
 *
 *   To judge, a deck has TR or TRF: TC and TF are 8 at 1, whatever else 8 to 10 find.
 *
 *   9: with a key a field reads the key or the data, and lies wholly in it; positions count from 1 in each.
 *
 *   12: in FF, FV and FU each block obeys its rule by itself, wherever it stands. In FF it is a positive multiple of n bytes, at most m, so short blocks may stand inside a
 *   reel; with a key it is one record, key and data, of exactly K+D bytes; in FV it has at most m or g bytes and is filled by its records, each with its length, and with fields at least n bytes of data in each; in FU
 *   it has at most g bytes.
 *   In FS a block has at most g bytes and is filled by segments, each with its length and its code: 0 a whole record, 1 the first segment of one, 2 the last, 3 one
 *   between. A record is its segments' data joined, and may be longer than a block. A segment out of turn, or one that takes its record past 32,752 bytes, is refused at
 *   its block, and a record that is unfinished at the end at the last block.
 *
 *   13 and 14 do not occur in FS: it has no fields, and a record that does not fit a block is cut.
 *
 *   18: 12 with the numbers of B. A block need not be full. In FV with fields a record has at least B's n bytes of data.
 *
 *   Half bytes, in 10 and in what a plan loses, are counted from 0, two to a byte. With a key they are numbered through the key first: the byte at position r of
 *   the data has the half bytes 2(K+r-1) and 2(K+r-1)+1.
 *
 *   The column is that of a byte of the card which the place names, from 1:
 *    3  the first column at which no continuation of the operand could be right; one past its end where the operand stops short
 *    4  the first byte of the second occurrence
 *    7  the number's first digit; for a total of key and data over 4,096 that of D
 *   For all other refusals it is 0.
 */
#ifndef BHEXODANA_H
#define BHEXODANA_H

#include <stddef.h>
#include <stdint.h>

/* The version of this interface. It rises when an answer or an entry gets another shape, and when one is added. */
#define BHEXODANA_VERSION 5

/* What a field does: bhx_field.kind. */
#define BHX_COPY 0
#define BHX_PACK 1
#define BHX_UNPACK 2

/* The part of the input record that a field reads: bhx_field.part. Without keys it is always the data. */
#define BHX_DATA 0
#define BHX_KEY 1

/* Why two records become alike: bhx_twinned.reason. Where several fields read the lost half byte, it is that of the last one which reads it. */
#define BHX_NEVER_READ 1 /* no field reads the lost half byte */
#define BHX_DROPPED 2    /* the field has no place for it */
#define BHX_COVERED 3    /* a later field is written over it */
#define BHX_TAIL 4       /* the data past A's n are not carried */

/* A plan has at most so many fields: a table of this many entries always has room. */
#define BHX_MOST_FIELDS 64

/* A reel has at most so many bytes: an output of this size has room for every reel that can be written. */
#define BHX_MOST_REEL 65536

/* Twins have at most so many bytes: an output of this size has room for both records, whatever the plan. */
#define BHX_MOST_TWINS 8193

#ifdef __cplusplus
extern "C" {
#endif

/* A field of a plan: `input` bytes of its part of the record from position r on become `output` bytes of the output record from position t on. */
typedef struct {
    uint8_t kind;    /* BHX_COPY, BHX_PACK or BHX_UNPACK */
    uint8_t part;    /* BHX_DATA or BHX_KEY */
    uint16_t r;      /* first position in that part of the input record, from 1, as on the card */
    uint16_t input;  /* bytes read; for a copy the same as output */
    uint16_t output; /* bytes written */
    uint16_t t;      /* first position in the output record, from 1 */
} bhx_field;

/* What a plan answers. */
typedef struct {
    uint64_t refusal; /* 0, or the number of the refusal */
    uint64_t place;   /* where it was refused */
    uint64_t column;  /* for 3, 4 and 7 the byte of the card, from 1; otherwise 0 */
    uint64_t keeping; /* 1 if no two different records that the plan converts have the same output, 0 if some have */
    uint64_t lost;    /* where keeping is 0: the lowest half byte that is lost, from 0, through the key first; or two times A's n for the data past A's n */
    uint64_t fields;  /* how many fields the plan has */
} bhx_planned;

/* What a run answers. */
typedef struct {
    uint64_t refusal; /* 0, or the number of the refusal */
    uint64_t place;   /* where it was refused */
    uint64_t column;  /* for 3, 4 and 7 the byte of the card, from 1; otherwise 0 */
    uint64_t length;  /* how many bytes of the output are the reel that was written */
    uint64_t records; /* how many records it has; in FS these, and not their segments */
    uint64_t blocks;  /* how many blocks it has */
} bhx_ran;

/* What twins answer. */
typedef struct {
    uint64_t refusal; /* 0, or the number of the refusal */
    uint64_t place;   /* where it was refused */
    uint64_t column;  /* for 3, 4 and 7 the byte of the card, from 1; otherwise 0 */
    uint64_t reason;  /* BHX_NEVER_READ, BHX_DROPPED, BHX_COVERED or BHX_TAIL */
    uint64_t length;  /* how many bytes of the output both records have; the first has half of them, rounded down */
} bhx_twinned;

/* What is answered for a reel from elsewhere. */
typedef struct {
    uint64_t refusal; /* 0, or the number of the refusal */
    uint64_t place;   /* where it was refused */
    uint64_t column;  /* for 3, 4 and 7 the byte of the card, from 1; otherwise 0 */
    uint64_t yes;     /* 1 if theirs is a true conversion of ours, 0 if not; 0 too if the call is refused: ask refusal first */
    uint64_t number;  /* where it is none: the first record that disagrees or lacks a partner, from 1 in the output; otherwise 0 */
} bhx_judged;

/* The plan of a deck. */
bhx_planned bhx_plan(const uint8_t *deck, size_t deck_len);

/* The plan of a deck, with its fields in the first entries of a table of so many entries. */
bhx_planned bhx_plan_into(const uint8_t *deck, size_t deck_len, bhx_field *table, size_t entries);

/* Runs a deck over a reel: the reel that it gives is written from the first byte of the output on, which has room for so many bytes. */
bhx_ran bhx_run(const uint8_t *deck, size_t deck_len, const uint8_t *reel, size_t reel_len, uint8_t *out, size_t room);

/*
 * Shows what the plan of a deck loses: two input records that it converts to the same output, one behind the other from the first byte of the output on,
 * which has room for so many bytes. They are data only, A's n bytes each, with a key key and data joined, K+D bytes each, and differ in the lost half byte alone; where the tail is lost
 * the second is the first and a byte 00 behind it.
 */
bhx_twinned bhx_twins(const uint8_t *deck, size_t deck_len, uint8_t *out, size_t room);

/*
 * Judges a reel from elsewhere: is theirs a true conversion of ours by the deck, which has TR or TRF? It is exactly if its records, in order, are as many as a run over
 * ours writes, each as long, and have its bytes at every position that a field or the tail writes, in TR at all. How its records lie in blocks, and in FS in segments, does
 * not matter. Nothing is written. Record 1 of the output is record R of ours.
 */
bhx_judged bhx_judge(const uint8_t *deck, size_t deck_len, const uint8_t *ours, size_t ours_len, const uint8_t *theirs, size_t theirs_len);

#ifdef __cplusplus
}
#endif

#endif
