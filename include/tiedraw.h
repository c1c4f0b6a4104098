/*
 * tiedraw: tie draws for mine dispatch, proved.
 *
 * A pit's card (bytes) sets up a generator; a state (words of 32 bits) is where it stands. The caller keeps both
 * and lends them to each call. Two servers with the same card and state draw the same lots.
 *
 * First what the caller answers for, since C can't check it. An array is a pointer and a count of entries; null
 * goes with a count of 0 alone. Each array has as many entries as its count says, is aligned for its type, stays
 * valid and is written by nobody else until the call returns; and `state`, `strip` and `page` overlap no other array
 * of the call. A null pointer with a count that is not 0, or a count that is too large, is the caller's fault: the
 * call then reads or writes what it was not lent.
 *
 * Given that, whatever bytes and numbers are handed over, a call returns with an answer, or with the refusal number
 * of the first check that applies. A card's fields are checked in turn, each by 1, 2, 3, and 4 at the table's place;
 * then come 5 to 26 in order, but that a recorded pick tells 16 after 18, and a pick by the map 25 before 18. A refusal
 * changes nothing: state, strip and page are as they were lent, and the other fields of the answer are 0.
 *
 * Calls keep nothing, allocate nothing and use no global data, so that any number of threads may call at once, each
 * on a state of its own. The library needs memcpy and memset of the C library, and nothing else. It is compiled for
 * x86-64 alone so far; README.md says what another processor would need.
 */
#ifndef TIEDRAW_H
#define TIEDRAW_H

#include <stddef.h>
#include <stdint.h>

#ifdef __cplusplus
extern "C" {
#endif

/* The version of this header, and as one number. A client was compiled for the library that is loaded where
   tiedraw_version() / 1000 is TIEDRAW_VERSION_NUMBER / 1000; the shared library's name ends in those two numbers. */
#define TIEDRAW_VERSION_MAJOR 0
#define TIEDRAW_VERSION_MINOR 4
#define TIEDRAW_VERSION_PATCH 4
#define TIEDRAW_VERSION_NUMBER (TIEDRAW_VERSION_MAJOR * 1000000 + TIEDRAW_VERSION_MINOR * 1000 + TIEDRAW_VERSION_PATCH)

/* The most words of a state, entries of a table, bytes of an accepted card, shovels of a list, words taken for a pick,
   bytes of a record, words of a strip whose bits are counted, and bad places of a table; the greatest coordinate and
   radius, in metres. */
#define TIEDRAW_MOST_WORDS 8
#define TIEDRAW_TABLE_SIZE (1 << TIEDRAW_MOST_WORDS)
#define TIEDRAW_MOST_CARD_BYTES 267
#define TIEDRAW_MOST_SHOVELS 64
#define TIEDRAW_MOST_TAKEN 16
#define TIEDRAW_MOST_RECORD_BYTES (8 + 4 * TIEDRAW_MOST_WORDS)
#define TIEDRAW_MOST_STRIP_WORDS 16384
#define TIEDRAW_MOST_BAD_PLACES (TIEDRAW_TABLE_SIZE / 2)
#define TIEDRAW_MOST_COORDINATE 1000000
#define TIEDRAW_MOST_RADIUS 3000000

/*
 * A card is a map byte and then the fields whose bit is 1, from bit 0 up. m, n and C are the first, second and sixth.
 *
 *   bit  field         bytes               allowed                           if absent
 *   0    words m       1                   2 to 8                            4
 *   1    width n       1                   2 to 32                           32
 *   2    table         2^m                 entries below 2^m, one cycle (7)  TSC-1's, for m = 4 alone
 *   3    odd power     1                   0 to 255, odd (9)                 1
 *   4    even power    1                   0 to 255, even (9)                2
 *   5    constant C    4, low byte first   below 2^n (6), odd (8)            12488421 hex
 *   6    filter        1                   1 or 2                            1
 *   7    sum term      1                   0 or 1                            1
 */

/*
 * A record is what a recorded pick leaves of a tie: a map byte and then the fields whose bit is 1, from bit 0 up.
 *
 *   bit  field                       bytes                                      stands
 *   0    truck                       2, low byte first                          always
 *   1    shovel                      2, low byte first                          always
 *   2    ties                        1                                          in our picks' records
 *   3    words taken                 1                                          in our picks' records
 *   4    the state before the pick   a count, 2 to 8; then as many words of 4   in our picks' records
 *                                    bytes, low byte first
 */

/* Refusals: the number, the trade word before the colon, and when it is told. */
enum tiedraw_refusal {
    TIEDRAW_TRUNCATED = 1,            /* short: the bytes end before the map, or before the last byte of a field */
    TIEDRAW_OUT_OF_RANGE = 2,         /* range: a field or table entry outside the allowed values */
    TIEDRAW_REDUNDANT = 3,            /* idle: a field is given that equals its absent value */
    TIEDRAW_TABLE_MISSING = 4,        /* tableless: m is not 4, and no table is given */
    TIEDRAW_TRAILING_BYTES = 5,       /* long: bytes are left after the card's last field */
    TIEDRAW_CONSTANT_TOO_WIDE = 6,    /* wide: C, given or absent, is 2^n or more */
    TIEDRAW_NOT_SINGLE_CYCLE = 7,     /* broken ring: following the table from 0 doesn't pass all its entries and return */
    TIEDRAW_EVEN_CONSTANT = 8,        /* even constant: C is even */
    TIEDRAW_POWER_PARITY = 9,         /* powers: the odd power is even, or the even power is odd */
    TIEDRAW_WORD_COUNT = 10,          /* word count: the state has not m words */
    TIEDRAW_WORD_TOO_WIDE = 11,       /* high bits: a state word is 2^n or more */
    TIEDRAW_LENGTH_MISMATCH = 12,     /* uneven: shovels and times, or shovels and their places, differ in count */
    TIEDRAW_NO_SHOVEL = 13,           /* no shovel: the list is empty */
    TIEDRAW_TOO_MANY_SHOVELS = 14,    /* crowd: more than 64 shovels */
    TIEDRAW_DUPLICATE_SHOVEL = 15,    /* twice: a shovel number stands twice */
    TIEDRAW_BUFFER_TOO_SMALL = 16,    /* small page: the page has fewer bytes than the card or the record needs */
    TIEDRAW_SPAN_OUT_OF_BOUNDS = 17,  /* span: the place is past the strip's end, or the count does not fit behind it */
    TIEDRAW_TOO_MANY_TIES = 18,       /* too many equals: more shovels are nearest than there are words, 2^n */
    TIEDRAW_NO_SUCH_CHANGE = 19,      /* firm: no change of one shovel's time sends the truck elsewhere */
    TIEDRAW_MALFORMED_RECORD = 20,    /* torn: a record's map, state count or length is not of the form above */
    TIEDRAW_TRUCK_MISMATCH = 21,      /* other truck: a cab asks for a record of another truck */
    TIEDRAW_STRIP_TOO_LONG = 22,      /* strip too long: more than 16,384 words */
    TIEDRAW_STRIP_WORD_TOO_WIDE = 23, /* strip bits: a strip word is 2^n or more */
    TIEDRAW_BIT_PAGE_TOO_SMALL = 24,  /* bit page: the page has fewer than n bytes for each strip word */
    TIEDRAW_OFF_MAP = 25,             /* off map: a coordinate outside -1000000 to 1000000, or a radius outside 0 to 3000000 */
    TIEDRAW_SINGLE_CYCLE = 26         /* sound ring: bad places are asked of a table that is one cycle of all its entries */
};

/* The eight values of a card. Table entries past 2^words are 0. */
typedef struct tiedraw_card {
    uint8_t words, width, odd_power, even_power, filter, sum_term;
    uint32_t constant;
    uint8_t table[TIEDRAW_TABLE_SIZE];
} tiedraw_card;

typedef struct { tiedraw_card card; uint8_t refusal; } tiedraw_reading;
typedef struct { uint32_t word; uint8_t refusal; } tiedraw_word;
typedef struct { uint16_t shovel; uint8_t ties; uint8_t taken; uint8_t refusal; } tiedraw_choice;
typedef struct {
    uint32_t seconds;
    uint16_t changed, shovel;
    uint8_t raised, ties, taken, refusal;
} tiedraw_margin_answer;
typedef struct { size_t length; uint8_t refusal; } tiedraw_written;

/* The fields of a record. A field may lack where it has a flag: that is 1 where it is given. Where it is 0, so is the
   number beside it, which then says nothing. `state` has as many words as `words` says, and zeros past them. */
typedef struct tiedraw_record {
    uint32_t state[TIEDRAW_MOST_WORDS];
    uint16_t truck, shovel;
    uint8_t ties_given, ties, taken_given, taken, state_given, words;
} tiedraw_record;

typedef struct { tiedraw_record record; uint8_t refusal; } tiedraw_record_reading;
typedef struct { uint16_t shovel; uint8_t refusal; } tiedraw_order_answer;
typedef struct { int32_t balance; uint32_t forward, backward, runs; uint8_t refusal; } tiedraw_bit_counts;
typedef struct { uint16_t shovels[TIEDRAW_MOST_SHOVELS]; uint8_t count, refusal; } tiedraw_within_answer;
typedef struct { uint8_t places[TIEDRAW_MOST_BAD_PLACES]; uint8_t count, refusal; } tiedraw_bad_places_answer;

/* The version of the library, as TIEDRAW_VERSION_NUMBER is of the header. */
uint32_t tiedraw_version(void);

/* The verdict on a card: 0, or refusal 1 to 9. Proved: of cards that are not refused by 1 to 6, this accepts
   exactly those whose steps, from any state, bring up each of the 2^(m n) states once and then return. */
uint8_t tiedraw_check(const uint8_t *card, size_t card_len);

/* The eight values of a card, given or absent; or refusal 1 to 6. A card that is read may still be refused by 7 to 9. */
tiedraw_reading tiedraw_read(const uint8_t *card, size_t card_len);

/* The least to look at in a table that gets 7: the fewest places whose entries alone make every completion get 7,
   whatever allowed entries stand elsewhere; of several such sets the one whose ascending places come first, compared
   number by number. Places count from 0, and entry i of the table stands at place i. `count` of them are told,
   ascending, and zeros past them. A place that is its own entry is told alone; else it is the first two places that
   have the same entry or each other's number; else the places of the shortest cycle. Proved: whoever leaves those
   entries as they are can't mend the table, and no set of fewer places does that, nor one of as many that comes first.
   Or refusal 1 to 6; or 26 where the table is one cycle. 7 to 9 are not told here. */
tiedraw_bad_places_answer tiedraw_bad_places(const uint8_t *card, size_t card_len);

/* One step of the state: 0, or refusal 1 to 11. */
uint8_t tiedraw_step(const uint8_t *card, size_t card_len, uint32_t *state, size_t words);

/* One step back, to the one state whose step the given state is: 0, or refusal 1 to 11. */
uint8_t tiedraw_step_back(const uint8_t *card, size_t card_len, uint32_t *state, size_t words);

/* One step, and the word of the state that it comes to; or refusal 1 to 11. Proved: with words of 32 bits the words
   drawn one after the other, from any state, begin anew after 2^(m n) draws and no sooner. */
tiedraw_word tiedraw_draw(const uint8_t *card, size_t card_len, uint32_t *state, size_t words);

/* Writes `count` words into the strip from `place` on, as so many draws would give them, and moves the state as they
   would; the strip's other words are untouched. The card is read and checked once. Place and count may be any
   numbers, and their sum is never worked out. 0, or refusal 1 to 11 or 17, also where count is 0. */
uint8_t tiedraw_fill(const uint8_t *card, size_t card_len, uint32_t *state, size_t words, uint32_t *strip,
                     size_t strip_len, size_t place, size_t count);

/* The shovel with the least time. Where `ties` of them have it, and that is more than one, words are drawn until one
   is below the largest multiple of `ties` that is not above 2^n, 16 at most: `taken` is how many, and the last one
   modulo `ties` is the rank of the one chosen, rank 0 being the lowest number. So the order of the list makes no
   difference, and the words that decide at once give each rank equally often. With one alone no word is taken, and
   the state is not moved. Or refusal 1 to 15 or 18. */
tiedraw_choice tiedraw_pick(const uint8_t *card, size_t card_len, uint32_t *state, size_t words,
                            const uint16_t *shovels, size_t shovel_count, const uint32_t *times, size_t time_count);

/* The same pick, for a truck. A tie leaves its record at the front of the page, with every field: 8 + 4 m bytes, as
   the state was lent; bytes past it are untouched, and so is the page where one shovel was nearest. A page of
   TIEDRAW_MOST_RECORD_BYTES is never too small. Or what tiedraw_pick refuses, 1 to 15 or 18; or 16 where the page has
   fewer than 8 + 4 m bytes, tie or not. */
tiedraw_choice tiedraw_pick_recorded(const uint8_t *card, size_t card_len, uint32_t *state, size_t words,
                                     const uint16_t *shovels, size_t shovel_count, const uint32_t *times,
                                     size_t time_count, uint16_t truck, uint8_t *page, size_t page_len);

/* Every field of a record, for the desk; or refusal 20. `record_len` is the length of the record, not of the page that
   it stands on. Proved: what tiedraw_pick_recorded wrote reads back as it was, and tiedraw_pick from that state, with
   the same card and lists, chooses that shovel; two records with the same fields, given and lacking, are the same
   bytes. */
tiedraw_record_reading tiedraw_read_record(const uint8_t *record, size_t record_len);

/* The shovel of a record, alone, for the cab of a truck; or refusal 20, or 21 where the record is of another truck.
   Proved: from two whole records of the same truck and shovel every cab hears the same, whatever else they hold. */
tiedraw_order_answer tiedraw_order(uint16_t truck, const uint8_t *record, size_t record_len);

/* How near the pick was: the smallest change of one shovel's time that would send the truck elsewhere from this state,
   which is not moved. `changed` is the number of that shovel; `raised` is 1 where its time is raised, and 0 where it is
   lowered, by `seconds`, 1 at least, and it stays within 0 to 4294967295; `shovel`, `ties` and `taken` are what
   tiedraw_pick would answer with the changed time. Of equally small changes the one of the lower shovel number is
   told, then lowered before raised. A change that tiedraw_pick would refuse does not count. Proved: no change that
   counts comes before the one told. Or what tiedraw_pick refuses, 1 to 15 or 18; or 19 where no change counts. */
tiedraw_margin_answer tiedraw_margin(const uint8_t *card, size_t card_len, const uint32_t *state, size_t words,
                                     const uint16_t *shovels, size_t shovel_count, const uint32_t *times,
                                     size_t time_count);

/* A pick by the map, for when times are missing. Truck and shovels have places on a grid in whole metres, each
   coordinate from -1000000 to 1000000: the truck's place is (x, y), and shovel i's is (xs[i], ys[i]). The nearest has
   the least squared distance, and equally near ones are drawn as by tiedraw_pick. Or refusal 1 to 15, 12 being told
   unless shovels, xs and ys have one count; then 25; then 18. */
tiedraw_choice tiedraw_pick_by_map(const uint8_t *card, size_t card_len, uint32_t *state, size_t words, int32_t x,
                                   int32_t y, const uint16_t *shovels, size_t shovel_count, const int32_t *xs,
                                   size_t x_count, const int32_t *ys, size_t y_count);

/* The shovels within a radius of 0 to 3000000 metres around (x, y), its edge counted, by distance and then by number:
   `count` of them, and zeros past them. No card is needed. Proved: exactly those shovels are listed whose squared
   distance is at most the radius squared, each once; the order of the list handed over makes no difference. Or refusal
   12 to 15, as of tiedraw_pick_by_map, or 25. */
tiedraw_within_answer tiedraw_within(int32_t x, int32_t y, int32_t radius, const uint16_t *shovels, size_t shovel_count,
                                     const int32_t *xs, size_t x_count, const int32_t *ys, size_t y_count);

/* The words of a strip as bits, and what the tests of NIST SP 800-22 count in them. From the front of the page on each
   word is written as n bytes, ASCII '0' and '1', its top bit (n - 1) first, as the published suite reads them; bytes
   past the last bit are untouched. The card gives n, and no state is needed. `balance` is ones minus zeros (S_n,
   frequency test); `forward` and `backward` are the largest distance from zero of the running sum of +1 for a one and
   -1 for a zero, read from the first bit on and from the last bit back (z, cumulative sums test); `runs` is the number
   of runs (V_n, runs test). All four are 0 for no bits, and probabilities are left to the suite. Proved: they are the
   standard's integers of exactly the bits on the page, and these bits, read back, are the words; |balance| is at most
   `forward` and at most `backward`, and these at most the number of bits; balance and that number are both even or
   both odd. Or refusal 1 to 9 or 22 to 24. */
tiedraw_bit_counts tiedraw_count_bits(const uint8_t *card, size_t card_len, const uint32_t *strip, size_t strip_len,
                                      uint8_t *page, size_t page_len);

/* Writes the card of these values at the front of the page, and answers its length; bytes past it are untouched. A
   field is written only where it differs from its absent value. The table has up to 256 entries
   (TIEDRAW_TABLE_SIZE): what is not handed over counts as 0, entries past 2^words must be 0 (2), and more than 256 are
   refused by 2; no table at all is one of zeros, not TSC-1's. No page of TIEDRAW_MOST_CARD_BYTES is too small. Or
   refusal 2, 6 to 9 or 16. */
tiedraw_written tiedraw_write(uint8_t words, uint8_t width, const uint8_t *table, size_t table_len,
                              uint8_t odd_power, uint8_t even_power, uint32_t constant, uint8_t filter,
                              uint8_t sum_term, uint8_t *page, size_t page_len);

/* The same, of values that stand together, as tiedraw_read answers them. */
static inline tiedraw_written tiedraw_write_card(const tiedraw_card *card, uint8_t *page, size_t page_len) {
    return tiedraw_write(card->words, card->width, card->table, TIEDRAW_TABLE_SIZE, card->odd_power, card->even_power,
                         card->constant, card->filter, card->sum_term, page, page_len);
}

#ifdef __cplusplus
}
#endif

#endif
