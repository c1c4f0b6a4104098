/* A dispatch server and its standby, each with its own copy of the state and its own order of the list: they send every truck to
   the same shovel, and both leave the same record of each tie, of which the truck's cab shows the shovel and no more. First version
   and card are looked at, and a simulation desk sees the lots of the shift beforehand, and their words as bits; where one shovel is
   nearest, it is told how firm that is; then the radio survey fails, and both go on by the map; at the end the dispatcher's desk
   reads the records and makes their picks again, the lots are taken back one by one, and bad input shows what a refusal is, and
   what to look at in a table that is no ring. */
#include <inttypes.h>
#include <stdio.h>
#include <stdlib.h>
#include <string.h>

#include "tiedraw.h"

enum { WORDS = 4, SHOVELS = 5, TRUCKS = 8, LOTS = 6, RECORD_BYTES = 8 + 4 * WORDS };

/* TSC-1: every field of the card is absent. */
static const uint8_t card[] = {0x00};

/* What a server keeps: the state, its list with the shovels' places in metres, and the record of the last tie. */
typedef struct {
    uint32_t state[WORDS];
    uint16_t shovels[SHOVELS];
    int32_t xs[SHOVELS], ys[SHOVELS];
    uint8_t record[RECORD_BYTES];
} pit_server;

static void stop_unless(int holds, const char *what) {
    if (!holds) {
        fprintf(stderr, "standby: %s\n", what);
        exit(1);
    }
}

/* Seconds of travel: shovel 30 is far, but nearest for every fourth truck. */
static uint32_t travel_time(uint16_t truck, uint16_t shovel) {
    if (shovel == 30)
        return truck % 4 == 0 ? 240 : 420;
    return 300;
}

/* The times of a list, in its order. */
static void travel_times(uint32_t *times, const uint16_t *shovels, uint16_t truck) {
    for (int i = 0; i < SHOVELS; i++)
        times[i] = travel_time(truck, shovels[i]);
}

/* A truck's shovel, as one server picks it from its own list; a tie leaves its record. */
static tiedraw_choice pick(pit_server *server, uint16_t truck) {
    uint32_t times[SHOVELS];
    travel_times(times, server->shovels, truck);
    tiedraw_choice choice = tiedraw_pick_recorded(card, sizeof card, server->state, WORDS, server->shovels, SHOVELS, times, SHOVELS,
                                                  truck, server->record, RECORD_BYTES);
    stop_unless(choice.refusal == 0, "a pick was refused");
    return choice;
}

static void stop_unless_together(const pit_server *server, const pit_server *standby, tiedraw_choice ours, tiedraw_choice theirs) {
    stop_unless(ours.shovel == theirs.shovel && memcmp(server->state, standby->state, sizeof server->state) == 0, "the servers differ");
}

/* The pick on both servers: shovel, state and, byte by byte, the record are the same. */
static tiedraw_choice pick_on_both(pit_server *server, pit_server *standby, uint16_t truck) {
    tiedraw_choice ours = pick(server, truck), theirs = pick(standby, truck);
    printf("truck %u: shovel %2u of %u, words %u, standby server: shovel %2u\n", truck, ours.shovel, ours.ties, ours.taken, theirs.shovel);
    stop_unless_together(server, standby, ours, theirs);
    stop_unless(memcmp(server->record, standby->record, RECORD_BYTES) == 0, "the records differ");
    return ours;
}

/* The shovel of a truck at (x, y), without times. */
static tiedraw_choice pick_by_map(pit_server *server, int32_t x, int32_t y) {
    tiedraw_choice choice = tiedraw_pick_by_map(card, sizeof card, server->state, WORDS, x, y, server->shovels, SHOVELS, server->xs,
                                                SHOVELS, server->ys, SHOVELS);
    stop_unless(choice.refusal == 0, "a pick by the map was refused");
    return choice;
}

/* The pick by the map on both servers, from the states that the timed picks left; how many words it took. */
static int pick_by_map_on_both(pit_server *server, pit_server *standby, uint16_t truck, int32_t x, int32_t y) {
    tiedraw_choice ours = pick_by_map(server, x, y), theirs = pick_by_map(standby, x, y);
    printf("truck %u, by the map: shovel %2u of %u, words %u, standby server: shovel %2u\n", truck, ours.shovel, ours.ties, ours.taken,
           theirs.shovel);
    stop_unless_together(server, standby, ours, theirs);
    return ours.taken;
}

/* The shovels around (x, y), for the dispatcher. */
static void tell_within(const pit_server *server, int32_t x, int32_t y, int32_t radius) {
    tiedraw_within_answer listed =
        tiedraw_within(x, y, radius, server->shovels, SHOVELS, server->xs, SHOVELS, server->ys, SHOVELS);
    stop_unless(listed.refusal == 0, "a list was refused");
    printf("within %" PRId32 " m of it, by distance: shovels", radius);
    for (int i = 0; i < listed.count; i++)
        printf(" %u", listed.shovels[i]);
    printf("\n");
}

/* How firm a truck's shovel is, from the state before its pick, which is only read. */
static void tell_margin(const pit_server *server, uint16_t truck) {
    uint32_t times[SHOVELS];
    travel_times(times, server->shovels, truck);
    tiedraw_margin_answer margin =
        tiedraw_margin(card, sizeof card, server->state, WORDS, server->shovels, SHOVELS, times, SHOVELS);
    stop_unless(margin.refusal == 0, "a margin was refused");
    printf("truck %u: shovel %2u %s by %" PRIu32 " s would send it to shovel %u of %u\n", truck, margin.changed,
           margin.raised ? "raised" : "lowered", margin.seconds, margin.shovel, margin.ties);
}

/* The cab of a truck, with the record that was sent to it. */
static void show_in_cab(uint16_t truck, const uint8_t *record) {
    tiedraw_order_answer order = tiedraw_order(truck, record, RECORD_BYTES);
    stop_unless(order.refusal == 0, "a cab was refused its record");
    printf("truck %u, in the cab: shovel %2u\n", truck, order.shovel);
}

/* A number that a record may lack: absent is not 0. */
static void tell_number(const char *name, uint8_t given, uint8_t number) {
    if (given)
        printf(", %s %u", name, number);
    else
        printf(", %s absent", name);
}

/* Every field of a record, at the dispatcher's desk. */
static tiedraw_record read_at_desk(const uint8_t *bytes, size_t length) {
    tiedraw_record_reading reading = tiedraw_read_record(bytes, length);
    stop_unless(reading.refusal == 0, "a record is torn");
    tiedraw_record record = reading.record;
    printf("the desk: truck %u, shovel %2u", record.truck, record.shovel);
    tell_number("ties", record.ties_given, record.ties);
    tell_number("words", record.taken_given, record.taken);
    printf(", state%s", record.state_given ? "" : " absent");
    for (int i = 0; record.state_given && i < record.words; i++)
        printf(" %08" PRIx32, record.state[i]);
    printf("\n");
    return record;
}

/* The pick of a record made again, from the state on it, with the same card and times, and in any order of the list. */
static uint16_t pick_again(const tiedraw_record *record, const uint16_t *shovels) {
    uint32_t state[WORDS], times[SHOVELS];
    stop_unless(record->state_given && record->words == WORDS, "the record has no state of this card");
    memcpy(state, record->state, sizeof state);
    travel_times(times, shovels, record->truck);
    tiedraw_choice again = tiedraw_pick(card, sizeof card, state, WORDS, shovels, SHOVELS, times, SHOVELS);
    stop_unless(again.refusal == 0 && again.shovel == record->shovel, "the pick made again is another");
    stop_unless(again.ties == record->ties && again.taken == record->taken, "the pick made again is another");
    return again.shovel;
}

/* The desk reads the shift's records and makes each pick again; and a record of another pit, which lacks some fields. */
static void look_into(uint8_t records[][RECORD_BYTES], int count, const uint16_t *shovels) {
    for (int i = 0; i < count; i++) {
        tiedraw_record record = read_at_desk(records[i], RECORD_BYTES);
        printf("the desk: picked again, shovel %u\n", pick_again(&record, shovels));
    }
    const uint8_t of_another_pit[] = {0x03, 90, 0, 12, 0};
    read_at_desk(of_another_pit, sizeof of_another_pit);
}

/* The library is the one that this was compiled for; the card is accepted, and written again it is the same bytes. */
static void look_at_version_and_card(void) {
    uint32_t version = tiedraw_version();
    stop_unless(version / 1000 == TIEDRAW_VERSION_NUMBER / 1000, "the library is of another version");
    stop_unless(tiedraw_check(card, sizeof card) == 0, "the card was refused");

    tiedraw_reading reading = tiedraw_read(card, sizeof card);
    uint8_t page[TIEDRAW_MOST_CARD_BYTES];
    tiedraw_written written = tiedraw_write_card(&reading.card, page, sizeof page);
    stop_unless(reading.refusal == 0 && written.refusal == 0, "the card was not read and written");
    stop_unless(written.length == sizeof card && memcmp(page, card, sizeof card) == 0, "the card written is another");
    printf("version %" PRIu32 ", a card of %u words of %u bits, constant %08" PRIx32 "\n", version, reading.card.words,
           reading.card.width, reading.card.constant);
}

/* What NIST's tests count in the bits of the words, which are left on the page for the published suite. */
static void tell_bits(const uint32_t *strip) {
    uint8_t page[32 * LOTS];
    tiedraw_bit_counts counts = tiedraw_count_bits(card, sizeof card, strip, LOTS, page, sizeof page);
    stop_unless(counts.refusal == 0, "a count of bits was refused");
    printf("their words as bits: %.32s and so on, balance %" PRId32 ", furthest %" PRIu32 " and %" PRIu32 ", runs %" PRIu32 "\n",
           (const char *)page, counts.balance, counts.forward, counts.backward, counts.runs);
}

/* The words of the next lots by one call, from a copy of the state: the four shovels other than 30 tie for six of the trucks, and
   four divides 2^32, so that no word is passed over. */
static void look_ahead(const uint32_t *state) {
    uint32_t copy[WORDS], strip[LOTS];
    memcpy(copy, state, sizeof copy);
    stop_unless(tiedraw_fill(card, sizeof card, copy, WORDS, strip, LOTS, 0, LOTS) == 0, "a fill was refused");
    printf("the simulation desk, from a copy: ranks among four ties");
    for (int i = 0; i < LOTS; i++)
        printf(" %" PRIu32, strip[i] % 4);
    printf("\n");
    tell_bits(strip);
}

/* A bad card, no card, a strip without room, more ties than a narrow card has words, and a negative radius: each refused, and the
   state stays. */
static void try_bad_input(uint32_t *state) {
    uint32_t start[WORDS], strip[LOTS];
    memcpy(start, state, sizeof start);
    const uint8_t even_odd_power[] = {0x08, 0x02};
    tiedraw_word refused = tiedraw_draw(even_odd_power, sizeof even_odd_power, state, WORDS);
    uint8_t span = tiedraw_fill(card, sizeof card, state, WORDS, strip, LOTS, 3, 4);
    stop_unless(refused.refusal == TIEDRAW_POWER_PARITY && span == TIEDRAW_SPAN_OUT_OF_BOUNDS, "bad input was not refused");
    stop_unless(memcmp(state, start, sizeof start) == 0, "a refusal moved the state");

    const uint8_t two_bits[] = {0x27, 2, 2, 1, 2, 3, 0, 1, 0, 0, 0};
    const uint16_t shovels[SHOVELS] = {4, 7, 12, 21, 30};
    const uint32_t times[SHOVELS] = {300, 300, 300, 300, 300};
    uint32_t narrow[2] = {0};
    tiedraw_choice tied = tiedraw_pick(two_bits, sizeof two_bits, narrow, 2, shovels, SHOVELS, times, SHOVELS);
    stop_unless(tied.refusal == TIEDRAW_TOO_MANY_TIES && narrow[0] == 0 && narrow[1] == 0, "five ties and four words were not refused");
    printf("a card whose odd power is even: refusal %u, and the state is as it was\n", refused.refusal);
    printf("no card at all: refusal %u\n", tiedraw_draw(NULL, 0, state, WORDS).refusal);
    printf("four words from place 3 of a strip of six: refusal %u\n", span);
    printf("five ties with words of two bits: refusal %u\n", tied.refusal);
    const int32_t place[] = {0};
    printf("a radius of -1 m: refusal %u\n", tiedraw_within(0, 0, -1, shovels, 1, place, 1, place, 1).refusal);
}

/* A record of truck 1 in the cab of truck 2, and without its last byte. */
static void try_bad_record(const uint8_t *record) {
    printf("truck 1's record in the cab of truck 2: refusal %u\n", tiedraw_order(2, record, RECORD_BYTES).refusal);
    printf("a record cut short: refusal %u\n", tiedraw_read_record(record, RECORD_BYTES - 1).refusal);
}

/* A table of two words whose places 0 and 2 have the same entry, 1: these are told. With 3 at place 2 it is a ring. */
static void mend_a_table(void) {
    uint8_t table[] = {0x05, 2, 1, 2, 1, 0}; /* map and words, and the entries of places 0 to 3 */
    tiedraw_bad_places_answer bad = tiedraw_bad_places(table, sizeof table);
    stop_unless(bad.refusal == 0, "a broken ring was not found");
    printf("a broken ring, refusal %u: look at places", tiedraw_check(table, sizeof table));
    for (int i = 0; i < bad.count; i++)
        printf(" %u", bad.places[i]);
    printf("\n");

    table[2 + 2] = 3;
    stop_unless(tiedraw_check(table, sizeof table) == 0, "the table is not mended");
    printf("with 3 at place 2: refusal %u, a sound ring\n", tiedraw_bad_places(table, sizeof table).refusal);
}

int main(void) {
    /* 4, 7 and 12 are 500 m from (0, 0) */
    pit_server server = {{0}, {12, 7, 30, 4, 21}, {0, -400, 2000, 300, 900}, {-500, 300, -1500, 400, 0}, {0}};
    pit_server standby = {{0}, {4, 7, 12, 21, 30}, {300, -400, 0, 900, 2000}, {400, 300, -500, 0, -1500}, {0}};
    uint32_t start[WORDS];
    uint8_t records[TRUCKS][RECORD_BYTES];

    look_at_version_and_card();
    for (int i = 1; i <= 3; i++) {
        tiedraw_word drawn = tiedraw_draw(card, sizeof card, server.state, WORDS);
        stop_unless(drawn.refusal == 0, "a draw was refused");
        printf("draw %d: word %08" PRIx32 "\n", i, drawn.word);
    }
    memcpy(start, server.state, sizeof start);
    memcpy(standby.state, server.state, sizeof start);
    look_ahead(server.state);

    int words = 0, ties = 0;
    for (uint16_t truck = 1; truck <= TRUCKS; truck++) {
        tiedraw_choice choice = pick_on_both(&server, &standby, truck);
        if (choice.ties == 1) { /* no word was taken, and the state is still the one before the pick; of a tie, ask beforehand */
            tell_margin(&server, truck);
        } else {
            show_in_cab(truck, server.record);
            memcpy(records[ties++], server.record, RECORD_BYTES);
        }
        words += choice.taken;
    }
    words += pick_by_map_on_both(&server, &standby, TRUCKS + 1, 0, 0);
    tell_within(&server, 0, 0, 900);
    words += pick_by_map_on_both(&server, &standby, TRUCKS + 2, 800, -100);
    look_into(records, ties, standby.shovels);

    for (int i = 0; i < words; i++)
        stop_unless(tiedraw_step_back(card, sizeof card, server.state, WORDS) == 0, "a step back was refused");
    stop_unless(memcmp(server.state, start, sizeof start) == 0, "the steps back lead elsewhere");
    printf("%d steps back: the shift's first state\n", words);
    try_bad_input(server.state);
    try_bad_record(records[0]);
    mend_a_table();
    return 0;
}
