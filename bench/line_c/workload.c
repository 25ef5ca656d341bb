/* The workloads for the clock: polls of nothing, and texts of seven records each way. */
#include "line_c.h"

#include <time.h>

/* Seven records of 55 characters fill a block of 400: each counts 57. */
enum { RECORD_CHARS = 55, RECORDS = 7 };

/* How many transmissions a visit of a terminal takes: two calls, two texts, their replies and EOT. */
enum { TRANSMISSIONS = 8 };

struct player {
    struct played played;
    enum hearing hearing;
    uint8_t record[RECORD_CHARS];
    size_t number, terminal;
};

static struct bsc_address address(char letter, size_t number)
{
    struct bsc_address address = {{0}, 2};
    address.chars[0] = (uint8_t)(letter + (char)(number / 16));
    address.chars[1] = (uint8_t)('0' + number % 16);
    return address;
}

static void make(struct player *player, size_t terminals, enum hearing hearing)
{
    struct bsc_setup setup = {80, 400, 3, 10};
    struct bsc_addresses addresses[BSC_MAX_TERMINALS] = {{{{0}, 0}, {{{0}, 0}}, 0}};
    uint8_t poll_list[BSC_MAX_TERMINALS];
    memset(player, 0, sizeof *player);
    memset(player->record, '-', sizeof player->record);
    player->hearing = hearing;
    player->played.terminals = terminals;
    for (size_t number = 0; number < terminals; number++) {
        addresses[number].poll = address('A', number);
        addresses[number].selects[0] = address('a', number);
        addresses[number].count = 1;
        player->played.selects[number] = 1;
        poll_list[number] = (uint8_t)number;
    }
    must(bsc_line_new(&player->played.line, &setup, addresses, terminals, poll_list, terminals));
}

static void carry(struct player *player)
{
    uint8_t octets[BSC_MAX_SENT + 1];
    size_t len, sender;
    if (player->hearing == AS_SENT) {
        must(bsc_line_carry_sent(&player->played.line));
        return;
    }
    must(bsc_line_pending(&player->played.line, octets, BSC_MAX_SENT, &len, &sender));
    if (player->hearing == PADDED)
        octets[len++] = 0xff;
    must(bsc_line_carry(&player->played.line, octets, len));
}

/* The next record: its first characters tell its number. */
static void next_record(struct player *player)
{
    for (size_t place = 0; place < 4; place++)
        player->record[place] = (uint8_t)(0x40 | (player->number >> (6 * place) & 0x3f));
    player->number++;
}

/* Seven records at the next terminal, and seven for it. */
static void offer(struct player *player)
{
    struct bsc_line *line = &player->played.line;
    for (int record = 0; record < RECORDS; record++) {
        next_record(player);
        must(bsc_line_offer_at(line, player->terminal, player->record, RECORD_CHARS));
        next_record(player);
        must(bsc_line_offer_for(line, player->terminal, 0, player->record, RECORD_CHARS));
    }
    player->terminal = (player->terminal + 1) % player->played.terminals;
}

/* A terminal is selected and polled, and then the next one is called. */
static void visit(struct player *player)
{
    for (int transmission = 1; transmission < TRANSMISSIONS; transmission++)
        carry(player);
    offer(player);
    carry(player);
}

static uint64_t nanoseconds(void)
{
    struct timespec now;
    clock_gettime(CLOCK_MONOTONIC, &now);
    return (uint64_t)now.tv_sec * 1000000000u + (uint64_t)now.tv_nsec;
}

static void finish(struct player *player, const char *name, size_t events, uint64_t nanos, int clocked)
{
    if (clocked)
        fprintf(stderr, "%zu events, %llu ns\n", events, (unsigned long long)nanos);
    print_left(name, new_digest(), &player->played);
    must(bsc_line_free(&player->played.line));
}

void play_polls(size_t terminals, size_t events, enum hearing hearing, int clocked)
{
    struct player player;
    uint64_t started;
    make(&player, terminals, hearing);
    must(bsc_line_silence(&player.played.line));
    started = nanoseconds();
    for (size_t event = 0; event < events; event++)
        carry(&player);
    finish(&player, "polls", events, nanoseconds() - started, clocked);
}

void play_texts(size_t terminals, size_t history, size_t visits, enum hearing hearing, int clocked)
{
    struct player player;
    uint64_t started;
    make(&player, terminals, hearing);
    offer(&player);
    must(bsc_line_silence(&player.played.line));
    for (size_t before = 0; before < history; before += 2 * RECORDS)
        visit(&player);
    started = nanoseconds();
    for (size_t number = 0; number < visits; number++)
        visit(&player);
    finish(&player, "texts", visits * (TRANSMISSIONS + 2 * RECORDS), nanoseconds() - started, clocked);
}
