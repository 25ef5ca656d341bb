/* Random scripts of events of all kinds, made of the same numbers as those of bench_line and line_plain. */
#include "line_c.h"

enum { MOST_TERMINALS = 4 };

struct octets {
    uint8_t at[BSC_MAX_SENT + 1];
    size_t len;
};

/* A script as it is played. */
struct script {
    struct random random;
    struct played played;
    size_t full;
    size_t spoiled;                 /* of eight transmissions this many are not heard as they were sent */
    size_t ways;                    /* how many ways of spoiling there are */
    struct octets pending, earlier; /* what is pending, and what was pending some time before */
    uint8_t record[BSC_MAX_CHARS + 1];
    size_t record_len;
};

/* What else may be heard: EOT, ENQ, NAK, ACK0, ACK1, WACK, RVI, and a text whose check fails. */
static const struct octets others[8] = {
    {{0x16, 0x04}, 2}, {{0x16, 0x85}, 2}, {{0x16, 0x15}, 2}, {{0x16, 0x10, 0xb0}, 3}, {{0x16, 0x10, 0x31}, 3},
    {{0x16, 0x10, 0x3b}, 3}, {{0x16, 0x10, 0xbc}, 3}, {{0x16, 0x02, 0x85}, 3}};

/* ---- The line of a script ---------------------------------------------------------------------------------------- */

/* An address of these codes and some more. */
static struct bsc_address address(struct random *random, const uint8_t *first, uint8_t count)
{
    struct bsc_address address = {{0}, 0};
    size_t more = below(random, 6);
    memcpy(address.chars, first, count);
    for (address.len = count; address.len < count + more; address.len++)
        address.chars[address.len] = (uint8_t)(0x21 + below(random, 0x5e));
    return address;
}

/* A terminal of one to four selection addresses. */
static struct bsc_addresses terminal(struct random *random, size_t number)
{
    struct bsc_addresses addresses = {{{0}, 0}, {{{0}, 0}}, 0};
    uint8_t codes[2] = {(uint8_t)('A' + number), 0};
    size_t selects;
    addresses.poll = address(random, codes, 1);
    codes[0] = (uint8_t)('a' + number);
    for (selects = 1 + below(random, BSC_MAX_SELECTS); addresses.count < selects; addresses.count++) {
        codes[1] = (uint8_t)('0' + addresses.count);
        addresses.selects[addresses.count] = address(random, codes, 2);
    }
    return addresses;
}

static void make(struct script *script, uint64_t seed)
{
    static const size_t ways[3] = {1, 2, 6};
    struct bsc_addresses terminals[MOST_TERMINALS];
    struct bsc_setup setup;
    struct random *random = &script->random;
    uint8_t poll_list[6];
    size_t entries;
    memset(script, 0, sizeof *script);
    *random = random_of(seed);
    script->full = one_in(random, 2) ? 80 : 1 + below(random, 144);
    setup.full = (uint8_t)script->full;
    setup.block_chars = (uint16_t)(one_in(random, 2) ? 400 : 146 + below(random, 255));
    setup.tries = (uint8_t)(1 + below(random, 3));
    setup.waits = (uint8_t)(1 + below(random, 3));
    script->played.terminals = 1 + below(random, MOST_TERMINALS);
    for (size_t number = 0; number < script->played.terminals; number++) {
        terminals[number] = terminal(random, number);
        script->played.selects[number] = terminals[number].count;
    }
    entries = 1 + below(random, 6);
    for (size_t entry = 0; entry < entries; entry++)
        poll_list[entry] = (uint8_t)below(random, script->played.terminals);
    script->spoiled = below(random, 8);
    script->ways = ways[below(random, 3)];
    must(bsc_line_new(&script->played.line, &setup, terminals, script->played.terminals, poll_list, entries));
}

/* ---- Events ------------------------------------------------------------------------------------------------------ */

/* A number below the count, or sometimes the count itself. */
static size_t one_of(struct random *random, size_t count)
{
    return one_in(random, 16) ? below(random, count + 1) : below(random, count);
}

/* The number of an address of a terminal, sometimes of one that does not exist. */
static size_t select_of(struct script *script, size_t terminal)
{
    return one_of(&script->random, terminal < script->played.terminals ? script->played.selects[terminal] : 1);
}

static void make_record(struct script *script)
{
    struct random *random = &script->random;
    script->record_len = one_in(random, 2) ? below(random, script->full + 2) : below(random, 4);
    for (size_t place = 0; place < script->record_len; place++)
        script->record[place] = (uint8_t)(0x20 + below(random, 0x5f));
    if (one_in(random, 32) && script->record_len > 0) {
        size_t place = below(random, script->record_len);
        script->record[place] = (uint8_t)below(random, 256);
    }
}

static uint32_t play_flag(struct script *script, size_t terminal)
{
    struct bsc_line *line = &script->played.line;
    switch (below(&script->random, 4)) {
    case 0:
        return bsc_line_ready(line, terminal, !one_in(&script->random, 3));
    case 1:
        return bsc_line_set_polled(line, terminal, !one_in(&script->random, 3));
    case 2:
        return bsc_line_urgent_at(line, terminal);
    default:
        return bsc_line_urgent_for(line, terminal);
    }
}

/* What is heard in place of what is pending. */
static struct octets spoil(struct script *script)
{
    struct random *random = &script->random;
    struct octets heard = script->pending;
    size_t place = below(random, heard.len > 0 ? heard.len : 1);
    size_t bit, octet;
    switch (below(random, script->ways)) {
    case 0:
        bit = below(random, 8);
        if (place < heard.len)
            heard.at[place] ^= (uint8_t)(1 << bit);
        break;
    case 1:
        heard.len = place < heard.len ? place : heard.len;
        break;
    case 2:
        heard.at[heard.len++] = 0xff;
        break;
    case 3:
        heard = script->earlier;
        break;
    case 4:
        heard = others[below(random, 8)];
        break;
    default:
        octet = below(random, 256);
        if (place < heard.len)
            heard.at[place] = (uint8_t)octet;
    }
    return heard;
}

/* Each terminal hears what is pending in a way of its own. */
static uint32_t play_each(struct script *script)
{
    struct random *random = &script->random;
    size_t count = script->played.terminals + (one_in(random, 16) ? 1 : 0);
    size_t lengths[MOST_TERMINALS + 1], len = 0;
    uint8_t octets[(MOST_TERMINALS + 1) * sizeof script->pending.at];
    for (size_t number = 0; number < count; number++) {
        struct octets heard;
        size_t way = below(random, 4);
        lengths[number] = BSC_LOST;
        if (way == 0)
            continue;
        heard = way == 1 ? spoil(script) : script->pending;
        memcpy(octets + len, heard.at, heard.len);
        lengths[number] = heard.len;
        len += heard.len;
    }
    return bsc_line_carry_each(&script->played.line, octets, len, lengths, count);
}

/* What is pending is carried or lost, or a silence passes, even if the line has to refuse it. */
static uint32_t play_any_turn(struct script *script)
{
    struct bsc_line *line = &script->played.line;
    switch (below(&script->random, 4)) {
    case 0:
        return bsc_line_silence(line);
    case 1:
        return bsc_line_lose(line);
    case 2:
        return bsc_line_carry_sent(line);
    default:
        return play_each(script);
    }
}

/* What is pending is carried or lost; if nothing is pending, a silence passes. */
static uint32_t play_turn(struct script *script)
{
    struct bsc_line *line = &script->played.line;
    struct random *random = &script->random;
    struct octets now, heard;
    size_t sender, way;
    uint32_t error = bsc_line_pending(line, now.at, BSC_MAX_SENT, &now.len, &sender);
    if (error == BSC_NOTHING_SENT)
        return bsc_line_silence(line);
    must(error);
    if (one_in(random, 4))
        script->earlier = script->pending;
    script->pending = now;
    if (below(random, 8) >= script->spoiled)
        return bsc_line_carry_sent(line);
    way = below(random, 4);
    if (way == 0)
        return bsc_line_lose(line);
    if (way == 1 && sender == BSC_CONTROL)
        return play_each(script);
    heard = spoil(script);
    return bsc_line_carry(line, heard.at, heard.len);
}

static uint32_t play_release(struct script *script, size_t terminal)
{
    size_t select = select_of(script, terminal);
    if (one_in(&script->random, 2))
        return bsc_line_release_from(&script->played.line, terminal);
    return bsc_line_release_to(&script->played.line, terminal, select);
}

static uint32_t play_restart(struct script *script, size_t terminal)
{
    if (one_in(&script->random, 3))
        return bsc_line_restart_control(&script->played.line);
    return bsc_line_restart_terminal(&script->played.line, terminal);
}

/* Plays one event. */
static uint32_t play(struct script *script)
{
    struct bsc_line *line = &script->played.line;
    size_t select, terminal = one_of(&script->random, script->played.terminals);
    switch (below(&script->random, 16)) {
    case 0:
    case 1:
        make_record(script);
        return bsc_line_offer_at(line, terminal, script->record, script->record_len);
    case 2:
    case 3:
        select = select_of(script, terminal);
        make_record(script);
        return bsc_line_offer_for(line, terminal, select, script->record, script->record_len);
    case 4:
        return play_flag(script, terminal);
    case 5:
        return play_release(script, terminal);
    case 6:
        return one_in(&script->random, 8) ? play_any_turn(script) : play_turn(script);
    case 7:
        return one_in(&script->random, 4) ? play_restart(script, terminal) : play_turn(script);
    default:
        return play_turn(script);
    }
}

/* ---- The answers of events --------------------------------------------------------------------------------------- */

/* The place of the first code of the record that may not stand in one. */
static size_t wrong_place(const struct script *script)
{
    size_t place = 0;
    while (place < script->record_len && script->record[place] < 0x80 &&
           memchr("\1\2\3\4\5\20\25\26\27\31\37", script->record[place], 11) == NULL)
        place++;
    return place;
}

/* The number that bench_line has for an answer. */
static size_t answer_number(const struct script *script, uint32_t error)
{
    switch (error) {
    case BSC_OK:
        return 0;
    case BSC_NOTHING_SENT:
        return 1;
    case BSC_NOT_CONTROL:
        return 2;
    case BSC_WRONG_COUNT:
        return 3;
    case BSC_PENDING:
        return 4;
    case BSC_NO_SUCH_TERMINAL:
        return 5;
    case BSC_NO_SUCH_ADDRESS:
        return 6;
    case BSC_OUT_OF_MEMORY:
        return 7;
    case BSC_NOT_IN_DOUBT:
        return 8;
    case BSC_COUNT_MISMATCH:
        return 9;
    case BSC_RECORD_TOO_LONG:
        return 10;
    case BSC_WRONG_CHARACTER:
        return 11 + wrong_place(script);
    default:
        must(error);
        return 0;
    }
}

static void step(struct script *script, uint64_t *digest)
{
    uint32_t error = play(script);
    digest_event(digest, answer_number(script, error), &script->played.line);
}

void play_scripts(uint64_t seed, uint64_t scripts, size_t events)
{
    static struct script script;
    char name[24];
    for (uint64_t number = seed; number < seed + scripts; number++) {
        uint64_t digest = new_digest();
        make(&script, number);
        for (size_t event = 0; event < events; event++)
            step(&script, &digest);
        snprintf(name, sizeof name, "%llu", (unsigned long long)number);
        print_left(name, digest, &script.played);
        must(bsc_line_free(&script.played.line));
    }
}
