/* Plays the random events of bench/soak over the library for C, and prints the counts that the program bench_soak
 * prints: the same numbers are drawn in the same order, so that a line that does anything else soon leads to other
 * events and other counts. It has to be linked so that the library calls the malloc and realloc below, which refuse
 * memory while the line is starved:
 *
 *     soak_c [EVENTS [SEED]] */
#include "line_c/line_c.h"

enum {
    MOST_HEARD = BSC_MAX_HEARD + 1,
    RELEASE = 11        /* the one of 32 choices that is a release */
};

/* ---- Memory that can be refused ---------------------------------------------------------------------------------- */

void *__real_malloc(size_t size);
void *__real_realloc(void *block, size_t size);

static int starved;

void *__wrap_malloc(size_t size)
{
    return starved ? NULL : __real_malloc(size);
}

void *__wrap_realloc(void *block, size_t size)
{
    return starved ? NULL : __real_realloc(block, size);
}

/* ---- What is counted --------------------------------------------------------------------------------------------- */

enum count {
    EVENTS, LINES, NOT_TRUSTED, ACCEPTED, REFUSED, BY_MEMORY, BY_MISMATCH, OFFERED, BLOCKS, RECORDS, KNOWN, DOUBTS,
    RELEASES, RESTARTS, CALLS, TEXTS, ENQS, NAKS, WACKS, RVIS, COUNTS
};

static const char *const names[COUNTS] = {
    "events", "lines", "lines not trusted", "events accepted", "events refused", "refused by Memory",
    "refused by CountMismatch", "records offered", "blocks arrived", "records arrived", "blocks known", "doubts",
    "releases", "restarts", "calls", "texts", "ENQ", "NAK", "WACK", "RVI"};

static unsigned long long counts[COUNTS];

/* ---- A line and its events --------------------------------------------------------------------------------------- */

struct octets {
    uint8_t at[MOST_HEARD];
    size_t len;
};

enum spoiling { LOSS, DAMAGE, UNEVEN, ANYTHING };

enum pending { NOTHING, CALL, OF_CONTROL, OF_TERMINAL };

/* What a channel shows. */
struct view {
    struct bsc_sending sending;
    size_t spooled;
};

struct soaked {
    struct random random;
    struct bsc_line line;
    size_t terminals, full, spoiled;
    size_t selects[BSC_MAX_TERMINALS];
    enum spoiling spoiling;
    struct octets octets, earlier;  /* what is pending, and what was pending some time before */
    struct view views[BSC_MAX_TERMINALS][1 + BSC_MAX_SELECTS];
};

static struct soaked soaked;
static struct random *const dice = &soaked.random;

/* A number below the bound; 0 if the bound is 0. */
static size_t up_to(size_t bound)
{
    return bound == 0 ? below(dice, 1) : below(dice, bound);
}

/* One of these three numbers, or any from the least to the greatest of them. */
static size_t setting(size_t least, size_t middle, size_t most)
{
    switch (up_to(4)) {
    case 0:
        return least;
    case 1:
        return middle;
    case 2:
        return most;
    default:
        return least + up_to(most - least + 1);
    }
}

/* An address that begins with this letter and code, followed by up to five more codes. */
static struct bsc_address address(uint8_t letter, uint8_t code)
{
    struct bsc_address address = {{letter, code, 0, 0, 0, 0, 0}, 2};
    size_t len = 2 + up_to(6);
    while (address.len < len)
        address.chars[address.len++] = (uint8_t)(0x21 + up_to(0x5e));
    return address;
}

static struct bsc_addresses terminal(uint8_t code)
{
    struct bsc_addresses addresses = {{{0}, 0}, {{{0}, 0}}, 0};
    addresses.poll = address('P', code);
    for (uint8_t letter = 'a'; letter <= 'd'; letter++)
        if (addresses.count == 0 || one_in(dice, 2))
            addresses.selects[addresses.count++] = address(letter, code);
    return addresses;
}

static size_t terminal_count(void)
{
    switch (up_to(8)) {
    case 0:
        return 1;
    case 1:
        return 64;
    case 2:
        return 1 + up_to(64);
    default:
        return 1 + up_to(4);
    }
}

static size_t make_poll_list(uint8_t *poll_list)
{
    size_t entries;
    if (one_in(dice, 2)) {
        for (size_t number = 0; number < soaked.terminals; number++)
            poll_list[number] = (uint8_t)number;
        return soaked.terminals;
    }
    entries = setting(1, 6, 255);
    for (size_t entry = 0; entry < entries; entry++)
        poll_list[entry] = (uint8_t)up_to(soaked.terminals);
    return entries;
}

/* Makes the line of this seed. */
static void make(uint64_t seed)
{
    static const enum spoiling spoilings[6] = {LOSS, DAMAGE, DAMAGE, UNEVEN, ANYTHING, ANYTHING};
    struct bsc_addresses terminals[BSC_MAX_TERMINALS];
    struct bsc_setup setup;
    uint8_t poll_list[BSC_MAX_ENTRIES];
    size_t entries;
    starved = 0;
    memset(&soaked, 0, sizeof soaked);
    soaked.random = random_of(seed);
    setup.full = (uint8_t)setting(1, 80, 144);
    setup.block_chars = (uint16_t)setting(146, 240, 400);
    setup.tries = (uint8_t)setting(1, 3, 15);
    setup.waits = (uint8_t)setting(1, 10, 255);
    soaked.full = setup.full;
    soaked.terminals = terminal_count();
    for (size_t number = 0; number < soaked.terminals; number++) {
        terminals[number] = terminal((uint8_t)(0x21 + number));
        soaked.selects[number] = terminals[number].count;
    }
    entries = make_poll_list(poll_list);
    must(bsc_line_new(&soaked.line, &setup, terminals, soaked.terminals, poll_list, entries));
    soaked.spoiling = spoilings[up_to(6)];
    soaked.spoiled = up_to(8);
}

/* ---- How transmissions are spoiled ------------------------------------------------------------------------------- */

/* Other messages: EOT, ENQ, each reply, a text that fails its check, one with a record, one without, and a call of an
 * address that no terminal has. */
static const struct octets others[11] = {
    {{0x16, 0x04}, 2}, {{0x16, 0x85}, 2}, {{0x16, 0x15}, 2}, {{0x16, 0x10, 0xb0}, 3}, {{0x16, 0x10, 0x31}, 3},
    {{0x16, 0x10, 0x3b}, 3}, {{0x16, 0x10, 0xbc}, 3}, {{0x16, 0x02, 0x85}, 3},
    {{0x16, 0x02, 0xc8, 0x49, 0x19, 0x83, 0x9b}, 7}, {{0x16, 0x02, 0x83, 0x83}, 4},
    {{0x16, 0x04, 0xff, 0x16, 0xd9, 0x85}, 6}};

/* Replaces one of the octets with any octet. */
static void change(uint8_t *octets, size_t len)
{
    size_t place = up_to(len);
    uint8_t value = (uint8_t)up_to(256);
    if (place < len)
        octets[place] = value;
}

static void add_pads(struct octets *octets)
{
    size_t len = one_in(dice, 64) ? BSC_MAX_HEARD + up_to(2) : octets->len + up_to(4);
    memset(octets->at + octets->len, 0xff, len - octets->len);
    octets->len = len;
}

static void turn_bit(struct octets *octets)
{
    size_t place = up_to(octets->len), bit = up_to(8);
    if (place < octets->len)
        octets->at[place] ^= (uint8_t)(1 << bit);
}

static void damage(struct octets *octets)
{
    size_t way = up_to(4);
    if (way == 0)
        add_pads(octets);
    else if (way == 1)
        octets->len = up_to(octets->len);
    else
        turn_bit(octets);
}

static void replace(struct octets *octets)
{
    switch (up_to(6)) {
    case 0:
        damage(octets);
        break;
    case 1:
        change(octets->at, octets->len);
        break;
    case 2:
        *octets = soaked.earlier;
        break;
    case 3:
    case 4:
        *octets = others[up_to(11)];
    }
}

/* What is heard in place of what is pending. */
static struct octets spoiled(void)
{
    struct octets octets = soaked.octets;
    if (soaked.spoiling == ANYTHING)
        replace(&octets);
    else if (soaked.spoiling != LOSS)
        damage(&octets);
    return octets;
}

/* ---- Events ------------------------------------------------------------------------------------------------------ */

static size_t one_of(size_t count)
{
    return one_in(dice, 32) ? up_to(count + 1) : up_to(count);
}

static size_t any_select(size_t terminal)
{
    return one_of(terminal < soaked.terminals ? soaked.selects[terminal] : 1);
}

static size_t make_record(uint8_t *codes)
{
    size_t way = up_to(4), len = way == 0 ? up_to(soaked.full + 2) : way == 1 ? soaked.full : up_to(4);
    for (size_t place = 0; place < len; place++)
        codes[place] = (uint8_t)(0x20 | (up_to(256) & 0x5f));
    if (one_in(dice, 32))
        change(codes, len);
    return len;
}

static uint32_t play_offer(int at)
{
    uint8_t codes[BSC_MAX_CHARS + 1];
    size_t len, terminal = one_of(soaked.terminals), select = at ? 0 : any_select(terminal);
    uint32_t error;
    len = make_record(codes);
    error = at ? bsc_line_offer_at(&soaked.line, terminal, codes, len)
               : bsc_line_offer_for(&soaked.line, terminal, select, codes, len);
    counts[OFFERED] += error == BSC_OK;
    return error;
}

static uint32_t play_flag(void)
{
    size_t terminal = one_of(soaked.terminals);
    uint32_t on = !one_in(dice, 3);
    switch (up_to(4)) {
    case 0:
        return bsc_line_ready(&soaked.line, terminal, on);
    case 1:
        return bsc_line_set_polled(&soaked.line, terminal, on);
    case 2:
        return bsc_line_urgent_at(&soaked.line, terminal);
    default:
        return bsc_line_urgent_for(&soaked.line, terminal);
    }
}

/* Releases the first channel that is in doubt, or any channel. */
static uint32_t play_release(void)
{
    size_t terminal, select;
    for (terminal = 0; terminal < soaked.terminals; terminal++)
        for (size_t place = 0; place <= soaked.selects[terminal]; place++)
            if (soaked.views[terminal][place].sending.in_doubt)
                return place == 0 ? bsc_line_release_from(&soaked.line, terminal)
                                  : bsc_line_release_to(&soaked.line, terminal, place - 1);
    terminal = one_of(soaked.terminals);
    select = any_select(terminal);
    return one_in(dice, 2) ? bsc_line_release_from(&soaked.line, terminal)
                           : bsc_line_release_to(&soaked.line, terminal, select);
}

static uint32_t play_restart(void)
{
    uint32_t error = one_in(dice, 3) ? bsc_line_restart_control(&soaked.line)
                                     : bsc_line_restart_terminal(&soaked.line, one_of(soaked.terminals));
    counts[RESTARTS] += error == BSC_OK;
    return error;
}

/* An event that ignores what is pending. */
static uint32_t play_any_turn(void)
{
    static const size_t lost[2] = {BSC_LOST, BSC_LOST};
    static const uint8_t none[1] = {0};
    switch (up_to(4)) {
    case 0:
        return bsc_line_silence(&soaked.line);
    case 1:
        return bsc_line_lose(&soaked.line);
    case 2:
        return bsc_line_carry_each(&soaked.line, none, 0, lost, 2);
    default:
        return bsc_line_carry_sent(&soaked.line);
    }
}

/* What one terminal hears of what is pending; 0 if nothing arrives. On a line on which everything is heard fairly, no
 * terminal hears a call that each hears in its own way. */
static int hearing(enum pending pending, struct octets *heard)
{
    static const struct octets eot = {{0x16, 0x16, 0x04, 0xff}, 4};
    size_t way;
    *heard = soaked.octets;
    if (pending == CALL && (soaked.spoiling == LOSS || soaked.spoiling == DAMAGE)) {
        *heard = eot;
        return !one_in(dice, 2);
    }
    way = up_to(4);
    if (way == 1)
        *heard = spoiled();
    return way != 0;
}

static uint32_t play_each(enum pending pending)
{
    static uint8_t octets[BSC_MAX_TERMINALS * MOST_HEARD];
    size_t lengths[BSC_MAX_TERMINALS], len = 0;
    for (size_t number = 0; number < soaked.terminals; number++) {
        struct octets heard;
        lengths[number] = BSC_LOST;
        if (hearing(pending, &heard)) {
            memcpy(octets + len, heard.at, heard.len);
            lengths[number] = heard.len;
            len += heard.len;
        }
    }
    return bsc_line_carry_each(&soaked.line, octets, len, lengths, soaked.terminals);
}

/* Keeps the octets of what is pending, and sometimes those of what was pending before it. */
static enum pending keep(void)
{
    struct octets now = {{0}, 0};
    struct bsc_content content;
    size_t sender = 0;
    uint32_t error = bsc_line_pending(&soaked.line, now.at, BSC_MAX_SENT, &now.len, &sender);
    if (one_in(dice, 4))
        soaked.earlier = soaked.octets;
    soaked.octets = now;
    if (error == BSC_NOTHING_SENT)
        return NOTHING;
    must(error);
    if (sender != BSC_CONTROL)
        return OF_TERMINAL;
    return bsc_decode(now.at, now.len, &content) == BSC_CALL ? CALL : OF_CONTROL;
}

/* What is pending is carried or lost; if nothing is pending, a silence passes. */
static uint32_t play_turn(void)
{
    enum pending pending = keep();
    struct octets heard;
    size_t way;
    if (pending == NOTHING)
        return bsc_line_silence(&soaked.line);
    if (up_to(16) >= soaked.spoiled)
        return bsc_line_carry_sent(&soaked.line);
    way = up_to(4);
    if (way == 0)
        return bsc_line_lose(&soaked.line);
    if (way < 3 && pending != OF_TERMINAL)
        return play_each(pending);
    heard = spoiled();
    return bsc_line_carry(&soaked.line, heard.at, heard.len);
}

/* ---- What an event did ------------------------------------------------------------------------------------------- */

static void see_channel(struct view *view, const struct bsc_sending *sending, size_t spooled)
{
    counts[BLOCKS] += spooled != view->spooled;
    counts[RECORDS] += spooled - view->spooled;
    counts[KNOWN] += sending->known != view->sending.known;
    counts[DOUBTS] += sending->in_doubt && !view->sending.in_doubt;
    view->sending = *sending;
    view->spooled = spooled;
}

static void see_channels(void)
{
    for (size_t terminal = 0; terminal < soaked.terminals; terminal++) {
        struct bsc_sending sending;
        size_t spooled;
        must(bsc_line_sending_from(&soaked.line, terminal, &sending));
        must(bsc_line_arrivals_from(&soaked.line, terminal, &spooled));
        see_channel(&soaked.views[terminal][0], &sending, spooled);
        for (size_t select = 0; select < soaked.selects[terminal]; select++) {
            must(bsc_line_sending_to(&soaked.line, terminal, select, &sending));
            must(bsc_line_arrivals_to(&soaked.line, terminal, select, &spooled));
            see_channel(&soaked.views[terminal][1 + select], &sending, spooled);
        }
    }
}

/* Counts what was sent. */
static void see_sent(void)
{
    static const enum count kinds[] = {
        [BSC_CALL] = CALLS, [BSC_TEXT] = TEXTS, [BSC_ENQ] = ENQS, [BSC_NAK] = NAKS, [BSC_WACK] = WACKS,
        [BSC_RVI] = RVIS};
    struct bsc_content content;
    uint8_t octets[BSC_MAX_SENT];
    size_t len, sender;
    uint32_t kind, error = bsc_line_pending(&soaked.line, octets, sizeof octets, &len, &sender);
    if (error == BSC_NOTHING_SENT)
        return;
    must(error);
    kind = bsc_decode(octets, len, &content);
    if (kinds[kind] != EVENTS)
        counts[kinds[kind]]++;
}

static uint32_t play(size_t choice)
{
    uint32_t error;
    if (choice < 10)
        return play_offer(choice < 5);
    if (choice == 10)
        return play_flag();
    if (choice == RELEASE) {
        error = play_release();
        counts[RELEASES] += error == BSC_OK;
        return error;
    }
    if (choice == 13)
        return play_restart();
    error = choice == 12 ? play_any_turn() : play_turn();
    if (error == BSC_OK)
        see_sent();
    return error;
}

static void step(void)
{
    uint32_t error;
    if (up_to(32) == 0)
        starved = !starved;
    error = play(up_to(32));
    counts[error == BSC_OK ? ACCEPTED : REFUSED]++;
    counts[BY_MEMORY] += error == BSC_OUT_OF_MEMORY;
    counts[BY_MISMATCH] += error == BSC_COUNT_MISMATCH;
    see_channels();
}

/* Plays the line of this seed for at most this many events, and gives how many they were. */
static unsigned long long soak_line(uint64_t seed, unsigned long long most)
{
    unsigned long long life;
    uint32_t trusted;
    make(seed);
    life = 100 + up_to(up_to(8) == 0 ? 6000 : 1000);
    if (life > most)
        life = most;
    for (unsigned long long event = 0; event < life; event++)
        step();
    must(bsc_line_trusted(&soaked.line, &trusted));
    counts[EVENTS] += life;
    counts[LINES]++;
    counts[NOT_TRUSTED] += !trusted;
    must(bsc_line_free(&soaked.line));
    return life;
}

int main(int argc, char **argv)
{
    unsigned long long left = argc > 1 ? strtoull(argv[1], NULL, 10) : 20000;
    uint64_t seed = argc > 2 ? strtoull(argv[2], NULL, 10) : 1;
    while (left > 0)
        left -= soak_line(seed++, left);
    for (int count = 0; count < COUNTS; count++)
        printf("%s: %llu\n", names[count], counts[count]);
    return 0;
}
