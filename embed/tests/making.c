/* Settings, addresses, terminals and poll lists at their bounds. */
#include "faults.h"

static void try_setup(uint32_t wanted, unsigned full, unsigned block_chars, unsigned tries, unsigned waits)
{
    struct bsc_setup setup = {(uint8_t)full, (uint16_t)block_chars, (uint8_t)tries, (uint8_t)waits};
    struct bsc_addresses addresses = terminal_at(0);
    struct bsc_terminal terminal = {0};
    struct bsc_control control = {0};
    struct bsc_line line = {0};
    EXPECT(wanted, bsc_terminal_new(&terminal, &setup, &addresses));
    EXPECT(wanted, bsc_control_new(&control, &setup, &addresses, 1, poll_list, 1));
    EXPECT(wanted, bsc_line_new(&line, &setup, &addresses, 1, poll_list, 1));
    HOLDS(wanted == BSC_OK || (terminal.kind == 0 && control.kind == 0 && line.kind == 0));
    EXPECT(wanted == BSC_OK ? BSC_OK : BSC_NOT_MADE, bsc_terminal_free(&terminal));
    EXPECT(wanted == BSC_OK ? BSC_OK : BSC_NOT_MADE, bsc_control_free(&control));
    EXPECT(wanted == BSC_OK ? BSC_OK : BSC_NOT_MADE, bsc_line_free(&line));
}

void test_settings(void)
{
    try_setup(BSC_OK, 1, 146, 1, 1);
    try_setup(BSC_OK, 144, 400, 15, 255);
    try_setup(BSC_WRONG_FULL, 0, 400, 3, 10);
    try_setup(BSC_WRONG_FULL, 145, 401, 16, 0);
    try_setup(BSC_WRONG_BLOCK_CHARS, 80, 145, 3, 10);
    try_setup(BSC_WRONG_BLOCK_CHARS, 80, 401, 16, 0);
    try_setup(BSC_WRONG_TRIES, 80, 400, 0, 10);
    try_setup(BSC_WRONG_TRIES, 80, 400, 16, 0);
    try_setup(BSC_WRONG_WAITS, 80, 400, 3, 0);
}

/* Tries the addresses of a terminal alone, and as those of the second terminal of a line. */
static void try_addresses(uint32_t wanted, const struct bsc_addresses *addresses)
{
    struct bsc_addresses both[2] = {terminal_at(5), *addresses};
    struct bsc_terminal terminal = {0};
    struct bsc_control control = {0};
    struct bsc_line line = {0};
    EXPECT(wanted, bsc_terminal_new(&terminal, &usual, addresses));
    EXPECT(wanted, bsc_control_new(&control, &usual, both, 2, poll_list, 1));
    EXPECT(wanted, bsc_line_new(&line, &usual, both, 2, poll_list, 1));
    bsc_terminal_free(&terminal);
    bsc_control_free(&control);
    bsc_line_free(&line);
}

void test_addresses(void)
{
    static const struct {
        uint32_t wanted;
        uint8_t code;
    } codes[] = {{BSC_WRONG_ADDRESS, 0x20}, {BSC_OK, 0x21}, {BSC_OK, 0x7e}, {BSC_WRONG_ADDRESS, 0x7f},
                 {BSC_WRONG_ADDRESS, 0xc1}};
    struct bsc_addresses addresses = terminal_at(0);
    for (unsigned count = 0; count <= 255; count++) {
        addresses.count = (uint8_t)count;
        addresses.selects[2] = address("third");
        addresses.selects[3] = address("fourth.");
        try_addresses(count >= 1 && count <= 4 ? BSC_OK : BSC_WRONG_SELECTS, &addresses);
        addresses.poll.len = 8;
        try_addresses(count >= 1 && count <= 4 ? BSC_WRONG_ADDRESS : BSC_WRONG_SELECTS, &addresses);
        addresses.poll.len = 2;
    }
    addresses.count = 2;
    memcpy(addresses.selects[1].chars, "1234567", 7);
    for (unsigned len = 0; len <= 255; len++) {
        addresses.selects[1].len = (uint8_t)len;
        try_addresses(len >= 1 && len <= 7 ? BSC_OK : BSC_WRONG_ADDRESS, &addresses);
    }
    addresses.selects[1].len = 7;
    for (size_t i = 0; i < sizeof codes / sizeof *codes; i++) {
        addresses.selects[1].chars[6] = codes[i].code;
        try_addresses(codes[i].wanted, &addresses);
    }
    addresses.selects[1] = addresses.poll;
    try_addresses(BSC_SAME_ADDRESS, &addresses);
}

/* Tries this many terminals, and a poll list of this many entries, the last of which is `last`. */
static void try_terminals(uint32_t wanted, size_t count, size_t entries, uint8_t last)
{
    struct bsc_addresses terminals[BSC_MAX_TERMINALS + 1];
    uint8_t list[BSC_MAX_ENTRIES + 1] = {0};
    struct bsc_control control = {0};
    struct bsc_line line = {0};
    for (size_t place = 0; place < count; place++)
        terminals[place] = terminal_at(place);
    if (entries > 0)
        list[entries - 1] = last;
    EXPECT(wanted, bsc_control_new(&control, &usual, terminals, count, list, entries));
    EXPECT(wanted, bsc_line_new(&line, &usual, terminals, count, list, entries));
    bsc_control_free(&control);
    bsc_line_free(&line);
}

void test_terminals(void)
{
    struct bsc_addresses same[2] = {terminal_at(0), terminal_at(0)};
    struct bsc_control control = {0};
    struct bsc_line line = {0};
    try_terminals(BSC_OK, 64, 255, 63);
    try_terminals(BSC_NO_TERMINAL, 0, 0, 0);
    try_terminals(BSC_TOO_MANY_TERMINALS, 65, 0, 0);
    try_terminals(BSC_EMPTY_POLL_LIST, 1, 0, 0);
    try_terminals(BSC_WRONG_POLL_LIST, 64, 256, 0);
    try_terminals(BSC_WRONG_POLL_LIST, 64, 255, 64);
    try_terminals(BSC_WRONG_POLL_LIST, 1, 1, 1);
    try_terminals(BSC_WRONG_POLL_LIST, 1, 1, 255);
    EXPECT(BSC_SAME_ADDRESS, bsc_control_new(&control, &usual, same, 2, poll_list, 0));
    EXPECT(BSC_SAME_ADDRESS, bsc_line_new(&line, &usual, same, 2, poll_list, 0));
}
