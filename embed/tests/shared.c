/* What the tests of the faults are made of, and memory that is counted and refused: they are linked so that the library
 * calls the malloc, realloc and free of this file. */
#include "faults.h"

void *__real_malloc(size_t size);
void *__real_realloc(void *block, size_t size);
void __real_free(void *block);

long live, requests;
static long refused_from, refused_to;

void refuse(long from, long to)
{
    requests = 0;
    refused_from = from;
    refused_to = to;
}

static int is_refused(void)
{
    requests++;
    return requests >= refused_from && requests <= refused_to;
}

void *__wrap_malloc(size_t size)
{
    void *block = is_refused() ? NULL : __real_malloc(size);
    live += block != NULL;
    return block;
}

void *__wrap_realloc(void *old, size_t size)
{
    void *block = is_refused() ? NULL : __real_realloc(old, size);
    live += block != NULL && old == NULL;
    return block;
}

void __wrap_free(void *block)
{
    live -= block != NULL;
    __real_free(block);
}

const struct bsc_setup usual = {80, 400, 3, 10};
const uint8_t poll_list[2] = {0, 1};
const uint8_t one[1] = {'X'};
uint8_t out[BSC_MAX_SENT];
size_t out_len;

struct bsc_address address(const char *chars)
{
    struct bsc_address address = {{0}, 0};
    address.len = (uint8_t)strlen(chars);
    memcpy(address.chars, chars, address.len);
    return address;
}

struct bsc_addresses terminal_at(size_t number)
{
    struct bsc_addresses addresses = {{{0}, 0}, {{{0}, 0}}, 2};
    char chars[3] = {0, (char)('0' + number / 8), 0};
    chars[0] = (char)('A' + 3 * (number % 8));
    addresses.poll = address(chars);
    chars[0]++;
    addresses.selects[0] = address(chars);
    chars[0]++;
    addresses.selects[1] = address(chars);
    return addresses;
}

struct bsc_terminal new_terminal(void)
{
    struct bsc_terminal terminal = {0};
    struct bsc_addresses addresses = terminal_at(0);
    EXPECT(BSC_OK, bsc_terminal_new(&terminal, &usual, &addresses));
    return terminal;
}

struct bsc_control new_control(void)
{
    struct bsc_control control = {0};
    struct bsc_addresses addresses[2] = {terminal_at(0), terminal_at(1)};
    EXPECT(BSC_OK, bsc_control_new(&control, &usual, addresses, 2, poll_list, 2));
    return control;
}

struct bsc_line new_line(void)
{
    struct bsc_line line = {0};
    struct bsc_addresses addresses[2] = {terminal_at(0), terminal_at(1)};
    EXPECT(BSC_OK, bsc_line_new(&line, &usual, addresses, 2, poll_list, 2));
    return line;
}

size_t message(uint32_t kind, const char *called, uint8_t *octets)
{
    struct bsc_content content = {0};
    content.address_len = (uint8_t)strlen(called);
    memcpy(content.address, called, content.address_len);
    return bsc_encode(kind, &content, octets, BSC_MAX_SENT);
}

size_t text_of(const char *chars, size_t len, uint8_t *octets)
{
    struct bsc_content content = {0};
    content.count = 1;
    content.end = BSC_ETX;
    content.units[0].len = (uint8_t)len;
    content.units[0].em = len < BSC_MAX_CHARS;
    memcpy(content.units[0].chars, chars, len);
    return bsc_encode(BSC_TEXT, &content, octets, BSC_MAX_SENT);
}

uint32_t hear_at_terminal(struct bsc_terminal *terminal, uint32_t kind, const char *called)
{
    uint8_t octets[BSC_MAX_SENT];
    size_t len = message(kind, called, octets);
    return bsc_terminal_hear(terminal, octets, len, out, sizeof out, &out_len);
}

uint32_t hear_at_control(struct bsc_control *control, uint32_t kind)
{
    uint8_t octets[BSC_MAX_SENT];
    size_t len = message(kind, "", octets);
    return bsc_control_hear(control, octets, len, out, sizeof out, &out_len);
}

uint32_t sent_kind(void)
{
    struct bsc_content content;
    return bsc_decode(out, out_len, &content);
}
