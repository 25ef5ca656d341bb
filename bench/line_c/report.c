/* What was left on a line, in a line of text that is the same as that of bench_line and line_plain. */
#include "line_c.h"

#include <inttypes.h>

uint64_t new_digest(void)
{
    return 0xcbf29ce484222325u;
}

static void digest_number(uint64_t *digest, size_t number)
{
    *digest = (*digest ^ number) * 0x100000001b3u;
    *digest ^= *digest >> 32;
}

static void digest_octets(uint64_t *digest, const uint8_t *octets, size_t len)
{
    digest_number(digest, len);
    for (size_t place = 0; place < len; place++)
        digest_number(digest, octets[place]);
}

void digest_event(uint64_t *digest, size_t answer, struct bsc_line *line)
{
    uint8_t octets[BSC_MAX_SENT];
    size_t len, sender;
    uint32_t trusted, error = bsc_line_pending(line, octets, sizeof octets, &len, &sender);
    digest_number(digest, answer);
    if (error == BSC_NOTHING_SENT) {
        digest_number(digest, 0);
    } else {
        must(error);
        digest_number(digest, sender == BSC_CONTROL ? 1 : sender + 2);
        digest_octets(digest, octets, len);
    }
    must(bsc_line_trusted(line, &trusted));
    digest_number(digest, trusted);
}

/* Totals over all channels. */
struct left {
    uint64_t digest;
    size_t offered, known, spooled, doubts;
};

static void add_channel(struct left *left, const struct bsc_sending *sending, size_t spooled)
{
    digest_number(&left->digest, sending->offered);
    digest_number(&left->digest, sending->known);
    digest_number(&left->digest, sending->in_doubt);
    digest_number(&left->digest, spooled);
    left->offered += sending->offered;
    left->known += sending->known;
    left->spooled += spooled;
    left->doubts += sending->in_doubt;
}

static void add_from(struct left *left, struct bsc_line *line, size_t terminal)
{
    struct bsc_sending sending;
    uint8_t chars[BSC_MAX_CHARS];
    size_t spooled, len;
    must(bsc_line_sending_from(line, terminal, &sending));
    must(bsc_line_arrivals_from(line, terminal, &spooled));
    add_channel(left, &sending, spooled);
    for (size_t index = 0; index < spooled; index++) {
        must(bsc_line_arrived_from(line, terminal, index, chars, sizeof chars, &len));
        digest_octets(&left->digest, chars, len);
    }
}

static void add_to(struct left *left, struct bsc_line *line, size_t terminal, size_t select)
{
    struct bsc_sending sending;
    uint8_t chars[BSC_MAX_CHARS];
    size_t spooled, len;
    must(bsc_line_sending_to(line, terminal, select, &sending));
    must(bsc_line_arrivals_to(line, terminal, select, &spooled));
    add_channel(left, &sending, spooled);
    for (size_t index = 0; index < spooled; index++) {
        must(bsc_line_arrived_to(line, terminal, select, index, chars, sizeof chars, &len));
        digest_octets(&left->digest, chars, len);
    }
}

void print_left(const char *name, uint64_t digest, struct played *played)
{
    struct left left = {digest, 0, 0, 0, 0};
    uint32_t trusted;
    for (size_t terminal = 0; terminal < played->terminals; terminal++) {
        add_from(&left, &played->line, terminal);
        for (size_t select = 0; select < played->selects[terminal]; select++)
            add_to(&left, &played->line, terminal, select);
    }
    must(bsc_line_trusted(&played->line, &trusted));
    printf("%s: offered %zu, known %zu, spooled %zu, in doubt %zu, %strusted, %016" PRIx64 "\n", name, left.offered,
           left.known, left.spooled, left.doubts, trusted ? "" : "not ", left.digest);
}
