/* Memory is refused, and comes back. */
#include "faults.h"

static struct bsc_sending sending;
static uint32_t trusted;

static uint32_t make(int kind, void *handle)
{
    struct bsc_addresses addresses[2] = {terminal_at(0), terminal_at(1)};
    if (kind == 0)
        return bsc_terminal_new(handle, &usual, addresses);
    if (kind == 1)
        return bsc_control_new(handle, &usual, addresses, 2, poll_list, 2);
    return bsc_line_new(handle, &usual, addresses, 2, poll_list, 2);
}

static uint32_t unmake(int kind, void *handle)
{
    return kind == 0 ? bsc_terminal_free(handle) : kind == 1 ? bsc_control_free(handle) : bsc_line_free(handle);
}

/* What is made takes memory, answers if any request for it is refused, and is wholly freed. */
void test_making(void)
{
    for (int kind = 0; kind < 3; kind++) {
        struct bsc_line handle = {0};
        long before = live, at = 1;
        for (;; at++) {
            refuse(at, at);
            uint32_t answer = make(kind, &handle);
            int hit = requests >= at;
            refuse(0, 0);
            if (!hit)
                break;
            EXPECT(BSC_OUT_OF_MEMORY, answer);
            HOLDS(handle.kind == 0 && handle.station == NULL && live == before);
        }
        HOLDS(at > 1 && live > before);
        EXPECT(BSC_OK, unmake(kind, &handle));
        HOLDS(live == before);
        EXPECT(BSC_NOT_MADE, unmake(kind, &handle));
        HOLDS(live == before);
    }
}

/* While memory is refused, an offer and a record that is kept are refused and change nothing. */
void test_offers(void)
{
    struct bsc_terminal terminal = new_terminal();
    struct bsc_control control = new_control();
    size_t accepted = 0, kept_count = 0, refusals = 0, count;
    for (int i = 0; i < 4000; i++) {
        refuse(1, i % 3 == 0 ? 1 : i % 3 == 1 ? 1000 : 0);
        uint32_t offered = bsc_terminal_offer(&terminal, one, i % 2 == 0 ? 1 : 0);
        uint32_t added = bsc_control_keep_arrived(&control, 1, one, 1);
        refuse(0, 0);
        HOLDS(offered == BSC_OK || offered == BSC_OUT_OF_MEMORY);
        HOLDS(added == BSC_OK || added == BSC_OUT_OF_MEMORY);
        accepted += offered == BSC_OK;
        kept_count += added == BSC_OK;
        refusals += offered == BSC_OUT_OF_MEMORY;
        EXPECT(BSC_OK, bsc_terminal_sending(&terminal, &sending));
        EXPECT(BSC_OK, bsc_control_arrivals(&control, 1, &count));
        HOLDS(sending.offered == accepted && count == kept_count);
    }
    HOLDS(refusals > 0 && accepted > 1000 && kept_count > 1000);
    bsc_terminal_free(&terminal);
    bsc_control_free(&control);
}

/* Plays events, some of which have no memory, until `count` records each way are known to have arrived. */
static void play_starved(struct bsc_line *line, size_t count)
{
    struct bsc_sending from, to;
    size_t offered_at = 0, offered_for = 0, refusals = 0;
    uint8_t record[4];
    for (unsigned event = 0; event < 100000; event++) {
        refuse(1, event % 7 < 4 ? 1000 : 0);
        record[0] = record[2] = (uint8_t)('0' + offered_at / 64);
        record[1] = record[3] = (uint8_t)('0' + offered_at % 64);
        if (offered_at < count && bsc_line_offer_at(line, 0, record, 4) == BSC_OK)
            offered_at++;
        record[0] = (uint8_t)('0' + offered_for / 64);
        record[1] = (uint8_t)('0' + offered_for % 64);
        if (offered_for < count && bsc_line_offer_for(line, 1, 1, record, 2) == BSC_OK)
            offered_for++;
        if (bsc_line_carry_sent(line) == BSC_NOTHING_SENT)
            EXPECT(BSC_OK, bsc_line_silence(line));
        EXPECT(BSC_OK, bsc_line_sending_from(line, 0, &from));
        EXPECT(BSC_OK, bsc_line_sending_to(line, 1, 1, &to));
        refuse(0, 0);
        HOLDS(from.offered == offered_at && to.offered == offered_for && !from.in_doubt && !to.in_doubt);
        refusals += from.offered < count && event % 7 < 4;
        if (from.known == count && to.known == count)
            break;
    }
    HOLDS(from.known == count && to.known == count && refusals > 0);
}

/* A line that is refused memory again and again loses nothing. */
void test_starved(void)
{
    struct bsc_line line = new_line();
    size_t count = 2000, arrived_from, arrived_to, len;
    uint8_t chars[BSC_MAX_CHARS];
    play_starved(&line, count);
    EXPECT(BSC_OK, bsc_line_arrivals_from(&line, 0, &arrived_from));
    EXPECT(BSC_OK, bsc_line_arrivals_to(&line, 1, 1, &arrived_to));
    HOLDS(arrived_from == count && arrived_to == count);
    for (size_t index = 0; index < count; index++) {
        EXPECT(BSC_OK, bsc_line_arrived_from(&line, 0, index, chars, sizeof chars, &len));
        HOLDS(len == 4 && chars[0] == '0' + index / 64 && chars[1] == '0' + index % 64);
        EXPECT(BSC_OK, bsc_line_arrived_to(&line, 1, 1, index, chars, sizeof chars, &len));
        HOLDS(len == 2 && chars[0] == '0' + index / 64 && chars[1] == '0' + index % 64);
    }
    EXPECT(BSC_OK, bsc_line_trusted(&line, &trusted));
    HOLDS(trusted == 1);
    bsc_line_free(&line);
}
