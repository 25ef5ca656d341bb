/* A terminal over TCP, as `bscline station --terminal 0 --connect HOST:PORT`: it offers the lines of standard input
 * as records, prints the records that arrive, and ends when the control station closes the connection.
 *
 *     terminal HOST PORT POLL SELECT < cards.txt */
#include "examples.h"

/* Offers each line of standard input. */
static void offer_lines(struct bsc_terminal *terminal)
{
    uint8_t record[MOST_OF_LINE];
    size_t len;
    while (read_line(record, &len))
        check(bsc_terminal_offer(terminal, record, len));
}

/* Prints the records that arrived after the first `printed` ones, and gives how many there are now. */
static size_t print_arrivals(struct bsc_terminal *terminal, size_t printed)
{
    uint8_t chars[BSC_MAX_CHARS];
    size_t count, len;
    check(bsc_terminal_arrivals(terminal, 0, &count));
    for (; printed < count; printed++) {
        check(bsc_terminal_arrived(terminal, 0, printed, chars, sizeof chars, &len));
        print_record(chars, len);
    }
    return printed;
}

/* Hears and answers until the control station closes the connection. */
static void speak(struct bsc_terminal *terminal, int peer)
{
    uint8_t heard[BSC_MAX_HEARD], sent[BSC_MAX_SENT];
    size_t sent_len, printed = 0;
    int len;
    while ((len = receive_record(peer, heard)) >= 0) {
        if (len > 0)
            check(bsc_terminal_hear(terminal, heard, (size_t)len, sent, sizeof sent, &sent_len));
        else
            check(bsc_terminal_silence(terminal, sent, sizeof sent, &sent_len));
        printed = print_arrivals(terminal, printed);
        send_record(peer, sent, sent_len);
    }
}

int main(int argc, char **argv)
{
    struct bsc_setup setup = {.full = 80, .block_chars = 400, .tries = 3, .waits = 10};
    struct bsc_addresses addresses = {.count = 1};
    struct bsc_terminal terminal = {0};
    struct bsc_sending sending;
    int peer;
    if (argc != 5)
        fail("usage: terminal HOST PORT POLL SELECT");
    addresses.poll = address_of(argv[3]);
    addresses.selects[0] = address_of(argv[4]);
    check(bsc_terminal_new(&terminal, &setup, &addresses));
    offer_lines(&terminal);
    peer = connect_to(argv[1], argv[2], TIME_OUT);
    speak(&terminal, peer);
    check(bsc_terminal_sending(&terminal, &sending));
    check(bsc_terminal_free(&terminal));
    close(peer);
    return print_counts(&sending);
}
