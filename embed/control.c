/* A control station over TCP, as `bscline station --control --listen 127.0.0.1:PORT`: it listens for one terminal,
 * offers the lines of standard input as records for it, prints the records that arrive from it, and ends after two
 * polls in a row for which the terminal has nothing.
 *
 *     control PORT POLL SELECT < cards.txt */
#include "examples.h"

/* Offers each line of standard input. */
static void offer_lines(struct bsc_control *control)
{
    uint8_t record[MOST_OF_LINE];
    size_t len;
    while (read_line(record, &len))
        check(bsc_control_offer(control, 0, 0, record, len));
}

/* Prints the records that arrived after the first `printed` ones, and gives how many there are now. */
static size_t print_arrivals(struct bsc_control *control, size_t printed)
{
    uint8_t chars[BSC_MAX_CHARS];
    size_t count, len;
    check(bsc_control_arrivals(control, 0, &count));
    for (; printed < count; printed++) {
        check(bsc_control_arrived(control, 0, printed, chars, sizeof chars, &len));
        print_record(chars, len);
    }
    return printed;
}

/* Calls the terminal, hears and answers, until two polls in a row are answered by EOT. */
static void speak(struct bsc_control *control, int peer)
{
    uint8_t heard[BSC_MAX_HEARD], sent[BSC_MAX_SENT];
    size_t sent_len = 0, printed = 0;
    struct bsc_content content;
    int len, called, idle = 0;
    for (len = 0; len >= 0 && idle < 2; len = receive_record(peer, heard)) {
        called = len > 0 && bsc_decode(sent, sent_len, &content) == BSC_CALL;
        idle = called && bsc_decode(heard, (size_t)len, &content) == BSC_EOT ? idle + 1 : 0;
        if (len > 0)
            check(bsc_control_hear(control, heard, (size_t)len, sent, sizeof sent, &sent_len));
        else
            check(bsc_control_silence(control, sent, sizeof sent, &sent_len));
        printed = print_arrivals(control, printed);
        send_record(peer, sent, sent_len);
    }
}

int main(int argc, char **argv)
{
    struct bsc_setup setup = {.full = 80, .block_chars = 400, .tries = 3, .waits = 10};
    struct bsc_addresses terminal = {.count = 1};
    struct bsc_control control = {0};
    struct bsc_sending sending;
    const uint8_t poll_list[] = {0};
    int peer;
    if (argc != 4)
        fail("usage: control PORT POLL SELECT");
    terminal.poll = address_of(argv[2]);
    terminal.selects[0] = address_of(argv[3]);
    check(bsc_control_new(&control, &setup, &terminal, 1, poll_list, 1));
    offer_lines(&control);
    peer = listen_at(argv[1], (setup.tries + 2u) * TIME_OUT);
    speak(&control, peer);
    check(bsc_control_sending(&control, 0, 0, &sending));
    check(bsc_control_free(&control));
    close(peer);
    return print_counts(&sending);
}
