/* Every call on handles that it must refuse, and with the numbers of terminals and addresses that are not there. */
#include "faults.h"

static int failures;
static unsigned char seen[BSC_WRONG_DOUBT + 1];

void hold(const char *file, int line, int holds, const char *what)
{
    if (!holds) {
        failures++;
        printf("%s:%d: %s\n", file, line, what);
    }
}

void expect(const char *file, int line, uint32_t answer, uint32_t wanted)
{
    if (answer <= BSC_WRONG_DOUBT)
        seen[answer] = 1;
    if (answer != wanted) {
        failures++;
        printf("%s:%d: answers %u, not %u\n", file, line, (unsigned)answer, (unsigned)wanted);
    }
}

static size_t number = 77;
static struct bsc_sending sending = {77, 77, 77};
static struct bsc_kept kept = {77, 77};
static uint32_t trusted = 77;

static void refuse_terminal(void *handle, uint32_t wanted)
{
    struct bsc_terminal *t = handle;
    EXPECT(wanted, bsc_terminal_hear(t, one, 1, out, sizeof out, &number));
    EXPECT(wanted, bsc_terminal_silence(t, out, sizeof out, &number));
    EXPECT(wanted, bsc_terminal_offer(t, one, 1));
    EXPECT(wanted, bsc_terminal_sending(t, &sending));
    EXPECT(wanted, bsc_terminal_arrivals(t, 0, &number));
    EXPECT(wanted, bsc_terminal_arrived(t, 0, 0, out, sizeof out, &number));
    EXPECT(wanted, bsc_terminal_release(t, 0));
    EXPECT(wanted, bsc_terminal_ready(t, 0));
    EXPECT(wanted, bsc_terminal_urgent(t));
    EXPECT(wanted, bsc_terminal_restart(t));
    EXPECT(wanted, bsc_terminal_kept(t, &kept));
    EXPECT(wanted, bsc_terminal_keep_arrived(t, 0, one, 1));
    EXPECT(wanted, bsc_terminal_recall(t, &kept));
    EXPECT(wanted, bsc_terminal_free(t));
}

static void refuse_control(void *handle, uint32_t wanted)
{
    struct bsc_control *c = handle;
    EXPECT(wanted, bsc_control_hear(c, one, 1, out, sizeof out, &number));
    EXPECT(wanted, bsc_control_silence(c, out, sizeof out, &number));
    EXPECT(wanted, bsc_control_offer(c, 0, 0, one, 1));
    EXPECT(wanted, bsc_control_sending(c, 0, 0, &sending));
    EXPECT(wanted, bsc_control_arrivals(c, 0, &number));
    EXPECT(wanted, bsc_control_arrived(c, 0, 0, out, sizeof out, &number));
    EXPECT(wanted, bsc_control_release(c, 0, 0, 0));
    EXPECT(wanted, bsc_control_urgent(c, 0));
    EXPECT(wanted, bsc_control_set_polled(c, 0, 0));
    EXPECT(wanted, bsc_control_restart(c));
    EXPECT(wanted, bsc_control_kept(c, 0, 0, &kept));
    EXPECT(wanted, bsc_control_keep_arrived(c, 0, one, 1));
    EXPECT(wanted, bsc_control_recall(c, 0, 0, &kept));
    EXPECT(wanted, bsc_control_free(c));
}

static void refuse_line(void *handle, uint32_t wanted)
{
    struct bsc_line *l = handle;
    size_t lengths[1] = {1}, sender = 0;
    EXPECT(wanted, bsc_line_offer_at(l, 0, one, 1));
    EXPECT(wanted, bsc_line_offer_for(l, 0, 0, one, 1));
    EXPECT(wanted, bsc_line_carry(l, one, 1));
    EXPECT(wanted, bsc_line_lose(l));
    EXPECT(wanted, bsc_line_carry_sent(l));
    EXPECT(wanted, bsc_line_carry_each(l, one, 1, lengths, 1));
    EXPECT(wanted, bsc_line_silence(l));
    EXPECT(wanted, bsc_line_ready(l, 0, 0));
    EXPECT(wanted, bsc_line_set_polled(l, 0, 0));
    EXPECT(wanted, bsc_line_urgent_at(l, 0));
    EXPECT(wanted, bsc_line_urgent_for(l, 0));
    EXPECT(wanted, bsc_line_release_from(l, 0));
    EXPECT(wanted, bsc_line_release_to(l, 0, 0));
    EXPECT(wanted, bsc_line_restart_control(l));
    EXPECT(wanted, bsc_line_restart_terminal(l, 0));
    EXPECT(wanted, bsc_line_trusted(l, &trusted));
    EXPECT(wanted, bsc_line_pending(l, out, sizeof out, &number, &sender));
    EXPECT(wanted, bsc_line_sending_from(l, 0, &sending));
    EXPECT(wanted, bsc_line_sending_to(l, 0, 0, &sending));
    EXPECT(wanted, bsc_line_arrivals_from(l, 0, &number));
    EXPECT(wanted, bsc_line_arrivals_to(l, 0, 0, &number));
    EXPECT(wanted, bsc_line_arrived_from(l, 0, 0, out, sizeof out, &number));
    EXPECT(wanted, bsc_line_arrived_to(l, 0, 0, 0, out, sizeof out, &number));
    EXPECT(wanted, bsc_line_free(l));
}

void test_handles(void)
{
    struct bsc_terminal terminal = {0};
    struct bsc_control control = {0};
    struct bsc_line line = {0};
    struct bsc_addresses addresses = terminal_at(0);
    for (int time = 0; time < 2; time++) {
        refuse_terminal(&terminal, BSC_NOT_MADE);
        refuse_control(&control, BSC_NOT_MADE);
        refuse_line(&line, BSC_NOT_MADE);
        terminal = new_terminal();
        control = new_control();
        line = new_line();
        refuse_terminal(&control, BSC_OTHER_KIND);
        refuse_terminal(&line, BSC_OTHER_KIND);
        refuse_control(&terminal, BSC_OTHER_KIND);
        refuse_control(&line, BSC_OTHER_KIND);
        refuse_line(&terminal, BSC_OTHER_KIND);
        refuse_line(&control, BSC_OTHER_KIND);
        EXPECT(BSC_ALREADY_MADE, bsc_terminal_new(&terminal, &usual, &addresses));
        EXPECT(BSC_ALREADY_MADE, bsc_control_new(&control, &usual, &addresses, 1, poll_list, 1));
        EXPECT(BSC_ALREADY_MADE, bsc_line_new(&line, &usual, &addresses, 1, poll_list, 1));
        EXPECT(BSC_ALREADY_MADE, bsc_terminal_new((void *)&line, &usual, &addresses));
        EXPECT(BSC_OK, bsc_terminal_free(&terminal));
        EXPECT(BSC_OK, bsc_control_free(&control));
        EXPECT(BSC_OK, bsc_line_free(&line));
        HOLDS(terminal.kind == 0 && control.kind == 0 && line.kind == 0);
        HOLDS(terminal.station == NULL && control.station == NULL && line.station == NULL);
    }
    HOLDS(number == 77 && sending.offered == 77 && sending.known == 77 && sending.in_doubt == 77);
    HOLDS(kept.known == 77 && kept.doubt == 77 && trusted == 77);
}

void test_numbers(void)
{
    static const size_t beyond[] = {2, 3, 64, 255, (size_t)1 << 32, (size_t)-1};
    struct bsc_terminal terminal = new_terminal();
    struct bsc_control control = new_control();
    struct bsc_line line = new_line();
    EXPECT(BSC_OK, bsc_terminal_kept(&terminal, &kept));
    for (size_t i = 0; i < sizeof beyond / sizeof *beyond; i++) {
        size_t n = beyond[i];
        EXPECT(BSC_NO_SUCH_ADDRESS, bsc_terminal_arrivals(&terminal, n, &number));
        EXPECT(BSC_NO_SUCH_ADDRESS, bsc_terminal_arrived(&terminal, n, 0, out, 0, &number));
        EXPECT(BSC_NO_SUCH_ADDRESS, bsc_terminal_keep_arrived(&terminal, n, one, 1));
        EXPECT(BSC_NO_SUCH_TERMINAL, bsc_control_offer(&control, n, n, one, 1));
        EXPECT(BSC_NO_SUCH_ADDRESS, bsc_control_offer(&control, 1, n, one, 1));
        EXPECT(BSC_NO_SUCH_TERMINAL, bsc_control_sending(&control, n, n, &sending));
        EXPECT(BSC_NO_SUCH_ADDRESS, bsc_control_sending(&control, 1, n, &sending));
        EXPECT(BSC_NO_SUCH_TERMINAL, bsc_control_arrivals(&control, n, &number));
        EXPECT(BSC_NO_SUCH_TERMINAL, bsc_control_arrived(&control, n, 0, out, 0, &number));
        EXPECT(BSC_NO_SUCH_TERMINAL, bsc_control_release(&control, n, n, 0));
        EXPECT(BSC_NO_SUCH_ADDRESS, bsc_control_release(&control, 1, n, 0));
        EXPECT(BSC_NO_SUCH_TERMINAL, bsc_control_urgent(&control, n));
        EXPECT(BSC_NO_SUCH_TERMINAL, bsc_control_set_polled(&control, n, 1));
        EXPECT(BSC_NO_SUCH_TERMINAL, bsc_control_kept(&control, n, n, &kept));
        EXPECT(BSC_NO_SUCH_ADDRESS, bsc_control_kept(&control, 1, n, &kept));
        EXPECT(BSC_NO_SUCH_TERMINAL, bsc_control_keep_arrived(&control, n, one, 1));
        EXPECT(BSC_NO_SUCH_TERMINAL, bsc_control_recall(&control, n, n, &kept));
        EXPECT(BSC_NO_SUCH_ADDRESS, bsc_control_recall(&control, 1, n, &kept));
        EXPECT(BSC_NO_SUCH_TERMINAL, bsc_line_offer_at(&line, n, one, 1));
        EXPECT(BSC_NO_SUCH_TERMINAL, bsc_line_offer_for(&line, n, n, one, 1));
        EXPECT(BSC_NO_SUCH_ADDRESS, bsc_line_offer_for(&line, 1, n, one, 1));
        EXPECT(BSC_NO_SUCH_TERMINAL, bsc_line_ready(&line, n, 1));
        EXPECT(BSC_NO_SUCH_TERMINAL, bsc_line_set_polled(&line, n, 1));
        EXPECT(BSC_NO_SUCH_TERMINAL, bsc_line_urgent_at(&line, n));
        EXPECT(BSC_NO_SUCH_TERMINAL, bsc_line_urgent_for(&line, n));
        EXPECT(BSC_NO_SUCH_TERMINAL, bsc_line_release_from(&line, n));
        EXPECT(BSC_NO_SUCH_TERMINAL, bsc_line_release_to(&line, n, n));
        EXPECT(BSC_NO_SUCH_ADDRESS, bsc_line_release_to(&line, 1, n));
        EXPECT(BSC_NO_SUCH_TERMINAL, bsc_line_restart_terminal(&line, n));
        EXPECT(BSC_NO_SUCH_TERMINAL, bsc_line_sending_from(&line, n, &sending));
        EXPECT(BSC_NO_SUCH_TERMINAL, bsc_line_sending_to(&line, n, n, &sending));
        EXPECT(BSC_NO_SUCH_ADDRESS, bsc_line_sending_to(&line, 1, n, &sending));
        EXPECT(BSC_NO_SUCH_TERMINAL, bsc_line_arrivals_from(&line, n, &number));
        EXPECT(BSC_NO_SUCH_TERMINAL, bsc_line_arrivals_to(&line, n, n, &number));
        EXPECT(BSC_NO_SUCH_ADDRESS, bsc_line_arrivals_to(&line, 1, n, &number));
        EXPECT(BSC_NO_SUCH_TERMINAL, bsc_line_arrived_from(&line, n, 0, out, 0, &number));
        EXPECT(BSC_NO_SUCH_TERMINAL, bsc_line_arrived_to(&line, n, n, 0, out, 0, &number));
        EXPECT(BSC_NO_SUCH_ADDRESS, bsc_line_arrived_to(&line, 1, n, 0, out, 0, &number));
    }
    EXPECT(BSC_OK, bsc_line_arrivals_to(&line, 1, 1, &number));
    HOLDS(number == 0);
    EXPECT(BSC_OK, bsc_line_urgent_at(&line, 1));
    EXPECT(BSC_OK, bsc_line_urgent_for(&line, 1));
    EXPECT(BSC_OK, bsc_line_ready(&line, 1, 2));
    bsc_terminal_free(&terminal);
    bsc_control_free(&control);
    bsc_line_free(&line);
}

void test_texts(void)
{
    uint8_t text[65], before[65];
    memset(before, '-', sizeof before);
    memcpy(text, before, sizeof text);
    HOLDS(bsc_error_text(BSC_OK, text, sizeof text) == 0);
    HOLDS(bsc_error_text(BSC_WRONG_DOUBT + 1, text, sizeof text) == 0);
    HOLDS(bsc_error_text(UINT32_MAX, text, sizeof text) == 0);
    HOLDS(memcmp(text, before, sizeof text) == 0);
    for (uint32_t error = BSC_NOT_MADE; error <= BSC_WRONG_DOUBT; error++) {
        size_t len = bsc_error_text(error, text, 64);
        HOLDS(len > 4 && len <= 64 && text[len] == '-');
        memcpy(text, before, sizeof text);
        HOLDS(bsc_error_text(error, text, len - 1) == 0 && memcmp(text, before, sizeof text) == 0);
        HOLDS(bsc_error_text(error, text, len) == len && text[len - 1] != '-');
        memcpy(text, before, sizeof text);
    }
}

int main(void)
{
    test_texts();
    test_handles();
    test_settings();
    test_addresses();
    test_terminals();
    test_records();
    test_numbers();
    test_arrived();
    test_room();
    test_doubts();
    test_flags();
    test_polling();
    test_events();
    test_side_by_side();
    test_making();
    test_offers();
    test_starved();
    HOLDS(live == 0);
    for (unsigned error = BSC_OK; error <= BSC_WRONG_DOUBT; error++)
        if (!seen[error]) {
            failures++;
            printf("no call answered %u\n", error);
        }
    printf("%s\n", failures == 0 ? "each fault as expected" : "not as expected");
    return failures == 0 ? 0 : 1;
}
