/* Doubts, flags, events of a line, and beginning again. */
#include "faults.h"

static size_t number;
static struct bsc_sending sending;
static struct bsc_kept kept;
static uint32_t trusted;

void test_doubts(void)
{
    struct bsc_terminal terminal = new_terminal(), again = new_terminal();
    struct bsc_control control = new_control();
    for (int record = 0; record < 9; record++) {
        EXPECT(BSC_OK, bsc_terminal_offer(&terminal, one, 1));
        EXPECT(BSC_OK, bsc_terminal_offer(&again, one, 1));
        EXPECT(BSC_OK, bsc_control_offer(&control, 0, 1, one, 1));
    }
    EXPECT(BSC_NOT_IN_DOUBT, bsc_terminal_release(&terminal, 0));
    EXPECT(BSC_NOT_IN_DOUBT, bsc_control_release(&control, 0, 1, 0));
    EXPECT(BSC_OK, hear_at_terminal(&terminal, BSC_CALL, "A0"));
    HOLDS(sent_kind() == BSC_TEXT);
    EXPECT(BSC_NOT_NEW, bsc_terminal_recall(&terminal, &kept));
    EXPECT(BSC_OK, bsc_terminal_restart(&terminal));
    EXPECT(BSC_OK, bsc_terminal_kept(&terminal, &kept));
    HOLDS(kept.known == 0 && kept.doubt == 7);
    EXPECT(BSC_OK, bsc_terminal_sending(&terminal, &sending));
    HOLDS(sending.offered == 9 && sending.known == 0 && sending.in_doubt == 1);
    EXPECT(BSC_NOT_NEW, bsc_terminal_recall(&terminal, &kept));
    EXPECT(BSC_COUNT_MISMATCH, bsc_terminal_release(&terminal, 1));
    EXPECT(BSC_COUNT_MISMATCH, bsc_terminal_release(&terminal, 6));
    EXPECT(BSC_COUNT_MISMATCH, bsc_terminal_release(&terminal, 8));
    EXPECT(BSC_COUNT_MISMATCH, bsc_terminal_release(&terminal, (size_t)-1));
    EXPECT(BSC_OK, bsc_terminal_release(&terminal, 7));
    EXPECT(BSC_NOT_IN_DOUBT, bsc_terminal_release(&terminal, 7));
    EXPECT(BSC_NOT_NEW, bsc_terminal_recall(&terminal, &kept));
    kept.known = 10;
    EXPECT(BSC_WRONG_KNOWN, bsc_terminal_recall(&again, &kept));
    kept.known = 0;
    kept.doubt = 8;
    EXPECT(BSC_WRONG_DOUBT, bsc_terminal_recall(&again, &kept));
    kept.known = 7;
    kept.doubt = 3;
    EXPECT(BSC_WRONG_DOUBT, bsc_terminal_recall(&again, &kept));
    EXPECT(BSC_OK, bsc_terminal_sending(&again, &sending));
    HOLDS(sending.known == 0 && sending.in_doubt == 0);
    kept.doubt = 2;
    EXPECT(BSC_OK, bsc_terminal_recall(&again, &kept));
    EXPECT(BSC_OK, bsc_terminal_sending(&again, &sending));
    HOLDS(sending.known == 7 && sending.in_doubt == 1);
    EXPECT(BSC_OK, bsc_terminal_release(&again, 9));
    kept.known = 10;
    EXPECT(BSC_WRONG_KNOWN, bsc_control_recall(&control, 0, 1, &kept));
    kept.known = 8;
    EXPECT(BSC_WRONG_DOUBT, bsc_control_recall(&control, 0, 1, &kept));
    kept.known = 2;
    kept.doubt = 0;
    EXPECT(BSC_OK, bsc_control_recall(&control, 0, 1, &kept));
    EXPECT(BSC_OK, bsc_control_silence(&control, out, sizeof out, &out_len));
    HOLDS(sent_kind() == BSC_CALL);
    kept.known = 0;
    EXPECT(BSC_NOT_NEW, bsc_control_recall(&control, 1, 0, &kept));
    EXPECT(BSC_OK, hear_at_control(&control, BSC_ACK0));
    HOLDS(sent_kind() == BSC_TEXT);
    EXPECT(BSC_NOT_NEW, bsc_control_recall(&control, 0, 1, &kept));
    EXPECT(BSC_OK, bsc_control_restart(&control));
    EXPECT(BSC_OK, bsc_control_recall(&control, 1, 0, &kept));
    EXPECT(BSC_OK, bsc_control_kept(&control, 0, 1, &kept));
    HOLDS(kept.known == 2 && kept.doubt == 7);
    EXPECT(BSC_COUNT_MISMATCH, bsc_control_release(&control, 0, 1, 3));
    EXPECT(BSC_OK, bsc_control_release(&control, 0, 1, 2));
    EXPECT(BSC_NOT_IN_DOUBT, bsc_control_release(&control, 0, 1, 2));
    bsc_terminal_free(&terminal);
    bsc_terminal_free(&again);
    bsc_control_free(&control);
}

void test_flags(void)
{
    struct bsc_terminal terminal = new_terminal();
    struct bsc_control control = new_control();
    uint8_t octets[BSC_MAX_SENT];
    size_t len = text_of("HI", 2, octets);
    EXPECT(BSC_OK, bsc_terminal_ready(&terminal, 0));
    EXPECT(BSC_OK, hear_at_terminal(&terminal, BSC_CALL, "B0"));
    HOLDS(sent_kind() == BSC_NAK);
    EXPECT(BSC_OK, bsc_terminal_ready(&terminal, UINT32_MAX));
    EXPECT(BSC_OK, bsc_terminal_urgent(&terminal));
    EXPECT(BSC_OK, hear_at_terminal(&terminal, BSC_CALL, "B0"));
    HOLDS(sent_kind() == BSC_ACK0);
    EXPECT(BSC_OK, bsc_terminal_hear(&terminal, octets, len, out, sizeof out, &out_len));
    HOLDS(sent_kind() == BSC_RVI);
    EXPECT(BSC_OK, bsc_control_urgent(&control, 0));
    EXPECT(BSC_OK, bsc_control_silence(&control, out, sizeof out, &out_len));
    EXPECT(BSC_OK, bsc_control_hear(&control, octets, len, out, sizeof out, &out_len));
    HOLDS(sent_kind() == BSC_RVI);
    EXPECT(BSC_OK, bsc_control_arrivals(&control, 0, &number));
    HOLDS(number == 1);
    EXPECT(BSC_OK, bsc_control_arrived(&control, 0, 0, octets, 2, &number));
    HOLDS(number == 2 && memcmp(octets, "HI", 2) == 0);
    EXPECT(BSC_NO_SUCH_RECORD, bsc_control_arrived(&control, 0, 1, octets, sizeof octets, &number));
    EXPECT(BSC_NO_ROOM, bsc_control_arrived(&control, 0, 0, octets, 1, &number));
    bsc_terminal_free(&terminal);
    bsc_control_free(&control);
}

/* Whether what was sent last is the call of this address. */
static int is_call_of(const char *called)
{
    uint8_t octets[BSC_MAX_SENT];
    size_t len = message(BSC_CALL, called, octets);
    return out_len == len && memcmp(out, octets, len) == 0;
}

/* Terminal 0 is passed over, then all are, and the control station that began again polls it. */
void test_polling(void)
{
    struct bsc_control control = new_control();
    EXPECT(BSC_OK, bsc_control_set_polled(&control, 0, 0));
    EXPECT(BSC_OK, bsc_control_silence(&control, out, sizeof out, &out_len));
    HOLDS(is_call_of("D0"));
    EXPECT(BSC_OK, bsc_control_set_polled(&control, 1, 0));
    EXPECT(BSC_OK, hear_at_control(&control, BSC_EOT));
    HOLDS(out_len == 0);
    EXPECT(BSC_OK, bsc_control_silence(&control, out, sizeof out, &out_len));
    HOLDS(out_len == 0);
    EXPECT(BSC_OK, bsc_control_restart(&control));
    EXPECT(BSC_OK, bsc_control_silence(&control, out, sizeof out, &out_len));
    HOLDS(is_call_of("A0"));
    bsc_control_free(&control);
}

void test_events(void)
{
    struct bsc_line line = new_line();
    uint8_t octets[BSC_MAX_SENT];
    size_t sender, lengths[BSC_MAX_TERMINALS + 1] = {0};
    lengths[0] = lengths[1] = BSC_LOST;
    EXPECT(BSC_OK, bsc_line_offer_at(&line, 0, one, 1));
    EXPECT(BSC_NOTHING_SENT, bsc_line_carry(&line, one, 1));
    EXPECT(BSC_NOTHING_SENT, bsc_line_carry_sent(&line));
    EXPECT(BSC_NOTHING_SENT, bsc_line_lose(&line));
    EXPECT(BSC_NOTHING_SENT, bsc_line_carry_each(&line, one, 0, lengths, 2));
    EXPECT(BSC_WRONG_COUNT, bsc_line_carry_each(&line, one, 1, lengths, 2));
    EXPECT(BSC_WRONG_COUNT, bsc_line_carry_each(&line, one, 0, lengths, BSC_MAX_TERMINALS + 1));
    EXPECT(BSC_NOTHING_SENT, bsc_line_pending(&line, octets, sizeof octets, &number, &sender));
    EXPECT(BSC_NOT_IN_DOUBT, bsc_line_release_from(&line, 0));
    EXPECT(BSC_NOT_IN_DOUBT, bsc_line_release_to(&line, 0, 1));
    EXPECT(BSC_OK, bsc_line_silence(&line));
    EXPECT(BSC_PENDING, bsc_line_silence(&line));
    number = message(BSC_CALL, "A0", octets);
    lengths[0] = number;
    lengths[1] = BSC_LOST;
    EXPECT(BSC_WRONG_COUNT, bsc_line_carry_each(&line, octets, number, lengths, 1));
    EXPECT(BSC_WRONG_COUNT, bsc_line_carry_each(&line, octets, number, lengths, 3));
    EXPECT(BSC_WRONG_COUNT, bsc_line_carry_each(&line, octets, number, lengths, BSC_MAX_TERMINALS + 1));
    EXPECT(BSC_WRONG_COUNT, bsc_line_carry_each(&line, octets, number - 1, lengths, 2));
    EXPECT(BSC_WRONG_COUNT, bsc_line_carry_each(&line, octets, number + 1, lengths, 2));
    lengths[1] = BSC_LOST - 1;
    EXPECT(BSC_WRONG_COUNT, bsc_line_carry_each(&line, octets, number, lengths, 2));
    lengths[1] = BSC_LOST - number + 1;
    EXPECT(BSC_WRONG_COUNT, bsc_line_carry_each(&line, octets, number, lengths, 2));
    lengths[1] = BSC_LOST;
    EXPECT(BSC_OK, bsc_line_carry_each(&line, octets, number, lengths, 2));
    EXPECT(BSC_OK, bsc_line_pending(&line, octets, sizeof octets, &number, &sender));
    HOLDS(sender == 0);
    lengths[0] = BSC_LOST;
    EXPECT(BSC_NOT_CONTROL, bsc_line_carry_each(&line, octets, 0, lengths, 2));
    EXPECT(BSC_OK, bsc_line_trusted(&line, &trusted));
    HOLDS(trusted == 0);
    /* The text arrives, and then again after its sender began again and was released: one end has two records. */
    EXPECT(BSC_OK, bsc_line_restart_terminal(&line, 0));
    EXPECT(BSC_OK, bsc_line_silence(&line));
    EXPECT(BSC_OK, bsc_line_carry(&line, one, 1));
    EXPECT(BSC_OK, bsc_line_silence(&line));
    number = text_of("X", 1, octets);
    for (int time = 0; time < 2; time++) {
        EXPECT(BSC_OK, bsc_line_restart_control(&line));
        EXPECT(BSC_OK, bsc_line_silence(&line));
        EXPECT(BSC_OK, bsc_line_carry_sent(&line));
        EXPECT(BSC_OK, bsc_line_carry(&line, octets, number));
    }
    EXPECT(BSC_OK, bsc_line_arrivals_from(&line, 0, &number));
    HOLDS(number == 2);
    EXPECT(BSC_COUNT_MISMATCH, bsc_line_release_from(&line, 0));
    EXPECT(BSC_NO_SUCH_RECORD, bsc_line_arrived_from(&line, 0, 2, out, sizeof out, &number));
    EXPECT(BSC_NO_ROOM, bsc_line_arrived_from(&line, 0, 1, out, 0, &number));
    EXPECT(BSC_OK, bsc_line_arrived_from(&line, 0, 1, out, 1, &number));
    HOLDS(number == 1 && out[0] == 'X');
    EXPECT(BSC_NO_SUCH_RECORD, bsc_line_arrived_to(&line, 0, 0, 0, out, sizeof out, &number));
    bsc_line_free(&line);
}

/* What one of several lines does, the others do not notice; a handle that was moved goes on. */
void test_side_by_side(void)
{
    struct bsc_line lines[3] = {new_line(), new_line(), new_line()}, moved;
    for (size_t at = 0; at < 3; at++)
        for (size_t record = 0; record <= at; record++)
            EXPECT(BSC_OK, bsc_line_offer_at(&lines[at], 0, one, 1));
    moved = lines[1];
    for (int event = 0; event < 4; event++) {
        EXPECT(BSC_OK, event == 0 ? bsc_line_silence(&moved) : bsc_line_carry_sent(&moved));
        EXPECT(event == 0 ? BSC_OK : BSC_PENDING, bsc_line_silence(&lines[2]));
    }
    EXPECT(BSC_OK, bsc_line_sending_from(&moved, 0, &sending));
    HOLDS(sending.offered == 2 && sending.known == 2);
    EXPECT(BSC_OK, bsc_line_free(&moved));
    EXPECT(BSC_OK, bsc_line_sending_from(&lines[0], 0, &sending));
    HOLDS(sending.offered == 1 && sending.known == 0);
    EXPECT(BSC_NOTHING_SENT, bsc_line_carry_sent(&lines[0]));
    EXPECT(BSC_OK, bsc_line_sending_from(&lines[2], 0, &sending));
    HOLDS(sending.offered == 3 && sending.known == 0);
    bsc_line_free(&lines[0]);
    bsc_line_free(&lines[2]);
}
