/* Records and buffers at their bounds. */
#include "faults.h"

static size_t number;
static struct bsc_sending sending;

static int may_stand_in_record(unsigned code)
{
    return code < 0x80 && memchr("\1\2\3\4\5\20\25\26\27\31\37", (int)code, 11) == NULL;
}

void test_records(void)
{
    struct bsc_terminal terminal = new_terminal();
    struct bsc_control control = new_control();
    struct bsc_line line = new_line();
    uint8_t chars[BSC_MAX_CHARS + 1];
    memset(chars, 'X', sizeof chars);
    for (size_t len = 80; len <= 81; len++) {
        uint32_t wanted = len == 80 ? BSC_OK : BSC_RECORD_TOO_LONG;
        EXPECT(wanted, bsc_terminal_offer(&terminal, chars, len));
        EXPECT(wanted, bsc_control_offer(&control, 1, 1, chars, len));
        EXPECT(wanted, bsc_line_offer_at(&line, 1, chars, len));
        EXPECT(wanted, bsc_line_offer_for(&line, 1, 1, chars, len));
    }
    for (size_t len = BSC_MAX_CHARS; len <= BSC_MAX_CHARS + 1; len++) {
        uint32_t wanted = len == BSC_MAX_CHARS ? BSC_OK : BSC_RECORD_TOO_LONG;
        EXPECT(wanted, bsc_terminal_keep_arrived(&terminal, 1, chars, len));
        EXPECT(wanted, bsc_control_keep_arrived(&control, 1, chars, len));
    }
    for (unsigned code = 0; code <= 255; code++) {
        uint32_t wanted = may_stand_in_record(code) ? BSC_OK : BSC_WRONG_CHARACTER;
        chars[79] = (uint8_t)code;
        EXPECT(wanted, bsc_terminal_offer(&terminal, chars, 80));
        EXPECT(wanted, bsc_terminal_keep_arrived(&terminal, 0, chars, 80));
        EXPECT(wanted, bsc_control_offer(&control, 0, 0, chars, 80));
        EXPECT(wanted, bsc_control_keep_arrived(&control, 0, chars, 80));
        EXPECT(wanted, bsc_line_offer_at(&line, 0, chars, 80));
        EXPECT(wanted, bsc_line_offer_for(&line, 0, 0, chars, 80));
    }
    EXPECT(BSC_OK, bsc_line_offer_at(&line, 0, chars, 0));
    EXPECT(BSC_OK, bsc_terminal_sending(&terminal, &sending));
    HOLDS(sending.offered == 128 - 11 + 1 && sending.known == 0 && sending.in_doubt == 0);
    EXPECT(BSC_OK, bsc_line_sending_from(&line, 0, &sending));
    HOLDS(sending.offered == 128 - 11 + 1);
    EXPECT(BSC_OK, bsc_control_arrivals(&control, 0, &number));
    HOLDS(number == 128 - 11);
    bsc_terminal_free(&terminal);
    bsc_control_free(&control);
    bsc_line_free(&line);
}

/* A terminal that has one record of 144 characters, which is longer than its own may be. */
void test_arrived(void)
{
    struct bsc_terminal terminal = new_terminal();
    char chars[BSC_MAX_CHARS];
    uint8_t octets[BSC_MAX_SENT], *room = malloc(BSC_MAX_CHARS);
    size_t len;
    memset(chars, 'x', sizeof chars);
    EXPECT(BSC_OK, hear_at_terminal(&terminal, BSC_CALL, "C0"));
    HOLDS(sent_kind() == BSC_ACK0);
    len = text_of(chars, BSC_MAX_CHARS, octets);
    EXPECT(BSC_OK, bsc_terminal_hear(&terminal, octets, len, out, sizeof out, &out_len));
    HOLDS(sent_kind() == BSC_ACK1);
    memset(room, '-', BSC_MAX_CHARS);
    number = 77;
    EXPECT(BSC_NO_SUCH_RECORD, bsc_terminal_arrived(&terminal, 0, 0, room, BSC_MAX_CHARS, &number));
    EXPECT(BSC_NO_SUCH_RECORD, bsc_terminal_arrived(&terminal, 1, 1, room, BSC_MAX_CHARS, &number));
    EXPECT(BSC_NO_SUCH_RECORD, bsc_terminal_arrived(&terminal, 1, (size_t)-1, room, BSC_MAX_CHARS, &number));
    EXPECT(BSC_NO_ROOM, bsc_terminal_arrived(&terminal, 1, 0, room, BSC_MAX_CHARS - 1, &number));
    EXPECT(BSC_NO_ROOM, bsc_terminal_arrived(&terminal, 1, 0, room, 0, &number));
    HOLDS(number == 77 && room[0] == '-' && room[BSC_MAX_CHARS - 1] == '-');
    EXPECT(BSC_OK, bsc_terminal_arrived(&terminal, 1, 0, room, BSC_MAX_CHARS, &number));
    HOLDS(number == BSC_MAX_CHARS && memcmp(room, chars, BSC_MAX_CHARS) == 0);
    free(room);
    bsc_terminal_free(&terminal);
}

/* Buffers of one octet too few; what is heard may have 2,048 octets and no more. */
void test_room(void)
{
    struct bsc_terminal terminal = new_terminal();
    struct bsc_control control = new_control();
    struct bsc_line line = new_line();
    uint8_t *sent = malloc(BSC_MAX_SENT), *octets = malloc(BSC_MAX_HEARD + 1);
    size_t len = message(BSC_CALL, "A0", out), sender = 77;
    memset(sent, '-', BSC_MAX_SENT);
    memset(octets, 0xff, BSC_MAX_HEARD + 1);
    memcpy(octets, out, len);
    number = 77;
    EXPECT(BSC_NO_ROOM, bsc_terminal_hear(&terminal, octets, len, sent, BSC_MAX_SENT - 1, &number));
    EXPECT(BSC_NO_ROOM, bsc_terminal_silence(&terminal, sent, BSC_MAX_SENT - 1, &number));
    EXPECT(BSC_NO_ROOM, bsc_control_hear(&control, octets, len, sent, BSC_MAX_SENT - 1, &number));
    EXPECT(BSC_NO_ROOM, bsc_control_silence(&control, sent, BSC_MAX_SENT - 1, &number));
    EXPECT(BSC_NO_ROOM, bsc_control_silence(&control, sent, 0, &number));
    EXPECT(BSC_OK, bsc_line_silence(&line));
    EXPECT(BSC_NO_ROOM, bsc_line_pending(&line, sent, BSC_MAX_SENT - 1, &number, &sender));
    HOLDS(number == 77 && sender == 77 && sent[0] == '-' && sent[BSC_MAX_SENT - 1] == '-');
    EXPECT(BSC_OK, bsc_line_pending(&line, sent, BSC_MAX_SENT, &number, &sender));
    HOLDS(number == len && sender == BSC_CONTROL && memcmp(sent, out, len) == 0);
    EXPECT(BSC_OK, bsc_control_silence(&control, sent, BSC_MAX_SENT, &number));
    HOLDS(number == len && memcmp(sent, out, len) == 0);
    EXPECT(BSC_OK, bsc_terminal_hear(&terminal, octets, BSC_MAX_HEARD, sent, BSC_MAX_SENT, &number));
    HOLDS(number == message(BSC_EOT, "", out) && memcmp(sent, out, number) == 0);
    EXPECT(BSC_OK, bsc_terminal_hear(&terminal, octets, BSC_MAX_HEARD + 1, sent, BSC_MAX_SENT, &number));
    HOLDS(number == 0);
    EXPECT(BSC_OK, bsc_terminal_hear(&terminal, octets, 0, sent, BSC_MAX_SENT, &number));
    HOLDS(number == 0);
    free(sent);
    free(octets);
    bsc_terminal_free(&terminal);
    bsc_control_free(&control);
    bsc_line_free(&line);
}
