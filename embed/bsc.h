/* IBM Binary Synchronous Communications (GA27-3004) in USASCII with VRC and LRC: transmissions, terminals,
 * control stations, and whole lines. These are the functions of the static library bsc_embed, which is proved.
 * docs/PROTOCOL.md is the line procedure, and says which octets spell which message; docs/EMBED.md how the library is
 * built, and how a station is run.
 *
 * A station has no socket and no clock. The program tells it what was heard, or that nothing was heard for the
 * time of a time-out, and the station says what is to be sent:
 *
 *     struct bsc_terminal terminal = {0};
 *     bsc_terminal_new(&terminal, &setup, &addresses);
 *     bsc_terminal_hear(&terminal, octets, len, sent, sizeof sent, &sent_len);
 *     bsc_terminal_free(&terminal);
 *
 * What only the caller can keep:
 *
 * - No pointer is NULL, also where the length beside it is 0.
 * - At each pointer are as many elements as are said, and what a call writes overlaps nothing else that it
 *   is given. What is only written may be new and not yet set.
 * - A handle (struct bsc_terminal, bsc_control, bsc_line) begins as all zero, as by `= {0}`. Its fields belong to
 *   the library. It is not copied but to move it: of two copies only one is used from then on. Its storage does not
 *   end before it is freed, or the memory is lost.
 * - A handle is used by one thread only, the one that made it. The library has no state beside its handles, so each
 *   thread can have its own, and a program several side by side.
 * - No function is called from a signal handler, nor, but for bsc_decode, bsc_encode and bsc_error_text, in the
 *   forked child of a process with threads.
 * - The program's malloc, realloc and free are from one allocator, and align as C says.
 *
 * All else is an answer, and no crash: a handle that was never made or was freed, also twice; a handle of another
 * kind, by a cast; numbers out of their range; codes that are no record; too short a buffer; out of memory.
 *
 * Memory is that of malloc. On a machine of 64 bits a handle has 16 octets, and a terminal takes 2,640. A control
 * station takes as many and at most 1,000 for each of its terminals; a line takes 420 more for each, and as if for
 * four if they are fewer. Records come on top: each takes its characters and 8 octets, in two blocks for each list of
 * them. A list has room for some records more: for as many as it has while it is small, later for a sixteenth of
 * them. Records are kept until the handle is freed. bsc_decode, bsc_encode and bsc_error_text take no memory and keep
 * nothing. */
#ifndef BSC_H
#define BSC_H

#include <stddef.h>
#include <stdint.h>

/* By this, GCC and clang warn of a NULL that they see passed. */
#if defined(__GNUC__)
#define BSC_NO_NULL __attribute__((nonnull))
#else
#define BSC_NO_NULL
#endif

#ifdef __cplusplus
extern "C" {
#endif

/* ---- Limits and numbers ------------------------------------------------------------------------------------ */

enum {
    BSC_MAX_HEARD = 2048,   /* the most octets that are heard as one transmission */
    BSC_MAX_SENT = 1033,    /* the most octets that are sent for one message */
    BSC_MAX_UNITS = 7,      /* the most units of a text */
    BSC_MAX_CHARS = 144,    /* the most characters of a unit, and of a record */
    BSC_MAX_ADDRESS = 7,    /* the most characters of an address */
    BSC_MAX_SELECTS = 4,    /* the most selection addresses of a terminal */
    BSC_MAX_TERMINALS = 64, /* the most terminals of a line */
    BSC_MAX_ENTRIES = 255,  /* the most entries of a poll list */
    BSC_CONTROL = 255       /* who sent what is pending on a line, if it was the control station */
};

/* In place of a length: nothing arrived. */
#define BSC_LOST ((size_t)-1)

/* What a call of a station or a line answers. Where it is not BSC_OK, nothing was changed: neither the station,
 * nor what the caller lent. */
enum bsc_error {
    BSC_OK = 0,
    BSC_NOT_MADE = 1,               /* the handle has no station and no line: none was made, or it was freed */
    BSC_OTHER_KIND = 2,             /* the handle has a station or a line of another kind */
    BSC_ALREADY_MADE = 3,           /* the handle already has a station or a line */
    BSC_OUT_OF_MEMORY = 4,          /* malloc or realloc gave NULL */
    BSC_NO_ROOM = 5,                /* the buffer is too short */
    BSC_WRONG_FULL = 6,             /* the full length of a record is not 1 to 144 */
    BSC_WRONG_BLOCK_CHARS = 7,      /* the number of characters that a block may count is not 146 to 400 */
    BSC_WRONG_TRIES = 8,            /* the limit of failures is not 1 to 15 */
    BSC_WRONG_WAITS = 9,            /* the limit of WACKs is not 1 to 255 */
    BSC_WRONG_ADDRESS = 10,         /* an address does not have 1 to 7 characters from 0x21 to 0x7e */
    BSC_WRONG_SELECTS = 11,         /* a terminal does not have 1 to 4 selection addresses */
    BSC_SAME_ADDRESS = 12,          /* two addresses are the same */
    BSC_NO_TERMINAL = 13,           /* there is no terminal */
    BSC_TOO_MANY_TERMINALS = 14,    /* there are more than 64 terminals */
    BSC_EMPTY_POLL_LIST = 15,       /* the poll list has no entry */
    BSC_WRONG_POLL_LIST = 16,       /* it has more than 255, or one that is not the number of a terminal */
    BSC_NO_SUCH_TERMINAL = 17,      /* no terminal has this number */
    BSC_NO_SUCH_ADDRESS = 18,       /* the terminal has no selection address of this number */
    BSC_NO_SUCH_RECORD = 19,        /* no record with this number arrived */
    BSC_RECORD_TOO_LONG = 20,       /* the record has more characters than the full length */
    BSC_WRONG_CHARACTER = 21,       /* a code is not one of a record */
    BSC_NOT_IN_DOUBT = 22,          /* there is no doubt to end */
    BSC_COUNT_MISMATCH = 23,        /* the count is not that of the known records, nor that with the doubtful block */
    BSC_NOTHING_SENT = 24,          /* nothing is pending that could be heard */
    BSC_NOT_CONTROL = 25,           /* each terminal was given what it hears, and a terminal is sending */
    BSC_WRONG_COUNT = 26,           /* what is heard is not one item for each terminal */
    BSC_PENDING = 27,               /* a silence was to pass, and a transmission is pending */
    BSC_NOT_NEW = 28,               /* only a new sender recalls */
    BSC_WRONG_KNOWN = 29,           /* more records are known than were offered */
    BSC_WRONG_DOUBT = 30            /* the doubtful block does not have 1 to 7 records, or more than wait */
};

/* Puts what an enum bsc_error means, in English and without a 0 at its end, at the front of a buffer of room
 * octets, and gives how many they are; 64 are always enough. Gives 0, and leaves the buffer as it was, for a
 * number that is no error and for BSC_OK, and where the text does not fit. */
size_t bsc_error_text(uint32_t error, uint8_t *text, size_t room) BSC_NO_NULL;

/* ---- Transmissions ----------------------------------------------------------------------------------------- */

/* What is heard, and from BSC_EOT on what is sent too. */
enum bsc_kind {
    BSC_NOISE = 0,          /* the octets spell no message */
    BSC_FAILED = 1,         /* they begin as a text, and spell no message */
    BSC_EOT = 2,
    BSC_CALL = 3,           /* a poll or a selection: EOT, the address, ENQ */
    BSC_ENQ = 4,
    BSC_ACK0 = 5,
    BSC_ACK1 = 6,
    BSC_NAK = 7,
    BSC_WACK = 8,
    BSC_RVI = 9,
    BSC_TEXT = 10
};

/* What ends a text, by its code. */
enum bsc_end {
    BSC_ETX = 0x03,         /* the last block */
    BSC_ETB = 0x17          /* more blocks follow */
};

/* A unit of a text: its characters, and whether EM follows them. */
struct bsc_unit {
    uint8_t chars[BSC_MAX_CHARS];       /* the codes, of which the first len count */
    uint8_t len;                        /* 0 to 144 */
    uint8_t em;                         /* not 0 where EM follows the characters */
};

/* What a call or a text holds. Messages of the other kinds hold nothing. */
struct bsc_content {
    struct bsc_unit units[BSC_MAX_UNITS];       /* of a text: the first count of them */
    uint8_t count;                              /* of a text: 1 to 7 */
    uint8_t end;                                /* of a text: enum bsc_end */
    uint8_t address[BSC_MAX_ADDRESS];           /* of a call: the codes, of which the first address_len count */
    uint8_t address_len;                        /* of a call: 1 to 7 */
};

/* What the octets are heard as: an enum bsc_kind. For BSC_CALL the address and address_len are filled in, for
 * BSC_TEXT the first count units, count and end. All else of the content is left as it was: for BSC_CALL the
 * units, count, end and the codes after the first address_len; for BSC_TEXT the address, address_len, the units
 * after the first count, and in each unit the codes after the first len; for each other kind all of it. */
uint32_t bsc_decode(const uint8_t *octets, size_t len, struct bsc_content *content) BSC_NO_NULL;

/* Puts the octets that are sent for a message of this enum bsc_kind with this content at the front of a
 * buffer of room octets, and gives how many they are; BSC_MAX_SENT octets are always enough room. Gives 0,
 * and leaves the buffer as it was, where the octets do not fit or these are no message: a kind that is none
 * or cannot be sent, a count, a length or an end out of its range, a character that may not stand in a record
 * (the eleven control characters of the line, and 0x80 and above), or in an address (0x21 to 0x7e may). */
size_t bsc_encode(uint32_t kind, const struct bsc_content *content, uint8_t *octets, size_t room) BSC_NO_NULL;

/* ---- Settings, addresses and counts ------------------------------------------------------------------------ */

/* The settings of a station or a line. */
struct bsc_setup {
    uint8_t full;           /* the full length of a record, 1 to 144; 80 is usual */
    uint16_t block_chars;   /* the most characters that a block may count, 146 to 400; 400 is usual */
    uint8_t tries;          /* the limit of failures in a row, 1 to 15; 3 is usual */
    uint8_t waits;          /* the limit of WACKs since the last acknowledgement, 1 to 255; 10 is usual */
};

/* An address. */
struct bsc_address {
    uint8_t chars[BSC_MAX_ADDRESS];     /* the codes, each from 0x21 to 0x7e, of which the first len count */
    uint8_t len;                        /* 1 to 7 */
};

/* The addresses of a terminal. All addresses of a line differ. */
struct bsc_addresses {
    struct bsc_address poll;                        /* polls the terminal */
    struct bsc_address selects[BSC_MAX_SELECTS];    /* select it: the first count of them */
    uint8_t count;                                  /* 1 to 4 */
};

/* How far the sending end of a channel is. */
struct bsc_sending {
    size_t offered;         /* the number of records that were offered */
    size_t known;           /* how many of these are known to have arrived: the first of them */
    uint32_t in_doubt;      /* 1 if it is not known whether the block after these arrived, else 0 */
};

/* What is kept of the sending end of a channel, beside the records that were offered, for the case that the
 * process ends. */
struct bsc_kept {
    size_t known;           /* how many of the offered records are known to have arrived */
    size_t doubt;           /* the number of records of the doubtful block, 1 to 7; 0 if there is no doubt */
};

/* ---- A terminal -------------------------------------------------------------------------------------------- */

/* A terminal: a station that is polled and selected. All calls but bsc_terminal_new answer BSC_NOT_MADE for a
 * handle that has nothing and BSC_OTHER_KIND for one that has something else, before all that is said of them.
 * Selection addresses, and the records that arrived for each, are counted from 0. */
struct bsc_terminal {
    uint32_t kind;
    void *station;
};

/* Makes a terminal with these settings and addresses: in control mode, ready, not urgent, without records. Answers,
 * the first that holds of: BSC_ALREADY_MADE, also if the handle has something of another kind; BSC_WRONG_FULL,
 * BSC_WRONG_BLOCK_CHARS, BSC_WRONG_TRIES, BSC_WRONG_WAITS; BSC_WRONG_SELECTS; BSC_WRONG_ADDRESS; BSC_SAME_ADDRESS;
 * BSC_OUT_OF_MEMORY. */
uint32_t bsc_terminal_new(struct bsc_terminal *terminal, const struct bsc_setup *setup,
                          const struct bsc_addresses *addresses) BSC_NO_NULL;

/* The terminal hears these octets as one transmission; octets that spell no message, also none, are noise. Puts what
 * it sends at the front of a buffer of room octets, and its length into *sent_len: 0 if it stays quiet. Records that
 * arrived by this are there before the octets that acknowledge them are sent, so that they can be stored first.
 * Answers BSC_NO_ROOM, and hears nothing, if room is less than BSC_MAX_SENT. That there is no memory for records that
 * arrive is no fault: the terminal replies NAK or WACK, and nothing is lost. */
uint32_t bsc_terminal_hear(struct bsc_terminal *terminal, const uint8_t *octets, size_t len, uint8_t *sent,
                           size_t room, size_t *sent_len) BSC_NO_NULL;

/* Nothing was heard for the time of a time-out. What the terminal sends, and the answers, are as of hear; it stays
 * quiet unless it is sending records. */
uint32_t bsc_terminal_silence(struct bsc_terminal *terminal, uint8_t *sent, size_t room,
                              size_t *sent_len) BSC_NO_NULL;

/* Offers the record of these codes, which is sent when the terminal is polled. Answers, the first that holds of:
 * BSC_RECORD_TOO_LONG, BSC_WRONG_CHARACTER (an octet of 0x80 or more, or one of the eleven control characters of the
 * line), BSC_OUT_OF_MEMORY. */
uint32_t bsc_terminal_offer(struct bsc_terminal *terminal, const uint8_t *chars, size_t len) BSC_NO_NULL;

/* Tells how far the terminal is with the records that were offered. */
uint32_t bsc_terminal_sending(struct bsc_terminal *terminal, struct bsc_sending *sending) BSC_NO_NULL;

/* Tells how many records arrived for a selection address. Answers BSC_NO_SUCH_ADDRESS if there is none of this
 * number. */
uint32_t bsc_terminal_arrivals(struct bsc_terminal *terminal, size_t select, size_t *count) BSC_NO_NULL;

/* Puts the codes of a record that arrived at the front of a buffer of room octets, and their number into *len;
 * BSC_MAX_CHARS octets are always enough. Answers, the first that holds of: BSC_NO_SUCH_ADDRESS; BSC_NO_SUCH_RECORD
 * if index is not less than the number of records that arrived; BSC_NO_ROOM if the record is longer than room. */
uint32_t bsc_terminal_arrived(struct bsc_terminal *terminal, size_t select, size_t index, uint8_t *chars,
                              size_t room, size_t *len) BSC_NO_NULL;

/* Ends a doubt: the control station has count records of this terminal. Answers BSC_NOT_IN_DOUBT, or
 * BSC_COUNT_MISMATCH if count is neither the number of the known records nor that with the doubtful block. */
uint32_t bsc_terminal_release(struct bsc_terminal *terminal, size_t count) BSC_NO_NULL;

/* Sets whether the terminal accepts selections: it does not if ready is 0, and then answers them by NAK. */
uint32_t bsc_terminal_ready(struct bsc_terminal *terminal, uint32_t ready) BSC_NO_NULL;

/* Asks for the line: the terminal replies RVI to the next text that it takes. A poll ends the request. */
uint32_t bsc_terminal_urgent(struct bsc_terminal *terminal) BSC_NO_NULL;

/* The terminal begins again, as after the end of its process, with its records and its doubt. A block that is not
 * answered is in doubt. */
uint32_t bsc_terminal_restart(struct bsc_terminal *terminal) BSC_NO_NULL;

/* Tells what is to be kept of the terminal now, beside the records that were offered and those that arrived. A new
 * terminal to which the former are offered again, the latter are given by keep_arrived, and then this is recalled,
 * is the restarted one. */
uint32_t bsc_terminal_kept(struct bsc_terminal *terminal, struct bsc_kept *kept) BSC_NO_NULL;

/* Adds a record that had arrived for a selection address before. Answers, the first that holds of:
 * BSC_NO_SUCH_ADDRESS, BSC_RECORD_TOO_LONG (of more than BSC_MAX_CHARS characters), BSC_WRONG_CHARACTER,
 * BSC_OUT_OF_MEMORY. */
uint32_t bsc_terminal_keep_arrived(struct bsc_terminal *terminal, size_t select, const uint8_t *chars,
                                   size_t len) BSC_NO_NULL;

/* Recalls what was kept. Answers, the first that holds of: BSC_NOT_NEW if the terminal is sending, in doubt, or knows
 * of a record that arrived; BSC_WRONG_KNOWN if more records are known than were offered; BSC_WRONG_DOUBT if the
 * doubtful block has more than 7 records, or more than are offered and not known. */
uint32_t bsc_terminal_recall(struct bsc_terminal *terminal, const struct bsc_kept *kept) BSC_NO_NULL;

/* Frees the terminal. The handle is all zero again: another free of it answers BSC_NOT_MADE. */
uint32_t bsc_terminal_free(struct bsc_terminal *terminal) BSC_NO_NULL;

/* ---- A control station ------------------------------------------------------------------------------------- */

/* A control station, which polls and selects the terminals of a line. All calls but bsc_control_new answer
 * BSC_NOT_MADE and BSC_OTHER_KIND as those of a terminal do, and those with the number of a terminal, counted from 0,
 * BSC_NO_SUCH_TERMINAL if there is none of this number; then BSC_NO_SUCH_ADDRESS, if they have the number of a
 * selection address of it and there is none. What else they answer is said of each. */
struct bsc_control {
    uint32_t kind;
    void *station;
};

/* Makes a control station for count terminals with these addresses, which polls them in the order of the entries
 * of the poll list: the number of a terminal each. The first silence has it make its first call. Answers, the first
 * that holds of: BSC_ALREADY_MADE, the faults of the settings as of bsc_terminal_new; BSC_WRONG_SELECTS or
 * BSC_WRONG_ADDRESS of the first terminal that has one; BSC_NO_TERMINAL, BSC_TOO_MANY_TERMINALS, BSC_SAME_ADDRESS,
 * BSC_EMPTY_POLL_LIST, BSC_WRONG_POLL_LIST. BSC_OUT_OF_MEMORY may come in place of those after the settings. */
uint32_t bsc_control_new(struct bsc_control *control, const struct bsc_setup *setup,
                         const struct bsc_addresses *terminals, size_t count, const uint8_t *poll_list,
                         size_t entries) BSC_NO_NULL;

/* The control station hears these octets as one transmission; as bsc_terminal_hear. */
uint32_t bsc_control_hear(struct bsc_control *control, const uint8_t *octets, size_t len, uint8_t *sent, size_t room,
                          size_t *sent_len) BSC_NO_NULL;

/* Nothing was heard for the time of a time-out of the control station, which is tries + 2 times that of a terminal:
 * so no terminal still sends when it acts. As bsc_terminal_silence. */
uint32_t bsc_control_silence(struct bsc_control *control, uint8_t *sent, size_t room, size_t *sent_len) BSC_NO_NULL;

/* Offers a record for a selection address of a terminal. Answers as bsc_terminal_offer. */
uint32_t bsc_control_offer(struct bsc_control *control, size_t terminal, size_t select, const uint8_t *chars,
                           size_t len) BSC_NO_NULL;

/* Tells how far the control station is with the records for a selection address of a terminal. */
uint32_t bsc_control_sending(struct bsc_control *control, size_t terminal, size_t select,
                             struct bsc_sending *sending) BSC_NO_NULL;

/* Tells how many records arrived from a terminal. */
uint32_t bsc_control_arrivals(struct bsc_control *control, size_t terminal, size_t *count) BSC_NO_NULL;

/* Puts the codes of a record that arrived from a terminal into a buffer, as bsc_terminal_arrived: answers
 * BSC_NO_SUCH_RECORD or BSC_NO_ROOM. */
uint32_t bsc_control_arrived(struct bsc_control *control, size_t terminal, size_t index, uint8_t *chars, size_t room,
                             size_t *len) BSC_NO_NULL;

/* Ends a doubt: the terminal has count records for this selection address. Answers as bsc_terminal_release. */
uint32_t bsc_control_release(struct bsc_control *control, size_t terminal, size_t select, size_t count) BSC_NO_NULL;

/* Asks a terminal for the line: the control station replies RVI to the next text that it takes from it. */
uint32_t bsc_control_urgent(struct bsc_control *control, size_t terminal) BSC_NO_NULL;

/* Sets whether a terminal is polled: it is not if polled is 0. Its entries of the poll list are then passed over, and
 * nothing is sent to it. It keeps its records and its doubts, and a call of it that has begun goes on to its end. If no
 * terminal of the poll list is polled, the control station stays quiet, and looks again at each silence. A new one
 * polls every terminal. */
uint32_t bsc_control_set_polled(struct bsc_control *control, size_t terminal, uint32_t polled) BSC_NO_NULL;

/* The control station begins again, as after the end of its process, with its records and its doubts. A block that
 * is not answered is in doubt, and every terminal is polled again. */
uint32_t bsc_control_restart(struct bsc_control *control) BSC_NO_NULL;

/* Tells what is to be kept of what is sent to a selection address of a terminal; as bsc_terminal_kept. */
uint32_t bsc_control_kept(struct bsc_control *control, size_t terminal, size_t select,
                          struct bsc_kept *kept) BSC_NO_NULL;

/* Adds a record that had arrived from a terminal before. Answers as bsc_terminal_keep_arrived. */
uint32_t bsc_control_keep_arrived(struct bsc_control *control, size_t terminal, const uint8_t *chars,
                                  size_t len) BSC_NO_NULL;

/* Recalls what was kept of what is sent to a selection address of a terminal. Answers as bsc_terminal_recall, and
 * BSC_NOT_NEW also if the control station is not at rest, as it is before its first call since it was made or began
 * again. */
uint32_t bsc_control_recall(struct bsc_control *control, size_t terminal, size_t select,
                            const struct bsc_kept *kept) BSC_NO_NULL;

/* Frees the control station. The handle is all zero again: another free of it answers BSC_NOT_MADE. */
uint32_t bsc_control_free(struct bsc_control *control) BSC_NO_NULL;

/* ---- A whole line ------------------------------------------------------------------------------------------ */

/* A control station, its terminals, and the transmission that is pending between them: it was sent, and nobody has
 * heard it yet. What happens on the line is the program's to say, event by event: for test benches. All calls but
 * bsc_line_new answer BSC_NOT_MADE, BSC_OTHER_KIND, BSC_NO_SUCH_TERMINAL and BSC_NO_SUCH_ADDRESS as those of a
 * control station do, before what is said of each. In names, "at" and "from" mean the end of a terminal and the
 * records from it, "for" and "to" the end of the control station and the records to a selection address of a
 * terminal. */
struct bsc_line {
    uint32_t kind;
    void *station;
};

/* Makes a line of new stations on which nothing is pending. Answers as bsc_control_new. */
uint32_t bsc_line_new(struct bsc_line *line, const struct bsc_setup *setup, const struct bsc_addresses *terminals,
                      size_t count, const uint8_t *poll_list, size_t entries) BSC_NO_NULL;

/* Offers a record at a terminal. Answers as bsc_terminal_offer. */
uint32_t bsc_line_offer_at(struct bsc_line *line, size_t terminal, const uint8_t *chars, size_t len) BSC_NO_NULL;

/* Offers a record at the control station, for a selection address of a terminal. Answers as bsc_terminal_offer. */
uint32_t bsc_line_offer_for(struct bsc_line *line, size_t terminal, size_t select, const uint8_t *chars,
                            size_t len) BSC_NO_NULL;

/* What is pending is heard as these octets, by all stations that hear it: all terminals, or the control station.
 * What they answer is pending next. Octets that spell no message, also none, are noise. Answers BSC_NOTHING_SENT if
 * nothing is pending. */
uint32_t bsc_line_carry(struct bsc_line *line, const uint8_t *octets, size_t len) BSC_NO_NULL;

/* What is pending is lost: nobody hears it. Answers BSC_NOTHING_SENT. */
uint32_t bsc_line_lose(struct bsc_line *line) BSC_NO_NULL;

/* What is pending is heard as it was sent. Answers BSC_NOTHING_SENT. */
uint32_t bsc_line_carry_sent(struct bsc_line *line) BSC_NO_NULL;

/* Each terminal hears its own octets of what the control station sent. They stand in octets one after the other;
 * lengths has count items, the number of octets for each terminal or BSC_LOST if nothing arrives there, which takes
 * no octets. Answers, the first that holds of: BSC_WRONG_COUNT if the lengths do not add up to len, or count is more
 * than BSC_MAX_TERMINALS; BSC_NOTHING_SENT; BSC_NOT_CONTROL if a terminal is sending; BSC_WRONG_COUNT if count is not
 * the number of terminals. */
uint32_t bsc_line_carry_each(struct bsc_line *line, const uint8_t *octets, size_t len, const size_t *lengths,
                             size_t count) BSC_NO_NULL;

/* Nothing is heard for the time of a time-out: the terminal that is sending acts, or else the control station.
 * Answers BSC_PENDING while a transmission is pending. */
uint32_t bsc_line_silence(struct bsc_line *line) BSC_NO_NULL;

/* Sets whether a terminal accepts selections: it does not if ready is 0. */
uint32_t bsc_line_ready(struct bsc_line *line, size_t terminal, uint32_t ready) BSC_NO_NULL;

/* Sets whether the control station polls a terminal; as bsc_control_set_polled. */
uint32_t bsc_line_set_polled(struct bsc_line *line, size_t terminal, uint32_t polled) BSC_NO_NULL;

/* A terminal asks the control station for the line, by RVI to the next text that it takes. */
uint32_t bsc_line_urgent_at(struct bsc_line *line, size_t terminal) BSC_NO_NULL;

/* The control station asks a terminal for the line, by RVI to the next text that it takes from it. */
uint32_t bsc_line_urgent_for(struct bsc_line *line, size_t terminal) BSC_NO_NULL;

/* Ends a terminal's doubt by the number of records that arrived at the control station. Answers BSC_NOT_IN_DOUBT, or
 * BSC_COUNT_MISMATCH, which does not occur on a line that is trusted. */
uint32_t bsc_line_release_from(struct bsc_line *line, size_t terminal) BSC_NO_NULL;

/* Ends the control station's doubt about a selection address of a terminal by the number of records that arrived
 * there. Answers as release_from. */
uint32_t bsc_line_release_to(struct bsc_line *line, size_t terminal, size_t select) BSC_NO_NULL;

/* The control station begins again with its records and its doubts. What it sent and nobody has heard is lost. */
uint32_t bsc_line_restart_control(struct bsc_line *line) BSC_NO_NULL;

/* A terminal begins again, as restart_control. */
uint32_t bsc_line_restart_terminal(struct bsc_line *line, size_t terminal) BSC_NO_NULL;

/* Tells whether all transmissions so far were heard fairly: 1 or 0. On a trusted line the records that arrived are
 * the first of those that were offered, in order and each once. */
uint32_t bsc_line_trusted(struct bsc_line *line, uint32_t *trusted) BSC_NO_NULL;

/* Puts the octets of what is pending at the front of a buffer of room octets, their number into *len, and into
 * *sender the number of the terminal that sent it, or BSC_CONTROL. Answers BSC_NOTHING_SENT if nothing is pending,
 * else BSC_NO_ROOM if room is less than BSC_MAX_SENT. */
uint32_t bsc_line_pending(struct bsc_line *line, uint8_t *octets, size_t room, size_t *len,
                          size_t *sender) BSC_NO_NULL;

/* Tells how far a terminal is with its records. */
uint32_t bsc_line_sending_from(struct bsc_line *line, size_t terminal, struct bsc_sending *sending) BSC_NO_NULL;

/* Tells how far the control station is with the records for a selection address of a terminal. */
uint32_t bsc_line_sending_to(struct bsc_line *line, size_t terminal, size_t select,
                             struct bsc_sending *sending) BSC_NO_NULL;

/* Tells how many records arrived at the control station from a terminal. */
uint32_t bsc_line_arrivals_from(struct bsc_line *line, size_t terminal, size_t *count) BSC_NO_NULL;

/* Tells how many records arrived at a terminal for one of its selection addresses. */
uint32_t bsc_line_arrivals_to(struct bsc_line *line, size_t terminal, size_t select, size_t *count) BSC_NO_NULL;

/* Puts the codes of a record that arrived from a terminal into a buffer, as bsc_terminal_arrived: answers
 * BSC_NO_SUCH_RECORD or BSC_NO_ROOM. */
uint32_t bsc_line_arrived_from(struct bsc_line *line, size_t terminal, size_t index, uint8_t *chars, size_t room,
                               size_t *len) BSC_NO_NULL;

/* The same of a record that arrived at a terminal for one of its selection addresses. */
uint32_t bsc_line_arrived_to(struct bsc_line *line, size_t terminal, size_t select, size_t index, uint8_t *chars,
                             size_t room, size_t *len) BSC_NO_NULL;

/* Frees the line with all its stations. The handle is all zero again: another free of it answers BSC_NOT_MADE. */
uint32_t bsc_line_free(struct bsc_line *line) BSC_NO_NULL;

#ifdef __cplusplus
}
#endif

#endif
