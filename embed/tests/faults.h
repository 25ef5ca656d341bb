/* What the tests of the faults share: they provoke each fault of bsc.h, of each call, and at the bound where a number
 * has one. After a fault nothing may have changed. Memory is refused at each request in turn, and at the end all of it
 * has to be free again. faults.c has main. */
#ifndef FAULTS_H
#define FAULTS_H

#include "bsc.h"

#include <stdio.h>
#include <stdlib.h>
#include <string.h>

/* Prints what does not hold, and counts it. */
void hold(const char *file, int line, int holds, const char *what);

/* Prints an answer that is not the wanted one, and notes which there were. */
void expect(const char *file, int line, uint32_t answer, uint32_t wanted);

#define HOLDS(condition) hold(__FILE__, __LINE__, (condition), #condition)
#define EXPECT(wanted, call) expect(__FILE__, __LINE__, (call), (wanted))

/* How many blocks of memory the library and the tests have, and how many requests were made since `refuse`. */
extern long live, requests;

/* Refuses the requests for memory from one up to another, counted from 1 from now on. */
void refuse(long from, long to);

/* Settings that are usual, a poll list of two terminals, a record, and what was sent last. */
extern const struct bsc_setup usual;
extern const uint8_t poll_list[2], one[1];
extern uint8_t out[BSC_MAX_SENT];
extern size_t out_len;

/* An address of at most seven characters. */
struct bsc_address address(const char *chars);

/* Terminal 0 is polled by A0 and selected by B0 and C0, terminal 1 is polled by D0 and selected by E0 and F0, and so
 * on. */
struct bsc_addresses terminal_at(size_t number);

struct bsc_terminal new_terminal(void);
struct bsc_control new_control(void);   /* of two terminals */
struct bsc_line new_line(void);         /* of two terminals */

/* The octets of a message without content, or of a call. */
size_t message(uint32_t kind, const char *called, uint8_t *octets);

/* The octets of a text of one record. */
size_t text_of(const char *chars, size_t len, uint8_t *octets);

/* The station hears such a message. What it sends is `out`, and sent_kind says what that is. */
uint32_t hear_at_terminal(struct bsc_terminal *terminal, uint32_t kind, const char *called);
uint32_t hear_at_control(struct bsc_control *control, uint32_t kind);
uint32_t sent_kind(void);

void test_texts(void);          /* faults.c */
void test_handles(void);
void test_numbers(void);
void test_settings(void);       /* making.c */
void test_addresses(void);
void test_terminals(void);
void test_records(void);        /* records.c */
void test_arrived(void);
void test_room(void);
void test_doubts(void);         /* events.c */
void test_flags(void);
void test_polling(void);
void test_events(void);
void test_side_by_side(void);
void test_making(void);         /* memory.c */
void test_offers(void);
void test_starved(void);

#endif
