/* What terminal.c and control.c share beside the library: addresses and records from words and lines, connections, and
 * socket records. A transmission crosses a stream as one socket record: its number of octets in two octets, the high
 * one first, and then the octets. */
#ifndef EXAMPLES_H
#define EXAMPLES_H

#define _POSIX_C_SOURCE 200809L

#include "bsc.h"

#include <errno.h>
#include <netdb.h>
#include <netinet/in.h>
#include <stdio.h>
#include <stdlib.h>
#include <string.h>
#include <sys/socket.h>
#include <sys/time.h>
#include <unistd.h>

/* The time-out of a terminal in seconds, that of `bscline station`. All stations of a line have the same. */
enum { TIME_OUT = 3 };

/* A line with more octets than this is no record, even if the last one is a carriage return. */
enum { MOST_OF_LINE = BSC_MAX_CHARS + 2 };

static inline void fail(const char *what)
{
    fprintf(stderr, "%s\n", what);
    exit(1);
}

/* Ends the program if the answer of a call is a fault. */
static inline void check(uint32_t error)
{
    char text[65] = {0};
    if (error != BSC_OK) {
        bsc_error_text(error, (uint8_t *)text, sizeof text - 1);
        fail(text);
    }
}

/* The address of these characters. One that is too long keeps a wrong length, which `new` refuses. */
static inline struct bsc_address address_of(const char *chars)
{
    struct bsc_address address = {{0}, 0};
    size_t len = strlen(chars);
    address.len = (uint8_t)(len > 255 ? 255 : len);
    memcpy(address.chars, chars, len < BSC_MAX_ADDRESS ? len : BSC_MAX_ADDRESS);
    return address;
}

/* Reads the next line of standard input, without its end. One that is longer than any record is refused when it is
 * offered. Gives 0 after the last line. */
static inline int read_line(uint8_t *line, size_t *len)
{
    int code = getchar();
    if (code == EOF)
        return 0;
    for (*len = 0; code != EOF && code != '\n'; code = getchar())
        if (*len < MOST_OF_LINE)
            line[(*len)++] = (uint8_t)code;
    *len -= *len > 0 && line[*len - 1] == '\r';
    return 1;
}

/* Prints a record as a line. It is flushed, since what was printed may be acknowledged next. */
static inline void print_record(const uint8_t *chars, size_t len)
{
    if (fwrite(chars, 1, len, stdout) != len || putchar('\n') == EOF || fflush(stdout) != 0)
        fail("cannot print");
}

/* Prints how far the sending end is. Gives the status of the program: 0 if all records are known to have arrived. */
static inline int print_counts(const struct bsc_sending *sending)
{
    fprintf(stderr, "offered %zu, known %zu%s\n", sending->offered, sending->known,
            sending->in_doubt ? ", in doubt" : "");
    return sending->known == sending->offered ? 0 : 1;
}

/* Has a receive from the peer end after so many seconds. */
static inline void set_time_out(int peer, unsigned seconds)
{
    struct timeval time = {0};
    time.tv_sec = seconds;
    if (setsockopt(peer, SOL_SOCKET, SO_RCVTIMEO, &time, sizeof time) != 0)
        fail("cannot set the time-out");
}

/* Connects to the peer that listens at this address. A receive from it ends after so many seconds. */
static inline int connect_to(const char *host, const char *port, unsigned time_out)
{
    struct addrinfo wanted = {0}, *found;
    wanted.ai_socktype = SOCK_STREAM;
    if (getaddrinfo(host, port, &wanted, &found) != 0)
        fail("cannot read the address");
    int peer = socket(found->ai_family, found->ai_socktype, found->ai_protocol);
    if (peer < 0 || connect(peer, found->ai_addr, found->ai_addrlen) != 0)
        fail("nobody is there");
    freeaddrinfo(found);
    set_time_out(peer, time_out);
    return peer;
}

/* Waits at this port for a peer to connect. A receive from it ends after so many seconds. */
static inline int listen_at(const char *port, unsigned time_out)
{
    struct sockaddr_in here = {0};
    int one = 1, peer, listener = socket(AF_INET, SOCK_STREAM, 0);
    here.sin_family = AF_INET;
    here.sin_port = htons((uint16_t)atoi(port));
    here.sin_addr.s_addr = htonl(INADDR_LOOPBACK);
    setsockopt(listener, SOL_SOCKET, SO_REUSEADDR, &one, sizeof one);
    if (listener < 0 || bind(listener, (struct sockaddr *)&here, sizeof here) != 0 || listen(listener, 1) != 0)
        fail("cannot listen at this port");
    peer = accept(listener, NULL, NULL);
    if (peer < 0)
        fail("nobody has connected");
    close(listener);
    set_time_out(peer, time_out);
    return peer;
}

/* Sends a transmission, unless it has no octet. What the peer does not take is lost, as on a line. */
static inline void send_record(int peer, const uint8_t *octets, size_t len)
{
    uint8_t record[2 + BSC_MAX_SENT];
    if (len == 0)
        return;
    record[0] = (uint8_t)(len >> 8);
    record[1] = (uint8_t)len;
    memcpy(record + 2, octets, len);
    if (send(peer, record, 2 + len, MSG_NOSIGNAL) < 0)
        fprintf(stderr, "a transmission was not sent\n");
}

/* Receives a transmission of up to BSC_MAX_HEARD octets. Gives their number; 0 after a time-out; -1 where the stream
 * ends, or has no socket record. */
static inline int receive_record(int peer, uint8_t *octets)
{
    uint8_t head[2];
    ssize_t got = recv(peer, head, sizeof head, MSG_WAITALL);
    int len;
    if (got < 0 && (errno == EAGAIN || errno == EWOULDBLOCK))
        return 0;
    if (got != 2)
        return -1;
    len = head[0] << 8 | head[1];
    if (len == 0 || len > BSC_MAX_HEARD || recv(peer, octets, (size_t)len, MSG_WAITALL) != len)
        return -1;
    return len;
}

#endif
