/* A tributary is polled, and answers with a text of two records. */
#include "bsc.h"

#include <stdio.h>
#include <string.h>

static void print_octets(const char *name, const uint8_t *octets, size_t len)
{
    printf("%s:", name);
    for (size_t i = 0; i < len; i++)
        printf(" %02X", octets[i]);
    printf("\n");
}

static void put_unit(struct bsc_content *text, const char *record)
{
    struct bsc_unit *unit = &text->units[text->count++];
    unit->len = (uint8_t)strlen(record);
    memcpy(unit->chars, record, unit->len);
    unit->em = 1;
}

int main(void)
{
    struct bsc_content content = {0};
    uint8_t line[BSC_MAX_SENT];
    size_t len;

    /* The control station calls the tributary by its polling address. */
    memcpy(content.address, "AA", 2);
    content.address_len = 2;
    len = bsc_encode(BSC_CALL, &content, line, sizeof line);
    print_octets("call", line, len);

    /* The tributary hears the call. */
    struct bsc_content heard;
    if (bsc_decode(line, len, &heard) != BSC_CALL)
        return 1;
    printf("called: %.*s\n", (int)heard.address_len, (const char *)heard.address);

    /* It answers with the last block of what it has to send. */
    put_unit(&content, "HELLO");
    put_unit(&content, "WORLD");
    content.end = BSC_ETX;
    len = bsc_encode(BSC_TEXT, &content, line, sizeof line);
    print_octets("text", line, len);

    /* The control station hears the text. */
    if (bsc_decode(line, len, &heard) != BSC_TEXT)
        return 1;
    for (unsigned i = 0; i < heard.count; i++)
        printf("record: %.*s\n", (int)heard.units[i].len, (const char *)heard.units[i].chars);

    /* One bit is turned on the line: the text fails its checks. */
    line[4] ^= 0x01;
    printf("turned: %s\n", bsc_decode(line, len, &heard) == BSC_FAILED ? "failed" : "not failed");

    /* Eight units are no message. */
    content.count = 8;
    printf("eight units: %zu octets\n", bsc_encode(BSC_TEXT, &content, line, sizeof line));
    return 0;
}
