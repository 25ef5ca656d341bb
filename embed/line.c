/* A whole line in one process: plays the events of a script on the line of a configuration, and prints what
 * `bscline run CONFIG SCRIPT` prints.
 *
 *     line CONFIG SCRIPT
 *
 * Both are read as far as those of examples/ need it: not each TOML document is understood, and a line of a script
 * that is no event ends the program. docs/BSCLINE.md has the forms. */
#include "examples.h"

/* ---- The configuration --------------------------------------------------------------------------------------- */

struct config {
    struct bsc_setup setup;
    struct bsc_addresses terminals[BSC_MAX_TERMINALS];
    size_t count;
    uint8_t poll_list[BSC_MAX_ENTRIES];
    size_t entries;
};

/* A number that does not fit is as wrong as 0. */
static uint8_t octet_of(unsigned number)
{
    return (uint8_t)(number > UINT8_MAX ? 0 : number);
}

/* Reads the numbers of a list into the poll list. */
static void read_poll_list(struct config *config, const char *text)
{
    for (text = strpbrk(text, "0123456789"); text != NULL; text = strpbrk(text, "0123456789")) {
        char *end;
        unsigned long entry = strtoul(text, &end, 10);
        if (config->entries == BSC_MAX_ENTRIES || entry >= BSC_MAX_TERMINALS)
            fail("config: wrong poll list");
        config->poll_list[config->entries++] = (uint8_t)entry;
        text = end;
    }
}

/* Reads the strings of a text as the selection addresses of the last terminal, or one as its polling address. */
static void read_addresses(struct config *config, char *text, int poll)
{
    struct bsc_addresses *terminal = &config->terminals[config->count - 1];
    for (char *begin = strchr(text, '"'); begin != NULL; begin = strchr(text, '"')) {
        char *end = strchr(begin + 1, '"');
        if (end == NULL || (!poll && terminal->count == BSC_MAX_SELECTS))
            fail("config: wrong addresses");
        *end = 0;
        if (poll)
            terminal->poll = address_of(begin + 1);
        else
            terminal->selects[terminal->count++] = address_of(begin + 1);
        text = end + 1;
    }
}

static void read_key(struct config *config, char *text)
{
    char key[16];
    unsigned number = 0;
    char *value = strchr(text, '=');
    if (strncmp(text, "[[terminals]]", 13) == 0) {
        if (config->count++ == BSC_MAX_TERMINALS)
            fail("config: too many terminals");
        return;
    }
    if (value == NULL || sscanf(text, " %15[a-z_]", key) != 1)
        return;
    sscanf(value, "=%u", &number);
    if (strcmp(key, "full") == 0)
        config->setup.full = octet_of(number);
    else if (strcmp(key, "block_chars") == 0)
        config->setup.block_chars = (uint16_t)(number > UINT16_MAX ? 0 : number);
    else if (strcmp(key, "tries") == 0)
        config->setup.tries = octet_of(number);
    else if (strcmp(key, "waits") == 0)
        config->setup.waits = octet_of(number);
    else if (strcmp(key, "poll_list") == 0)
        read_poll_list(config, value);
    else if (config->count > 0)
        read_addresses(config, value, strcmp(key, "poll") == 0);
}

static void read_config(struct config *config, const char *path)
{
    FILE *file = fopen(path, "r");
    char *text = NULL;
    size_t room = 0;
    if (file == NULL)
        fail("cannot read the configuration");
    while (getline(&text, &room, file) >= 0)
        if (text[0] != '#')
            read_key(config, text);
    free(text);
    fclose(file);
}

/* ---- What is printed ----------------------------------------------------------------------------------------- */

static void print_name(const uint8_t *octets, size_t len)
{
    static const char *const names[] = {
        [BSC_NOISE] = "NOISE", [BSC_FAILED] = "FAILED", [BSC_EOT] = "EOT", [BSC_CALL] = "CALL", [BSC_ENQ] = "ENQ",
        [BSC_ACK0] = "ACK0", [BSC_ACK1] = "ACK1", [BSC_NAK] = "NAK", [BSC_WACK] = "WACK", [BSC_RVI] = "RVI",
        [BSC_TEXT] = "TEXT"};
    struct bsc_content content;
    uint32_t kind = bsc_decode(octets, len, &content);
    printf("%s", names[kind]);
    if (kind == BSC_CALL)
        printf(" %.*s", (int)content.address_len, (const char *)content.address);
    if (kind == BSC_TEXT)
        printf(" %s %u", content.end == BSC_ETB ? "ETB" : "ETX", (unsigned)content.count);
    printf("\n");
}

/* Prints who sent what is pending, and its name. */
static void print_pending(struct bsc_line *line)
{
    uint8_t octets[BSC_MAX_SENT];
    size_t len, sender;
    uint32_t error = bsc_line_pending(line, octets, sizeof octets, &len, &sender);
    if (error == BSC_NOTHING_SENT) {
        printf("quiet\n");
        return;
    }
    check(error);
    if (sender == BSC_CONTROL)
        printf("control ");
    else
        printf("terminal %zu ", sender);
    print_name(octets, len);
}

static void print_codes(const uint8_t *chars, size_t len)
{
    printf("  %s", len == 0 ? "-" : "");
    for (size_t i = 0; i < len; i++)
        printf("%02x", chars[i]);
    printf("\n");
}

static void print_channel(const struct bsc_sending *sending, size_t spooled)
{
    printf("offered %zu, known %zu, spooled %zu%s\n", sending->offered, sending->known, spooled,
           sending->in_doubt ? ", in doubt" : "");
}

/* Prints the channel from a terminal, and the records that arrived on it. */
static void print_from(struct bsc_line *line, size_t terminal)
{
    struct bsc_sending sending;
    uint8_t chars[BSC_MAX_CHARS];
    size_t spooled, len;
    check(bsc_line_sending_from(line, terminal, &sending));
    check(bsc_line_arrivals_from(line, terminal, &spooled));
    printf("from %zu: ", terminal);
    print_channel(&sending, spooled);
    for (size_t index = 0; index < spooled; index++) {
        check(bsc_line_arrived_from(line, terminal, index, chars, sizeof chars, &len));
        print_codes(chars, len);
    }
}

/* Prints the channel to a selection address of a terminal, and the records that arrived on it. */
static void print_to(struct bsc_line *line, size_t terminal, size_t select, size_t selects)
{
    struct bsc_sending sending;
    uint8_t chars[BSC_MAX_CHARS];
    size_t spooled, len;
    check(bsc_line_sending_to(line, terminal, select, &sending));
    check(bsc_line_arrivals_to(line, terminal, select, &spooled));
    if (selects == 1)
        printf("to %zu: ", terminal);
    else
        printf("to %zu.%zu: ", terminal, select);
    print_channel(&sending, spooled);
    for (size_t index = 0; index < spooled; index++) {
        check(bsc_line_arrived_to(line, terminal, select, index, chars, sizeof chars, &len));
        print_codes(chars, len);
    }
}

static void print_report(struct bsc_line *line, const struct config *config)
{
    uint32_t trusted;
    for (size_t terminal = 0; terminal < config->count; terminal++) {
        size_t selects = config->terminals[terminal].count;
        print_from(line, terminal);
        for (size_t select = 0; select < selects; select++)
            print_to(line, terminal, select, selects);
    }
    check(bsc_line_trusted(line, &trusted));
    printf("%s\n", trusted ? "trusted" : "not trusted");
}

/* ---- The script ---------------------------------------------------------------------------------------------- */

/* Takes this word and the space after it from the front of a text, if it is there. */
static int take_word(const char **text, const char *word)
{
    size_t len = strlen(word);
    if (strncmp(*text, word, len) != 0 || ((*text)[len] != ' ' && (*text)[len] != 0))
        return 0;
    *text += len + ((*text)[len] == ' ');
    return 1;
}

/* Takes a number and the space after it from the front of a text. */
static size_t take_number(const char **text)
{
    char *end;
    size_t number = strtoul(*text, &end, 10);
    if (end == *text)
        fail("not an event");
    *text = end + (*end == ' ');
    return number;
}

/* Takes octets, up to BSC_MAX_HEARD of them in hexadecimal digits, and the space after them, from the front of a
 * text. */
static size_t take_octets(const char **text, uint8_t *octets)
{
    size_t len = 0, digits = strspn(*text, "0123456789ABCDEFabcdef");
    if (digits % 2 != 0 || digits > 2 * BSC_MAX_HEARD || ((*text)[digits] != ' ' && (*text)[digits] != 0))
        fail("not an event");
    for (; 2 * len < digits; len++) {
        char octet[3] = {(*text)[2 * len], (*text)[2 * len + 1], 0};
        octets[len] = (uint8_t)strtoul(octet, NULL, 16);
    }
    *text += digits + ((*text)[digits] == ' ');
    return len;
}

/* All that hear what is pending hear the octets of a text, between which spaces may stand. */
static uint32_t play_heard(struct bsc_line *line, const char *text)
{
    uint8_t octets[2 * BSC_MAX_HEARD];
    size_t len = 0;
    while (*text != 0 && len < BSC_MAX_HEARD)
        len += take_octets(&text, octets + len);
    return bsc_line_carry(line, octets, len);
}

/* Each terminal hears its word. */
static uint32_t play_heard_each(struct bsc_line *line, const char *text)
{
    static uint8_t octets[BSC_MAX_TERMINALS * BSC_MAX_HEARD];
    size_t lengths[BSC_MAX_TERMINALS], count = 0, len = 0;
    while (*text != 0 && count < BSC_MAX_TERMINALS) {
        if (take_word(&text, "-")) {
            lengths[count++] = BSC_LOST;
        } else {
            lengths[count] = take_octets(&text, octets + len);
            len += lengths[count++];
        }
    }
    return bsc_line_carry_each(line, octets, len, lengths, count);
}

/* Ends a doubt. */
static uint32_t play_release(struct bsc_line *line, const char *text)
{
    size_t terminal = take_number(&text);
    if (take_word(&text, "from"))
        return bsc_line_release_from(line, terminal);
    if (!take_word(&text, "to"))
        fail("not an event");
    return bsc_line_release_to(line, terminal, *text == 0 ? 0 : take_number(&text));
}

/* Plays an offer: what follows the numbers is the record. */
static uint32_t play_offer(struct bsc_line *line, const char *text, int at, int select_follows)
{
    size_t terminal = take_number(&text);
    size_t select = select_follows ? take_number(&text) : 0;
    const uint8_t *chars = (const uint8_t *)text;
    if (at)
        return bsc_line_offer_at(line, terminal, chars, strlen(text));
    return bsc_line_offer_for(line, terminal, select, chars, strlen(text));
}

/* Plays the event of a line of the script. *turn is whether a transmission may be pending by it. */
static uint32_t play(struct bsc_line *line, const char *text, int *turn)
{
    *turn = 0;
    if (take_word(&text, "offer-at"))
        return play_offer(line, text, 1, 0);
    if (take_word(&text, "offer-for"))
        return play_offer(line, text, 0, 0);
    if (take_word(&text, "offer-to"))
        return play_offer(line, text, 0, 1);
    if (take_word(&text, "ready"))
        return bsc_line_ready(line, take_number(&text), 1);
    if (take_word(&text, "unready"))
        return bsc_line_ready(line, take_number(&text), 0);
    if (take_word(&text, "poll-on"))
        return bsc_line_set_polled(line, take_number(&text), 1);
    if (take_word(&text, "poll-off"))
        return bsc_line_set_polled(line, take_number(&text), 0);
    if (take_word(&text, "urgent-at"))
        return bsc_line_urgent_at(line, take_number(&text));
    if (take_word(&text, "urgent-for"))
        return bsc_line_urgent_for(line, take_number(&text));
    if (take_word(&text, "release"))
        return play_release(line, text);
    *turn = 1;
    if (take_word(&text, "carry"))
        return bsc_line_carry_sent(line);
    if (take_word(&text, "lose"))
        return bsc_line_lose(line);
    if (take_word(&text, "heard"))
        return play_heard(line, text);
    if (take_word(&text, "heard-each"))
        return play_heard_each(line, text);
    if (!take_word(&text, "silence"))
        fail("not an event");
    return bsc_line_silence(line);
}

/* Plays the script up to the first event that is refused. Gives the status of the program. */
static int play_script(struct bsc_line *line, const char *path)
{
    FILE *file = fopen(path, "r");
    char *text = NULL, why[65] = {0};
    size_t room = 0;
    int turn;
    uint32_t error = BSC_OK;
    if (file == NULL)
        fail("cannot read the script");
    for (int number = 1; error == BSC_OK && getline(&text, &room, file) >= 0; number++) {
        text[strcspn(text, "\r\n")] = 0;
        if (text[0] == 0 || text[0] == '#')
            continue;
        error = play(line, text, &turn);
        if (error == BSC_OK && turn)
            print_pending(line);
        bsc_error_text(error, (uint8_t *)why, sizeof why - 1);
        if (error != BSC_OK)
            fprintf(stderr, "line: script line %d: refused: %s\n", number, why);
    }
    free(text);
    fclose(file);
    return error == BSC_OK ? 0 : 3;
}

int main(int argc, char **argv)
{
    static struct config config = {.setup = {.full = 80, .block_chars = 400, .tries = 3, .waits = 10}};
    struct bsc_line line = {0};
    int status;
    if (argc != 3)
        fail("usage: line CONFIG SCRIPT");
    read_config(&config, argv[1]);
    check(bsc_line_new(&line, &config.setup, config.terminals, config.count, config.poll_list, config.entries));
    status = play_script(&line, argv[2]);
    print_report(&line, &config);
    check(bsc_line_free(&line));
    return status;
}
