/* Plays the workload of the command line, or small ones if there is none: those of bench_line, with the same words and
 * the same output. */
#include "line_c.h"

static enum hearing hearing_of(const char *word)
{
    if (strcmp(word, "sent") == 0)
        return AS_SENT;
    if (strcmp(word, "octets") == 0)
        return AS_OCTETS;
    if (strcmp(word, "padded") == 0)
        return PADDED;
    fprintf(stderr, "line_c: not sent, octets or padded\n");
    exit(1);
}

static size_t number_of(const char *word)
{
    return (size_t)strtoull(word, NULL, 10);
}

int main(int argc, char **argv)
{
    const char *name = argc > 1 ? argv[1] : "";
    if (argc == 1) {
        play_polls(3, 100, AS_SENT, 0);
        play_texts(3, 0, 10, AS_OCTETS, 0);
        play_scripts(1, 10, 100);
    } else if (argc == 5 && strcmp(name, "polls") == 0) {
        play_polls(number_of(argv[2]), number_of(argv[3]), hearing_of(argv[4]), 1);
    } else if (argc == 6 && strcmp(name, "texts") == 0) {
        play_texts(number_of(argv[2]), number_of(argv[3]), number_of(argv[4]), hearing_of(argv[5]), 1);
    } else if (argc == 5 && strcmp(name, "scripts") == 0) {
        play_scripts(number_of(argv[2]), number_of(argv[3]), number_of(argv[4]));
    } else {
        fprintf(stderr, "line_c: not a workload\n");
        return 1;
    }
    return 0;
}
