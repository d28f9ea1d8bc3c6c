/*
 * Shrinks a table of routes by the C library: shrink MODE TABLE, with a mode 1 to 5 and a file of records (docs/WIRE.md). Prints what
 * the program of a mode prints: a line a record, then the change; or the refusal, which standard error has in words. Fill (mode 5) has the default
 * 0. The status is 0 for a result, 1 for a refused table, 2 where there is nothing to shrink. docs/C.md says how to build it.
 */
#include <stdio.h>

#include "suovvamet.h"

static uint8_t table[SUOVVAMET_MOST_OUTPUT]; /* a record more than a table may have, so that a longer file is refused */
static uint8_t output[SUOVVAMET_MOST_OUTPUT];
static uint32_t work[SUOVVAMET_MOST_WORK];

/* The mode that a word names, 0 where it names none. */
static uint32_t mode_of(const char *word)
{
    return word[0] >= '1' && word[0] <= '5' && word[1] == 0 ? (uint32_t)(word[0] - '0') : 0;
}

int main(int argc, char **argv)
{
    if (argc != 3) {
        fprintf(stderr, "usage: shrink MODE TABLE\n");
        return 2;
    }
    uint32_t mode = mode_of(argv[1]);
    if (mode == 0) {
        fprintf(stderr, "shrink: the mode is 1 to 5, not '%s'\n", argv[1]);
        return 2;
    }
    FILE *file = fopen(argv[2], "rb");
    if (file == NULL) {
        perror(argv[2]);
        return 2;
    }
    size_t length = fread(table, 1, sizeof table, file);
    if (ferror(file)) { /* a directory, too */
        perror(argv[2]);
        fclose(file);
        return 2;
    }
    fclose(file);

    int is_set = mode == SUOVVAMET_SET;
    static const uint16_t no_ranks[1]; /* the smallest of equally good hops is taken */
    uint64_t words, count, index;
    int64_t change;
    uint32_t refusal = suovvamet_work_words(table, length, 0, is_set, &words, &index); /* never more than SUOVVAMET_MOST_WORK */
    if (refusal == SUOVVAMET_ANSWERED)
        refusal = suovvamet_rewrite(table, length, 0, mode, 0, no_ranks, 0, output, sizeof output, work, words, &count, &change, &index);
    if (refusal != SUOVVAMET_ANSWERED) {
        printf("refused %u at %llu\n", (unsigned)refusal, (unsigned long long)index);
        fprintf(stderr, "shrink: %s\n", suovvamet_refusal_text(refusal));
        return 1;
    }
    for (uint64_t i = 0; i < count; i++) {
        const uint8_t *record = output + 8 * i;
        printf("%d.%d.%d.%d/%d", record[0], record[1], record[2], record[3], record[4]);
        if (!is_set)
            printf(" %d", record[5]);
        printf("\n");
    }
    printf("change %lld\n", (long long)change);
    return 0;
}
