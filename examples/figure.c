/* Prints how far off any value of a card may be, cut or whole: figure FILE
 *
 * It ends with 0 and figure=NUMBER, with 1, refused=NUMBER and, where there are any, details=FIRST,SECOND, or with 2 where no card
 * could be read from FILE. */
#include <inttypes.h>
#include <stdio.h>

#include "trace_card.h"

/* Larger than any card, so that a file with too much behind its card comes to the call, which says so. */
static uint8_t card[TRACE_CARD_MOST_BYTES + 1024];

/* Not on the stack, which may be small. */
static int32_t coefficients[TRACE_CARD_MOST_POINTS];
static int64_t values[TRACE_CARD_MOST_POINTS];

/* How many points a card has by its first two lines; 0 where they do not say it, or say more than there is memory for. Nothing else
 * is checked here, since the call looks at every line before it looks at lengths and tells what is wrong. */
static size_t points_of(const char *text) {
    size_t rows, cols;
    /* Four digits are enough, and with more sscanf could meet a number that does not fit. */
    if (sscanf(text, "rows=%4zu\ncols=%4zu", &rows, &cols) != 2)
        return 0;
    if (rows > TRACE_CARD_MOST_POINTS || cols > TRACE_CARD_MOST_POINTS || rows * cols > TRACE_CARD_MOST_POINTS)
        return 0;
    return rows * cols;
}

int main(int argc, char **argv) {
    if (argc != 2) {
        fputs("usage: figure FILE\n", stderr);
        return 2;
    }
    FILE *file = fopen(argv[1], "rb");
    size_t length = file == NULL ? 0 : fread(card, 1, sizeof card, file);
    if (file == NULL || ferror(file)) {
        perror(argv[1]);
        return 2;
    }
    fclose(file);
    /* There may be more where the buffer is full. Where it is not, a 0 behind the bytes ends them as a text. */
    if (length == sizeof card) {
        fprintf(stderr, "%s: longer than any card\n", argv[1]);
        return 2;
    }

    size_t points = points_of((const char *)card);
    uint64_t numbers[TRACE_CARD_ANSWER_LENGTH];
    trace_card_show(card, length, coefficients, points, values, points, numbers, TRACE_CARD_ANSWER_LENGTH);
    struct trace_card_answer answer = trace_card_answer_of(numbers);
    if (answer.refusal == 0) {
        printf("figure=%" PRIu64 "\n", answer.figure);
        return 0;
    }
    printf("refused=%" PRIu64 "\n", answer.refusal);
    if (answer.details[0] != 0 || answer.details[1] != 0)
        printf("details=%" PRIu64 ",%" PRIu64 "\n", answer.details[0], answer.details[1]);
    return 1;
}
