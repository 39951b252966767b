/* The trace card: a sheet of whole numbers written coarse part first, readable from any cut behind its header, with one figure beside it: how far off any value may be.
 *
 * Every function returns the refusal's number, 0 where the call is accepted. A slice is a pointer to so many elements, then their number; the pointer
 * has to be valid for them (and not null, even of none), and slices that a call writes to must not overlap others. Coefficients and values have rows x cols elements each, or the call
 * is refused (3). A refused call leaves the caller's coefficients, values, next, output, page and apart as they were. answer is the call's report, which a refused call
 * fills too, except where answer or plan has a wrong length: then nothing at all is written.
 *
 * answer has 24 numbers: [0] the refusal's number, [1] and [2] its details, [3] the card's length (write) or the plan's cells (planning),
 * [4] the figure, [5] to [17] the plan that was reached, given or found; of a comparison [3] the number of points apart, [4] row and [5] column of the first.
 * What a call does not answer is 0, and beside a refusal all but [0] to [2] are 0. Where answer is not 24 long, or plan not 13, a function returns 3
 * and writes nothing.
 *
 * curve is 0 for linear and 1 for cubic; any other number is refusal 2. plan has 13 numbers: the planes loaded from the top of each layer, 0 past
 * the last. Refusals: 1 a size, 2 levels, curve or step, 3 a slice's length, 4 a sample out of range (row, column), 5 the header is cut, 6 a wrong
 * line (which), 7 bytes follow the last cell, 8 a plane that cannot be (layer), 9 a plan that asks too much (place; in refine and preview also the layer), 10 a limit below the
 * step, 11 a coefficient out of range, 12 a page too short, 13 the sizes of two cards differ.
 */
#ifndef TRACE_CARD_H
#define TRACE_CARD_H

#include <stddef.h>
#include <stdint.h>
#include <string.h>

#ifdef __cplusplus
extern "C" {
#endif

/* The lengths of answer and plan, the most points of a sheet, the most bytes of a card, and the bytes of a roll's line. */
#define TRACE_CARD_ANSWER_LENGTH 24
#define TRACE_CARD_PLAN_LENGTH 13
#define TRACE_CARD_MOST_POINTS 8192
#define TRACE_CARD_MOST_BYTES 36864
#define TRACE_CARD_LINE_BYTES 25

/* The numbers of an answer, in their order, with names. */
struct trace_card_answer {
    uint64_t refusal;
    uint64_t details[2];
    uint64_t size; /* of the card in bytes (write) or of the plan in cells (planning); the points apart (compare) */
    uint64_t figure; /* row of the first point apart (compare) */
    uint64_t plan[TRACE_CARD_ANSWER_LENGTH - 5]; /* the first TRACE_CARD_PLAN_LENGTH are the plan, the rest is 0; column of that point first (compare) */
};

#ifdef __cplusplus
static_assert(sizeof(struct trace_card_answer) == TRACE_CARD_ANSWER_LENGTH * sizeof(uint64_t), "a name for each number");
#elif __STDC_VERSION__ >= 201112L
_Static_assert(sizeof(struct trace_card_answer) == TRACE_CARD_ANSWER_LENGTH * sizeof(uint64_t), "a name for each number");
#endif

/* The numbers that a call has put into its answer, with names. They are copied, so that the plan can be given to a call that fills the same
 * answer again. */
static inline struct trace_card_answer trace_card_answer_of(const uint64_t numbers[TRACE_CARD_ANSWER_LENGTH]) {
    struct trace_card_answer answer;
    memcpy(&answer, numbers, sizeof answer);
    return answer;
}

/* Writes a sheet of rows by cols samples: its coefficients, the values as they will be read, and the card at the front of output, which
 * has room for 36,864 bytes or more. The card tells what each layer loses where low digits of it are missing, as measured: figures and plans of it go by
 * that, and those of an older card, which does not tell it, by the most that can be lost. */
uint64_t trace_card_write(const int32_t *samples, size_t samples_length, uint64_t rows, uint64_t cols, uint64_t levels, uint64_t curve,
    uint64_t step, int32_t *coefficients, size_t coefficients_length, int64_t *values, size_t values_length, uint8_t *output,
    size_t output_length, uint64_t *answer, size_t answer_length);

/* Reads a card, cut or whole, with a plan. Digits that are not loaded are 0 in the coefficients; in the values they count as the middle of what
 * they can be. */
uint64_t trace_card_read(const uint8_t *card, size_t card_length, const uint64_t *plan, size_t plan_length, int32_t *coefficients,
    size_t coefficients_length, int64_t *values, size_t values_length, uint64_t *answer, size_t answer_length);

/* Reads a card, cut or whole, with all the planes that are there. */
uint64_t trace_card_show(const uint8_t *card, size_t card_length, int32_t *coefficients, size_t coefficients_length, int64_t *values,
    size_t values_length, uint64_t *answer, size_t answer_length);

/* Shows a card as trace_card_show does, and prints the figure and the values in lines of 24 characters, each with byte 10 behind it, at the front
 * of page, which has room for 25 x (rows x cols + 1) bytes or more, or the call is refused (12). The bytes behind the last line stay as they were. The first
 * line is the figure; the others, in row order, are row, column and value in 4, 4 and 16 places, right-aligned. */
uint64_t trace_card_roll(const uint8_t *card, size_t card_length, int32_t *coefficients, size_t coefficients_length, int64_t *values,
    size_t values_length, uint8_t *page, size_t page_length, uint64_t *answer, size_t answer_length);

/* Compares what two cards show, cut or whole, whatever their levels, curves and steps: each is shown as trace_card_show does, in coefficients and
 * values of its own. apart has rows x cols bytes: for each point, in row order, 0 where the two values differ by at most the sum of the two figures,
 * otherwise 1. Where that is 1 and trace_card_write wrote both cards, the two samples at that point differ. Refused for what the first card is, then the
 * second; then 13 where rows or cols differ; then 3 where apart has another length. */
uint64_t trace_card_compare(const uint8_t *first, size_t first_length, const uint8_t *second, size_t second_length, int32_t *first_coefficients,
    size_t first_coefficients_length, int64_t *first_values, size_t first_values_length, int32_t *second_coefficients,
    size_t second_coefficients_length, int64_t *second_values, size_t second_values_length, uint8_t *apart, size_t apart_length, uint64_t *answer,
    size_t answer_length);

/* Adds the next plane of a layer to a reading with a plan. */
uint64_t trace_card_refine(const uint8_t *card, size_t card_length, const uint64_t *plan, size_t plan_length, uint64_t layer,
    int32_t *coefficients, size_t coefficients_length, int64_t *values, size_t values_length, uint64_t *answer, size_t answer_length);

/* What trace_card_refine would give, without refining: the answer is the same, and the values go to next, which has rows x cols elements, or the call
 * is refused (3). Coefficients and values are only read. */
uint64_t trace_card_preview(const uint8_t *card, size_t card_length, const uint64_t *plan, size_t plan_length, uint64_t layer,
    const int32_t *coefficients, size_t coefficients_length, const int64_t *values, size_t values_length, int64_t *next, size_t next_length,
    uint64_t *answer, size_t answer_length);

/* The figure of a plan. */
uint64_t trace_card_figure(const uint8_t *card, size_t card_length, const uint64_t *plan, size_t plan_length, uint64_t *answer,
    size_t answer_length);

/* The plan with the fewest cells whose figure is at most limit. */
uint64_t trace_card_plan_by_limit(const uint8_t *card, size_t card_length, uint64_t limit, uint64_t *answer, size_t answer_length);

/* The plan with the smallest figure in at most so many cells. */
uint64_t trace_card_plan_by_cells(const uint8_t *card, size_t card_length, uint64_t cells, uint64_t *answer, size_t answer_length);

#ifdef __cplusplus
}
#endif

#endif
