/*
 * Grillenhelm for C and C++ hosts on x86-64: FCL texts to stored images and back, and figures from readings.
 * Link target/staticlib/libgrillenhelm.a, which tools/archive proves and writes.
 *
 * Who owns what: the host owns all memory. Bytes, the held record of grillenhelm_evaluate_held and the number beside a
 * text in chunks are lent for the time of the call; everything else goes by value. No function allocates, keeps a
 * pointer or has a state of its own, so threads need no lock between them while each lends its own buffers, record and
 * number. A pointer is never null, even to no bytes, and what is written overlaps with nothing else that is lent. A
 * thread that calls wants 96 KB of stack (reading was measured to need 52, listing 39, a check or an evaluation 3).
 *
 * No function asks anything of the contents: any bytes and any values get an answer, which is accepted or one
 * numbered refusal. After a refusal a lent buffer or record holds what it came with; so does the number beside a text
 * in chunks, unless the refusal is the end of that text, which the number then says.
 */
#ifndef GRILLENHELM_H
#define GRILLENHELM_H

#include <stddef.h>
#include <stdint.h>

#ifdef __cplusplus
extern "C" {
#endif

/* No text, image or listing is longer, in bytes: buffers of these lengths are never too short. */
#define GRILLENHELM_TEXT 65536
#define GRILLENHELM_IMAGE 10200
#define GRILLENHELM_LISTING 31421

/* The number beside a text in chunks that is over. */
#define GRILLENHELM_OVER (GRILLENHELM_TEXT + 1)

/* Places for readings, and for outputs. */
#define GRILLENHELM_INPUTS 8
#define GRILLENHELM_OUTPUTS 6

/*
 * The outcome of every call. refusal is 0 where it is accepted, else:
 *    1  the text is too long; the place is 0
 *    2  a wrong byte or token, or the text ends early
 *    3  the form or the bound of a number
 *    4  a name that is too long, or something given twice, in whatever case
 *    5  a name that is not declared for this use
 *    6  more than a bound allows
 *    7  a position that falls, is the third in one place or is outside of RANGE, or fewer than two points
 *    8  AND and OR that are no pair
 *    9  a declared variable lacks its part
 *   10  the buffer is too short; the place is the length that is needed
 *   11  the image is not accepted
 *   12  the number of readings is not that of the inputs
 *   13  the held record is not one of this image
 *   14  a reading is absent, not finite or of the wrong kind; the place is its index, the first one
 *   16  a call after the end of a text in chunks
 * There is no 15. The place of 2 to 9 is the byte of the text, from 0, where the refused token begins. has_place is 1
 * where there is a place, else it and place are 0. length is how many bytes of an image or a listing were written,
 * else 0.
 */
typedef struct {
    uint32_t refusal;
    uint32_t has_place;
    size_t place;
    size_t length;
} GrillenhelmOutcome;

/* What a reading is. Every other number is an unknown kind and counts as no reading, which is refused by 14. */
enum { GRILLENHELM_ABSENT = 0, GRILLENHELM_REAL = 1, GRILLENHELM_INT = 2 };

/* One reading: real is looked at where kind is GRILLENHELM_REAL, whole where it is GRILLENHELM_INT. */
typedef struct {
    uint32_t kind;
    float real;
    int16_t whole;
} GrillenhelmReading;

/* The readings of one call, in the order of the declared inputs; places past the count are not looked at. */
typedef struct {
    GrillenhelmReading at[GRILLENHELM_INPUTS];
    size_t count;
} GrillenhelmReadings;

/* The held record of an image: for each output its last figure in thousandths, 0 in the places past the last. */
typedef struct {
    int32_t figures[GRILLENHELM_OUTPUTS];
} GrillenhelmHeld;

/* What an output's figure rests on; none is the mark of places past the last output, and of all after a refusal. */
enum { GRILLENHELM_NONE = 0, GRILLENHELM_FIRED = 1, GRILLENHELM_DEFAULT = 2, GRILLENHELM_HELD = 3 };

/* The answer of one output: its figure in thousandths and as a number, and the sum of its heights in millionths. */
typedef struct {
    uint32_t mark;
    int32_t thousandths;
    uint32_t sum;
    double value;
} GrillenhelmAnswer;

typedef struct {
    GrillenhelmOutcome outcome;
    GrillenhelmHeld held;
} GrillenhelmFresh;

typedef struct {
    GrillenhelmOutcome outcome;
    GrillenhelmAnswer answers[GRILLENHELM_OUTPUTS];
    GrillenhelmHeld held;
} GrillenhelmEvaluation;

typedef struct {
    GrillenhelmOutcome outcome;
    GrillenhelmAnswer answers[GRILLENHELM_OUTPUTS];
} GrillenhelmReply;

/*
 * Reads an FCL text and writes its image to the start of the buffer; refused by 1 to 10. Case does not count in names
 * and keywords; the image has each name as it is declared.
 */
GrillenhelmOutcome grillenhelm_read(const uint8_t *text, size_t text_length, uint8_t *image, size_t image_room);

/*
 * A text in chunks, as it comes over a serial line. The host lends a store of GRILLENHELM_TEXT bytes or more, which may
 * hold anything, and a number, which it sets to 0 where a text begins; until the text is over it writes to neither. The
 * number is how many bytes have come, or GRILLENHELM_OVER. A call after the end is refused by 16 before all else and
 * alters nothing; so is one with a shorter store or any other number.
 *
 * Hands over the bytes that have come, perhaps none, which are put into the store behind those before. Refused by 1 as
 * soon as the text is too long, whatever else is wrong with it, and the text is over; else by 16 alone.
 */
GrillenhelmOutcome grillenhelm_append(const uint8_t *chunk, size_t chunk_length, uint8_t *store, size_t store_length,
                                      size_t *count);

/*
 * The end of the text, which is read as by grillenhelm_read, the place counted from its first byte; refused by 2 to 10
 * or 16. The image buffer is lent for this call only. Whatever it answers, the text is over. It still stands at the
 * front of the store, as many bytes as the number said before: after a 10, grillenhelm_read reads it from there into a
 * longer buffer.
 */
GrillenhelmOutcome grillenhelm_finish(const uint8_t *store, size_t store_length, size_t *count, uint8_t *image,
                                      size_t image_room);

/* Says whether these bytes are an image, all of them: accepted, or refused by 11. */
GrillenhelmOutcome grillenhelm_check(const uint8_t *image, size_t image_length);

/* Writes the listing of an image, a text that reads to it, to the start of the buffer; refused by 11 or 10. */
GrillenhelmOutcome grillenhelm_list(const uint8_t *image, size_t image_length, uint8_t *text, size_t text_room);

/* The held record that the first evaluation of an image gets; all 0 where it is refused, by 11. */
GrillenhelmFresh grillenhelm_fresh(const uint8_t *image, size_t image_length);

/* Evaluates an image: the answers of its outputs and the record for the next call; refused by 11 to 14. */
GrillenhelmEvaluation grillenhelm_evaluate(const uint8_t *image, size_t image_length, GrillenhelmReadings readings,
                                           GrillenhelmHeld held);

/* The same for daily use: the host's one record is brought up to date where it stands. */
GrillenhelmReply grillenhelm_evaluate_held(const uint8_t *image, size_t image_length, GrillenhelmReadings readings,
                                           GrillenhelmHeld *held);

#ifdef __cplusplus
}
#endif

#endif
