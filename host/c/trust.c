/* Reads an FCL text, checks its image, and evaluates a few readings of its one input with one held record. */
#include "say.h"

#include <math.h>

static const char *marks[] = {"none", "fired", "default", "held"};

static GrillenhelmReadings one(GrillenhelmReading r) {
    GrillenhelmReadings rs = {.at = {r}, .count = 1};
    return rs;
}

static GrillenhelmReading real(float x) {
    GrillenhelmReading r = {.kind = GRILLENHELM_REAL, .real = x};
    return r;
}

static uint8_t text[GRILLENHELM_TEXT + 1];
static uint8_t image[GRILLENHELM_IMAGE];
static uint8_t listing[GRILLENHELM_LISTING];
static size_t length;
static GrillenhelmHeld held;

static void evaluate(const char *what, GrillenhelmReadings rs) {
    GrillenhelmReply r = grillenhelm_evaluate_held(image, length, rs, &held);
    if (r.outcome.refusal != 0)
        say(what, r.outcome);
    else
        printf("%s: %s %.3f, %d thousandths, sum %u\n", what, marks[r.answers[0].mark], r.answers[0].value,
               (int)r.answers[0].thousandths, r.answers[0].sum);
    printf("  held: %d\n", (int)held.figures[0]);
}

int main(int argc, char **argv) {
    FILE *f = argc == 2 ? fopen(argv[1], "rb") : NULL;
    if (f == NULL) {
        fprintf(stderr, "trust FILE: FILE holds an FCL text with one input\n");
        return 2;
    }
    size_t n = fread(text, 1, sizeof text, f);
    fclose(f);

    say("read nothing", grillenhelm_read(text, 0, image, sizeof image));
    say("read up to END_RULEBLOCK", grillenhelm_read(text, n < 20 ? 0 : n - 20, image, sizeof image));
    say("read into 100 bytes", grillenhelm_read(text, n, image, 100));
    GrillenhelmOutcome o = grillenhelm_read(text, n, image, sizeof image);
    say("read", o);
    if (o.refusal != 0)
        return 1;
    length = o.length;
    say("check", grillenhelm_check(image, length));
    say("check without the last byte", grillenhelm_check(image, length - 1));
    o = grillenhelm_list(image, length, listing, sizeof listing);
    say("list", o);
    fwrite(listing, 1, o.length, stdout);

    GrillenhelmFresh fresh = grillenhelm_fresh(image, length);
    say("fresh record", fresh.outcome);
    held = fresh.held;
    printf("  held: %d\n", (int)held.figures[0]);

    GrillenhelmReading missing = {.kind = GRILLENHELM_ABSENT};
    GrillenhelmReading whole = {.kind = GRILLENHELM_INT, .whole = 30};
    GrillenhelmReading unknown = {.kind = 7, .real = 30, .whole = 30};
    GrillenhelmReadings two = {.at = {real(30), real(30)}, .count = 2};
    evaluate("REAL 30", one(real(30)));
    evaluate("no reading", one(missing));
    evaluate("REAL NaN", one(real(NAN)));
    evaluate("REAL infinity", one(real(INFINITY)));
    evaluate("INT 30", one(whole));
    evaluate("an unknown kind", one(unknown));
    evaluate("two readings", two);
    evaluate("REAL 40.5", one(real(40.5f)));
    evaluate("REAL -1", one(real(-1)));

    held.figures[5] = 1;
    evaluate("REAL 30, a figure in an unused place", one(real(30)));
    GrillenhelmEvaluation e = grillenhelm_evaluate(image, length, one(real(60)), fresh.held);
    printf("REAL 60 on the fresh record: %s %.3f, next record %d\n", marks[e.answers[0].mark], e.answers[0].value,
           (int)e.held.figures[0]);
    return 0;
}
