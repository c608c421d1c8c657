/* What the examples share: an outcome in words. */
#include "grillenhelm.h"

#include <stdio.h>

static const char *words[] = {
    "accepted",
    "the text is too long",
    "a wrong byte or token, or the text ends early",
    "the form or the bound of a number",
    "a name that is too long, or something given twice, in whatever case",
    "a name that is not declared for this use",
    "more than a bound allows",
    "a position that falls, is the third in one place or is outside of RANGE, or fewer than two points",
    "AND and OR that are no pair",
    "a declared variable lacks its part",
    "the buffer is too short",
    "the image is not accepted",
    "the number of readings is not that of the inputs",
    "the held record is not one of this image",
    "a reading is absent, not finite or of the wrong kind",
    [16] = "the text is over",
};

static void say(const char *what, GrillenhelmOutcome o) {
    if (o.refusal == 0 && o.length == 0)
        printf("%s: accepted\n", what);
    else if (o.refusal == 0)
        printf("%s: accepted, %zu bytes written\n", what, o.length);
    else if (o.has_place)
        printf("%s: refused %u at %zu, %s\n", what, o.refusal, o.place, words[o.refusal]);
    else
        printf("%s: refused %u, %s\n", what, o.refusal, words[o.refusal]);
}
