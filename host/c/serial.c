/* Reads an FCL text that comes over a serial line, bit by bit; now and then nothing has come. */
#include "say.h"

#include <string.h>

enum { CHUNK = 60 };

static uint8_t text[GRILLENHELM_TEXT + 1];
static uint8_t store[GRILLENHELM_TEXT];
static size_t count;
static uint8_t image[GRILLENHELM_IMAGE];
static uint8_t at_once[GRILLENHELM_IMAGE];

static GrillenhelmOutcome append(const uint8_t *chunk, size_t length) {
    return grillenhelm_append(chunk, length, store, sizeof store, &count);
}

static GrillenhelmOutcome finish(size_t room) {
    return grillenhelm_finish(store, sizeof store, &count, image, room);
}

/* Hands a text over as the line brings it, from its beginning, and says that it is over. */
static GrillenhelmOutcome receive(size_t length, size_t room) {
    count = 0;
    for (size_t at = 0; at < length; at += CHUNK) {
        if (at / CHUNK % 8 == 0)
            append(text + at, 0);
        GrillenhelmOutcome o = append(text + at, length - at < CHUNK ? length - at : CHUNK);
        if (o.refusal != 0)
            return o;
    }
    return finish(room);
}

int main(int argc, char **argv) {
    FILE *f = argc == 2 ? fopen(argv[1], "rb") : NULL;
    if (f == NULL) {
        fprintf(stderr, "serial FILE: FILE holds an FCL text\n");
        return 2;
    }
    size_t n = fread(text, 1, sizeof text, f);
    fclose(f);

    GrillenhelmOutcome o = receive(n, sizeof image);
    say("in chunks", o);
    if (o.refusal != 0)
        return 1;
    say("at once", grillenhelm_read(text, n, at_once, sizeof at_once));
    printf("  the same image: %s\n", memcmp(image, at_once, o.length) == 0 ? "yes" : "no");
    say("a chunk after the end", append(text, 1));
    say("the end again", finish(sizeof image));

    say("the end, with 100 bytes for the image", receive(n, 100));
    say("the end, with more", finish(sizeof image));
    say("read from the store", grillenhelm_read(store, n, image, sizeof image));

    text[n / 2] = '?';
    say("with a byte garbled", receive(n, sizeof image));

    uint8_t blanks[CHUNK];
    memset(blanks, ' ', CHUNK);
    size_t kept;
    count = 0;
    do {
        kept = count;
        o = append(blanks, CHUNK);
    } while (o.refusal == 0);
    printf("%zu blanks were kept\n", kept);
    say("one more chunk", o);
    say("the end", finish(sizeof image));
    return 0;
}
