/* The exported call from C: the declarations of the module whose tree stands in standard input, with an empty overload list and the unresolved
   context 1. Prints what the program `declares` prints, and behind each diagnostic what it means; with the word `depths`, what the program `depths`
   prints: how many of each diagnostic, and in how many namespaces; with the word `text`, what the program `text` prints: the declarations as text.

       (cd crates/dts && rt lib)
       cc -Iinclude examples/call.c crates/dts/out/libdts.a -o call
       ./call < crates/declares/stdin
       ./call depths < crates/depths/stdin
       ./call text < crates/text/stdin
*/
#include "dts.h"
#include <inttypes.h>
#include <stdio.h>
#include <stdlib.h>
#include <string.h>

/* d1 to d5 */
static const char *const words[] = {
    "no type can be inferred from an expression or a declaration",
    "no type can be inferred, so it is `any`",
    "no type can be inferred from a property, so the object's type is without it",
    "no type can be inferred from a spread: an object's type is without it, and an array has no type",
    "no type can be inferred from `using`, so the declaration goes",
};

/* a byte more than the longest tree, so that a longer one is refused */
static uint8_t tree[524289];

/* a record has at least 15 bytes, and there are never more diagnostics than records */
static uint8_t diagnostics[sizeof tree / 15 * 10];

static uint32_t u32_at(const uint8_t *bytes) {
    return bytes[0] | (uint32_t)bytes[1] << 8 | (uint32_t)bytes[2] << 16 | (uint32_t)bytes[3] << 24;
}

int main(int argc, char **argv) {
    int depths = argc == 2 && strcmp(argv[1], "depths") == 0;
    int text = argc == 2 && strcmp(argv[1], "text") == 0;
    size_t length = fread(tree, 1, sizeof tree, stdin);
    uint8_t *out = NULL;
    uint32_t counts[160];
    uint64_t answer[2];
    uint32_t number = 9;
    /* Few outputs are twice as long as their tree, and none is 16 times as long: if 9 is said of that too, a key is longer than 65,531 bytes, and
       no buffer is long enough. */
    for (size_t times = 2; number == 9 && times <= 16; times *= 8) {
        size_t out_length = times * length + 64;
        free(out);
        out = malloc(out_length);
        if (out == NULL) {
            fputs("no memory\n", stderr);
            return 1;
        }
        const uint8_t *list = (const uint8_t *)"";
        number = depths ? dts_depths(tree, length, list, 0, 1, out, out_length, diagnostics, sizeof diagnostics, counts, answer)
                        : dts_transform(tree, length, list, 0, 1, out, out_length, diagnostics, sizeof diagnostics, answer);
    }
    if (number == 0 && text) {
        /* the declarations are a tree too; no text is 8 times as long as its tree */
        size_t text_length = 8 * (size_t)answer[0];
        uint8_t *written = malloc(text_length);
        if (written == NULL) {
            fputs("no memory\n", stderr);
            return 1;
        }
        number = dts_text(out, (size_t)answer[0], written, text_length, answer);
        free(out);
        out = written;
    }
    if (number != 0) {
        printf("refused %" PRIu32 " at %" PRIu64 "\n", number, answer[0]);
    } else if (depths) {
        /* a row of 32 counts for each of d1 to d5, then how many diagnostics there are */
        for (int i = 0; i < 160; i++) {
            printf("%" PRIu32 "%c", counts[i], i % 32 == 31 ? '\n' : ' ');
        }
        printf("%" PRIu64 "\n", answer[1]);
    } else if (text) {
        fwrite(out, 1, (size_t)answer[0], stdout);
    } else {
        /* the declarations are the first answer[0] bytes of `out` */
        printf("ok %" PRIu64 " %" PRIu64 "\n", answer[0], answer[1]);
        for (uint64_t i = 0; i < answer[1]; i++) {
            const uint8_t *d = diagnostics + 10 * i;
            printf("%c %" PRIu32 " %" PRIu32 ": %s\n", d[1], u32_at(d + 2), u32_at(d + 6), words[d[1] - '1']);
        }
    }
    free(out);
    return 0;
}
