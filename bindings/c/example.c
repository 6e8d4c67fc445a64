/* Checks the file on standard input and says what came out. The exit status is 0 for an accepted file, 1 for a refused one, 2 where it can't be read.

       cc -I bindings/c bindings/c/example.c crates/vdlib/out/libvdlib.a -o example
       ./example < examples/b.vd */
#include "vd.h"

#include <inttypes.h>
#include <stdio.h>

int main(void) {
    /* One byte more than the longest file has: a longer one is refused for its length. */
    static uint8_t file[32769];
    size_t length = fread(file, 1, sizeof file, stdin);
    if (ferror(stdin)) {
        perror("standard input");
        return 2;
    }
    uint8_t report[VD_REPORT];
    struct vd_verdict verdict = vd_check(file, length, report, sizeof report);
    if (verdict.number == 0) {
        printf("accepted: all %u conditions are true at every state, %" PRIu64 " tests\n", (unsigned) verdict.at, verdict.tests);
        return 0;
    }
    if (verdict.number < 13 || verdict.number > 18) {
        printf("refused with %u, place %u\n", verdict.number, (unsigned) verdict.at);
        return 1;
    }
    printf("condition %u is broken (%u), node %u, transition %u, at the state", (unsigned) verdict.at, verdict.number, verdict.node,
           verdict.transition);
    for (int i = 0; i < 12; i++)
        printf(" %d", verdict.values[i]);
    printf(", %" PRIu64 " tests\n", verdict.tests);
    return 1;
}
