/* The verification diagram checker, proved in Rattle, for C (x86-64 Linux): link crates/vdlib/out/libvdlib.a, which `rt lib` in crates/vdlib writes.

       uint8_t report[VD_REPORT];
       struct vd_verdict verdict = vd_check(file, length, report, sizeof report);
       if (verdict.number == 0)
           printf("accepted, %u conditions\n", (unsigned) verdict.at);

   example.c is a whole program. */
#ifndef VD_H
#define VD_H

#include <stdbool.h>
#include <stddef.h>
#include <stdint.h>

#ifdef __cplusplus
extern "C" {
#endif

/* The bytes of a report. */
#define VD_REPORT 32

/* The check's result: the fields of the report, and the tests. */
struct vd_verdict {
    uint8_t number;     /* 0 for an accepted file, else the refusal's number: 13 to 18 for a broken condition, 1 to 10, 19, 20, 22 for no condition */
    uint8_t node;       /* the broken condition's node, 255 for none */
    uint8_t transition; /* and its transition */
    uint32_t at;        /* the broken condition, the refusal's place, or for 0 how many conditions there are */
    int16_t values[12]; /* the lowest-numbered state that breaks the condition, else zeros */
    uint64_t tests;     /* how many tests of a condition at a state the check's definition makes, condition by condition, state by state: conditions
                           times states for 0; up to the state named, with it, for a broken condition; 0 where no condition is tested */
};

/* What a single test answers. */
struct vd_tested {
    size_t number; /* 0 if the test was made, else the refusal's number, 2 to 12, 19, 20 or 22 */
    size_t place;  /* the refusal's place */
    bool holds;    /* whether the condition holds at the state; false in a refusal */
};

/* Both functions need little stack: 45 KiB at most, as measured; a thread with 64 KiB is enough. */

/* Checks the file, and writes the report to the first 32 bytes of the buffer, which must not overlap the file. With less room the number is 1, and
   nothing is written. Neither pointer may be null, even with a length of 0. */
struct vd_verdict vd_check(const uint8_t *file, size_t length, uint8_t *report, size_t room);

/* Tests one condition at one state, by their numbers. */
struct vd_tested vd_single(const uint8_t *file, size_t length, size_t condition, size_t state);

#ifdef __cplusplus
}
#endif

#endif
