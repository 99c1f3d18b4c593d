/* Filing a plan: any plan file, in the one form in which the archive keeps it.
 *
 *     bash tools/build.sh gawherino && gcc -std=c99 -Iinclude examples/c/file.c target/staticlib/libgawherino.a -o file
 *     ./file < drawn.plan > filed.plan        # cmp tells whether two drawings are one plan
 *     ./file --sample                         # two drawings of plan G of document 01 are filed alike
 *
 * Its exit status is 0 if the plan was filed, 1 if it was refused (standard error says by which number), 2 if it could not be read or
 * written.
 */
#include "gawherino.h"

#include <stdio.h>
#include <string.h>

static uint8_t plan[GAWHERINO_MAX_PLAN + 1]; /* one more, so that a file that is too long is refused with 1 */
static uint8_t filed[GAWHERINO_MAX_WRITTEN];

/* Plan G as document 01 lists it, and as another group might draw it: lines before starts, both backwards, and gaps. */
static const uint8_t listed[30] = {1, 0, 3, 0, 2, 0, 2, 0, 4, 0, 16, 0, 18, 0, 30, 0, 0, 1, 0, 0, 1, 1, 0, 2, 1, 1, 0, 2, 1, 2};
static const uint8_t drawn[35] = {1, 0, 3, 0, 2, 0, 2, 0, 4, 0, 30, 0, 17, 0, 35, 0, /* the eight numbers */
                                  99, 2, 1, 2, 1, 1, 0, 1, 0, 2, 0, 0, 1,            /* a gap, the lines */
                                  99, 1, 0, 99, 99, 99};                             /* a gap, the starts, a gap */

static int sample(void)
{
    uint32_t a = gawherino_write(listed, sizeof listed, filed, sizeof filed);
    if (a != sizeof listed || memcmp(filed, listed, sizeof listed) != 0)
        return 1;
    a = gawherino_write(drawn, sizeof drawn, filed, sizeof filed);
    return a != sizeof listed || memcmp(filed, listed, sizeof listed) != 0;
}

int main(int argc, char **argv)
{
    size_t length;
    uint32_t answer, refusal;

    if (argc > 1 && strcmp(argv[1], "--sample") == 0)
        return sample();
    length = fread(plan, 1, sizeof plan, stdin);
    if (ferror(stdin)) {
        fprintf(stderr, "the plan could not be read\n");
        return 2;
    }
    answer = gawherino_write(plan, length, filed, sizeof filed);
    refusal = GAWHERINO_REFUSAL(answer);
    if (refusal != 0) {
        fprintf(stderr, "refused with %u\n", (unsigned)refusal);
        return 1;
    }
    if (fwrite(filed, 1, answer, stdout) != answer || fflush(stdout) != 0) {
        fprintf(stderr, "the plan could not be written\n");
        return 2;
    }
    return 0;
}
