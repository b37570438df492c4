/* Judges a library and prints the total of each of its executables: a small use of the calls for C. */
#include <inttypes.h>
#include <stdio.h>

#include "pica.h"

/* One byte more than a library may have, so that a longer file is refused and not cut. */
static uint8_t file[65537];

static int refused(uint64_t answer) {
    printf("refused %02" PRIu32 " %08" PRIX32 "\n", pica_refusal(answer), pica_place(answer));
    return 1;
}

int main(int count, char **arguments) {
    if (count != 2) {
        fprintf(stderr, "usage: report FILE\n");
        return 2;
    }
    FILE *input = fopen(arguments[1], "rb");
    if (!input) {
        perror(arguments[1]);
        return 2;
    }
    size_t length = fread(file, 1, sizeof file, input);
    if (ferror(input)) {
        perror(arguments[1]);
        return 2;
    }
    fclose(input);

    uint64_t verdict = pica_check(file, length);
    if (pica_refusal(verdict))
        return refused(verdict);
    uint32_t report[8];
    for (uint32_t executable = 0;; executable++) {
        uint64_t answer = pica_report(file, length, executable, report, 8);
        if (pica_refusal(answer) == 29) /* the one after the last */
            return 0;
        if (pica_refusal(answer))
            return refused(answer);
        printf("executable %" PRIu32 ": at most %" PRIu32 " steps\n", executable, report[7]);
    }
}
