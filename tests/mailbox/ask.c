/* Answers for each line of standard input, a value in hexadecimal: the code of sluicepod_mailbox and its values. */
#include <stdio.h>
#include <string.h>

#include "sluicepod.h"

int main(void) {
    static char line[1 << 16];
    static uint8_t value[1 << 15];
    while (fgets(line, sizeof line, stdin) != NULL) {
        size_t len = strcspn(line, "\n") / 2;
        for (size_t i = 0; i < len; i++) {
            unsigned byte;
            if (sscanf(line + 2 * i, "%2x", &byte) != 1)
                return 1;
            value[i] = (uint8_t)byte;
        }
        size_t result[SLUICEPOD_RESULT_LEN];
        uint32_t code = sluicepod_mailbox(value, len, result, SLUICEPOD_RESULT_LEN);
        printf("%u", (unsigned)code);
        for (size_t i = 1; i <= result[0]; i++)
            printf(" %zu", result[i]);
        printf("\n");
    }
    return 0;
}
