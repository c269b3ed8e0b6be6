/* The lots cut at each seat of a customer over the position limit, by frundavel_cutback: what the program cutback prints of the lines on
 * standard input, for a few seats. Link with -lfrundavel. */
#include <stdio.h>
#include <string.h>
#include <frundavel.h>

enum { SEATS = 4 };

int main(void)
{
    /* an individual's silver: 20 metric tons are 20,000 lots of 1,000 grams */
    const char *kind = "individual", *metal = "silver";
    const char *code[SEATS] = {"A7", "B2", "A10", "C"};
    const uint64_t lots[SEATS] = {9000, 12000, 12000, 500};
    uint64_t size[SEATS], cut[SEATS];
    char codes[SEATS * 12 + 1] = "";
    frundavel_answer answer;
    int i;

    for (i = 0; i < SEATS; i++) {
        size[i] = strlen(code[i]);
        strcat(codes, code[i]);
    }
    answer = frundavel_cutback((const uint8_t *)kind, strlen(kind), (const uint8_t *)metal, strlen(metal), 1000,
                               (const uint8_t *)codes, strlen(codes), size, SEATS, lots, SEATS, cut, SEATS);
    if (answer.number != FRUNDAVEL_ACCEPTED) {
        printf("refused %llu at 0\n", (unsigned long long)answer.number);
        return 1;
    }
    for (i = 0; i < SEATS; i++)
        printf("%s %llu\n", code[i], (unsigned long long)cut[i]);
    return 0;
}
