/* The lines of galitzaf_text.h against those of a file: an answer in hexadecimal, a space and its line, or nothing after
 * the space where the answer holds no fault. Each is made into a buffer of every size, which never holds more than the
 * line's beginning and its NUL.
 */
#include "galitzaf_text.h"

#include <stdio.h>
#include <string.h>

#define MOST 512

static int answer_of(const char *text, uint8_t *answer)
{
    for (size_t i = 0; i < GALITZAF_ANSWER_SIZE; i++) {
        unsigned byte;
        if (sscanf(text + 2 * i, "%2x", &byte) != 1)
            return 0;
        answer[i] = (uint8_t)byte;
    }
    return text[2 * GALITZAF_ANSWER_SIZE] == ' ';
}

static int sized(const uint8_t *answer, const char *wanted, size_t size)
{
    char text[MOST];
    size_t length = strlen(wanted);
    size_t shown = size == 0 ? 0 : length < size ? length : size - 1;

    memset(text, '#', sizeof text);
    if (galitzaf_fault_line(answer, GALITZAF_ANSWER_SIZE, text, size) != length || memcmp(text, wanted, shown) != 0)
        return 0;
    if (size > 0 && text[shown] != '\0')
        return 0;
    for (size_t i = size == 0 ? 0 : shown + 1; i < sizeof text; i++)
        if (text[i] != '#')
            return 0;
    return 1;
}

int main(int count, char **names)
{
    char line[MOST];
    unsigned lines = 0, wrong = 0;
    FILE *file = count == 2 ? fopen(names[1], "r") : NULL;

    if (file == NULL)
        return 2;
    while (fgets(line, sizeof line, file) != NULL) {
        const char *wanted = line + 2 * GALITZAF_ANSWER_SIZE + 1;
        uint8_t answer[GALITZAF_ANSWER_SIZE];
        char text[GALITZAF_FAULT_LINE_SIZE];
        int good;

        line[strcspn(line, "\n")] = '\0';
        good = answer_of(line, answer) && strlen(wanted) < GALITZAF_FAULT_LINE_SIZE;
        for (size_t size = 0; good && size < MOST; size++)
            good = sized(answer, wanted, size);
        /* An answer of another length makes an empty line. */
        good = good && galitzaf_fault_line(answer, GALITZAF_ANSWER_SIZE - 1, text, sizeof text) == 0 && text[0] == '\0';
        lines++;
        if (!good) {
            wrong++;
            printf("wanted %s\n", wanted);
            galitzaf_fault_line(answer, GALITZAF_ANSWER_SIZE, text, sizeof text);
            printf("made   %s\n", text);
        }
    }
    printf("%u lines, %u wrong\n", lines, wrong);
    return wrong != 0 || lines == 0;
}
