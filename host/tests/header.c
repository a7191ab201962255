/*
 * What the header works out by itself, for tests/header.rs to hold against the crate. Without arguments the version, then every number of refusal
 * with its words. With a file, line and column of every place in it, and of one past its end.
 */
#include <stdio.h>

#include "kuhlabires.h"

int main(int count, char **words)
{
    if (count == 1) {
        printf("%s\n%d.%d.%d\n", KUHLABIRES_VERSION, KUHLABIRES_VERSION_MAJOR, KUHLABIRES_VERSION_MINOR, KUHLABIRES_VERSION_PATCH);
        for (uint32_t refusal = 1; refusal <= KUHLABIRES_PARAMETER_OUTSIDE; refusal++)
            printf("%u %s\n", (unsigned)refusal, kuhlabires_refusal_words(refusal));
        return 0;
    }
    static uint8_t text[4096];
    FILE *file = fopen(words[1], "rb");
    if (!file)
        return 2;
    const size_t length = fread(text, 1, sizeof text, file);
    fclose(file);
    for (size_t place = 0; place <= length + 1; place++) {
        const kuhlabires_position at = kuhlabires_position_of(text, length, place);
        printf("%zu %zu\n", at.line, at.column);
    }
    return 0;
}
