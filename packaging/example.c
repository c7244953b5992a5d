#include <stdio.h>
#include <string.h>
#include "trace_library.h"

int main(void) {
    const char *text = "05010000\n01010000\n02010000\n"
                       "01010000\n02010000\n06010000\n";
    uint8_t line[TRACE_LINE_LENGTH], said[TRACE_SAY_LENGTH];
    uint8_t kind = trace_check((const uint8_t *)text, strlen(text),
                               line, sizeof line);
    size_t length = trace_say_line(line, sizeof line,
                                   said, sizeof said);
    fwrite(line, 1, sizeof line, stdout);
    fwrite(said, 1, length, stdout);
    return kind;
}
