/* Redacts the report on standard input TURNS times for the reader of a view description, and prints the last answer.
 *
 *     redacting VIEW TURNS */
#include <iodef_redact.h>
#include <stdio.h>
#include <stdlib.h>
#include <string.h>

enum { ROOM = 1 << 20 };

int main(int argc, char **argv) {
    static char report[ROOM], answer[ROOM];
    size_t length = fread(report, 1, sizeof report, stdin), needed = 0;
    const char *view = argc > 2 ? argv[1] : "";
    long turns = argc > 2 ? atol(argv[2]) : 0;
    for (long at = 0; at < turns; at++) {
        uint32_t fault = iodef_redact_excerpt(report, length, view, strlen(view), answer, sizeof answer, &needed);
        if (fault || needed > sizeof answer) return fprintf(stderr, "%s\n", iodef_redact_fault_name(fault)), 1;
    }
    fwrite(answer, 1, needed, stdout);
    return 0;
}
