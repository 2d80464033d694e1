/* Calls the library for C: one call for each line of standard input.
 *
 *     CALL NUMBER LENGTH LENGTH LENGTH LENGTH
 *
 * is the line; the four texts follow it without anything between them: report, view, and the call's own. The answer is a line
 * `NUMBER LENGTH` and the text: for the number 0 what the call returned, else what iodef_redact_first_fault returns. */
#include "iodef_redact.h"

#include <stdio.h>
#include <stdlib.h>
#include <string.h>

static uint32_t called(const char *call, uint32_t number, char **t, const size_t *n, char *out, size_t room, size_t *needed) {
    if (!strcmp(call, "excerpt")) return iodef_redact_excerpt(t[0], n[0], t[1], n[1], out, room, needed);
    if (!strcmp(call, "document")) return iodef_redact_document(t[0], n[0], t[1], n[1], out, room, needed);
    if (!strcmp(call, "whole")) return iodef_redact_whole(t[0], n[0], t[1], n[1], out, room, needed);
    if (!strcmp(call, "whole_with_id"))
        return iodef_redact_whole_with_id(t[0], n[0], t[1], n[1], t[2], n[2], t[3], n[3], out, room, needed);
    if (!strcmp(call, "explain")) return iodef_redact_explain(t[0], n[0], t[1], n[1], t[2], n[2], out, room, needed);
    if (!strcmp(call, "finds")) return iodef_redact_finds(t[0], n[0], t[1], n[1], t[2], n[2], out, room, needed);
    if (!strcmp(call, "finds_in_class"))
        return iodef_redact_finds_in_class(t[0], n[0], t[1], n[1], t[2], n[2], t[3], n[3], out, room, needed);
    if (!strcmp(call, "marks")) return iodef_redact_marks(t[0], n[0], number, out, room, needed);
    if (!strcmp(call, "first_fault")) return iodef_redact_first_fault(t[0], n[0], t[1], n[1], number, out, room, needed);
    exit(2);
}

/* The answer in a piece of memory of its own; a call without room asks for its length. */
static uint32_t answered(const char *call, uint32_t number, char **texts, const size_t *lengths, char **out, size_t *needed) {
    uint32_t fault = called(call, number, texts, lengths, NULL, 0, needed);
    *out = malloc(*needed + 1);
    if (*out == NULL) exit(3);
    return fault ? fault : called(call, number, texts, lengths, *out, *needed, needed);
}

int main(void) {
    char call[32], *texts[4];
    unsigned number;
    size_t lengths[4], needed;
    while (scanf("%31s %u %zu %zu %zu %zu", call, &number, lengths, lengths + 1, lengths + 2, lengths + 3) == 6) {
        if (getchar() != '\n') return 2;
        for (int each = 0; each < 4; each++) {
            texts[each] = malloc(lengths[each] + 1);
            if (texts[each] == NULL || fread(texts[each], 1, lengths[each], stdin) != lengths[each]) return 2;
        }
        char *out;
        uint32_t fault = answered(call, number, texts, lengths, &out, &needed);
        if (fault) {
            free(out);
            int is_dated = !strncmp(call, "whole", 5);
            char *view = "{\"clearance\":\"RED\"}", *both[2] = {texts[0], strcmp(call, "marks") ? texts[1] : view};
            size_t long_as[2] = {lengths[0], strcmp(call, "marks") ? lengths[1] : strlen(view)};
            answered("first_fault", is_dated, both, long_as, &out, &needed);
        }
        printf("%u %zu\n", fault, needed);
        fwrite(out, 1, needed, stdout);
        free(out);
        for (int each = 0; each < 4; each++) free(texts[each]);
    }
    return fflush(stdout) != 0;
}
