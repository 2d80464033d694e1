/* Calls each function of clients/c/iodef_redact.h, on the table of cases that redaction_cases reads from standard input.
 *
 *     calls               answers each case with a room of every length from 0 to one above the answer's (of long answers, of
 *                         some lengths), looks at what was told and written, and prints what redaction_cases prints
 *     calls answers       the same with three rooms for each case: one byte less than the answer needs, just that, and one more
 *     calls threads N     answers all cases in N threads at once
 *     calls stack N       answers all cases in a thread with a stack of N bytes
 *     calls null          passes NULL
 *     calls refuse        answers each case while the first, second, .. piece of memory is refused, and all behind it; wanted for
 *                         it are -DREFUSE and -Wl,--wrap=malloc,--wrap=realloc,--wrap=free. Behind ALL_PIECES some are tried alone
 *     calls growths       answers each case while the first, second, .. growth of the heap alone is refused, and once more behind
 *                         it; wanted is the heap of scripts/refuse-growth.d/refuse.c, preloaded. Behind ALL_PIECES likewise
 */
#include "iodef_redact.h"

#include <errno.h>
#include <pthread.h>
#include <stdio.h>
#include <stdlib.h>
#include <string.h>

enum { FILL = 0xA5, ALL_LENGTHS = 3000, ALL_PIECES = 3000, MOST_VIEWS = 8 };

typedef struct {
    uint8_t *start; /* of a piece of its own, with nothing behind it; NULL where it is empty */
    size_t length;
} Bytes;

typedef enum {
    TEXT,
    REPORT,
    FAULTS,
    EXCERPT, /* the calls, from here on */
    EXCERPTS,
    READS,
    DOCUMENT,
    WHOLE,
    WHOLE_WITH_ID,
    FAULT,
    FINDS,
    FINDS_IN_CLASS,
    EXPLAIN,
    MARKS
} Verb;

typedef struct {
    Verb verb;
    Bytes report, view, word, name; /* the name of a class, or that of an identifier */
    Bytes views[MOST_VIEWS];
    size_t view_count;
    uint32_t number; /* the place of an Incident, or whether the moment of the view is wanted */
    char *text; /* a line that is printed as it is */
} Case;

typedef struct {
    uint32_t number;
    Bytes text;
} Answer;

static void fail(const char *what, size_t place) {
    fprintf(stderr, "calls: case %zu: %s\n", place, what);
    exit(1);
}

/* ---- memory that is refused ---- */

/* The piece that is refused next: each up to ALL_PIECES, and then some, as a long case asks for many thousands. */
static size_t next_piece(size_t piece) { return piece + (piece < ALL_PIECES ? 1 : piece / 16); }

#ifdef REFUSE
static long allowed = -1, taken = 0, live = 0; /* allowed: how many pieces more are given, or -1 */
void *__real_malloc(size_t);
void *__real_realloc(void *, size_t);
void __real_free(void *);

static int is_refused(void) {
    taken++;
    return allowed >= 0 && taken > allowed;
}
void *__wrap_malloc(size_t size) {
    void *piece = is_refused() ? NULL : __real_malloc(size);
    if (piece) live++;
    return piece;
}
void *__wrap_realloc(void *piece, size_t size) { return is_refused() ? NULL : __real_realloc(piece, size); }
void __wrap_free(void *piece) {
    if (piece) live--;
    __real_free(piece);
}
#endif

/* ---- the table ---- */

static Case *cases;
static size_t count;

static int digit_of(int c) { return c <= '9' ? c - '0' : (c | 32) - 'a' + 10; }

static int is_digit(int c) { return (c >= '0' && c <= '9') || ((c | 32) >= 'a' && (c | 32) <= 'f'); }

/* The bytes that a part of a line stands for: % and two hexadecimal digits stand for one. */
static Bytes bytes_of(const char *from, size_t length) {
    Bytes bytes = {NULL, 0};
    size_t at = 0;
    uint8_t *made = malloc(length + 1);
    while (at < length) {
        int is_escape = from[at] == '%' && at + 2 < length && is_digit(from[at + 1]) && is_digit(from[at + 2]);
        made[bytes.length++] = (uint8_t)(is_escape ? digit_of(from[at + 1]) * 16 + digit_of(from[at + 2]) : from[at]);
        at += is_escape ? 3 : 1;
    }
    if (bytes.length) {
        bytes.start = malloc(bytes.length);
        memcpy(bytes.start, made, bytes.length);
    }
    free(made);
    return bytes;
}

static int is_word(const char *line, size_t length, const char *word) { return strlen(word) == length && !strncmp(line, word, length); }

static Verb verb_of(const char *line, size_t length) {
    static const struct {
        const char *word;
        Verb verb;
    } verbs[] = {{"report", REPORT},   {"faults", FAULTS}, {"excerpt", EXCERPT}, {"excerpts", EXCERPTS}, {"reads", READS}, {"document", DOCUMENT}, {"whole", WHOLE},
                 {"fault", FAULT},     {"faultd", FAULT},  {"finds", FINDS},     {"explain", EXPLAIN}, {"marks", MARKS}};
    for (size_t at = 0; at < sizeof verbs / sizeof *verbs; at++)
        if (is_word(line, length, verbs[at].word)) return verbs[at].verb;
    return TEXT;
}

/* The parts of a line behind its verb: words, and the rest. A word ends at a space, and that of a search at @ too. */
static void part(Case *made, const char *rest) {
    size_t word = strcspn(rest, " "), name = strcspn(rest, " @");
    const char *behind = rest[word] ? rest + word + 1 : "";
    if (made->verb == FINDS && name < word) {
        made->verb = FINDS_IN_CLASS;
        made->name = bytes_of(rest + name + 1, word - name - 1);
        word = name;
    }
    if (made->verb == WHOLE) {
        size_t id = strcspn(behind, " ");
        if (!is_word(behind, id, "-")) {
            made->verb = WHOLE_WITH_ID;
            made->name = bytes_of(rest, word);
            made->word = bytes_of(behind, id);
        }
        behind += behind[id] ? id + 1 : id;
    } else {
        made->word = bytes_of(rest, word);
    }
    made->view = bytes_of(behind, strlen(behind));
}

/* The views of a line: words with a space between two. */
static void part_views(Case *made, const char *rest) {
    while (*rest) {
        size_t length = strcspn(rest, " ");
        if (made->view_count == MOST_VIEWS) fail("too many views", count + 1);
        made->views[made->view_count++] = bytes_of(rest, length);
        rest += rest[length] ? length + 1 : length;
    }
}

/* What a line asks. A report is for the lines behind it too, and is freed with its own. */
static Case case_of(const char *line, Bytes *report) {
    Case made = {TEXT, {NULL, 0}, {NULL, 0}, {NULL, 0}, {NULL, 0}, {{NULL, 0}}, 0, 0, NULL};
    size_t verb = strcspn(line, " ");
    const char *rest = line[verb] ? line + verb + 1 : "";
    made.verb = verb_of(line, verb);
    switch (made.verb) {
        case TEXT: made.text = strdup(line); break;
        case REPORT: *report = bytes_of(rest, strlen(rest)); break;
        case FAULTS: break;
        case MARKS: made.number = (uint32_t)strtoul(rest, NULL, 10); break;
        case EXCERPTS: part_views(&made, rest); break;
        case FAULT: made.number = (uint32_t)is_word(line, verb, "faultd"); /* fallthrough */
        case EXCERPT: case READS: case DOCUMENT: made.view = bytes_of(rest, strlen(rest)); break;
        default: part(&made, rest);
    }
    made.report = *report;
    return made;
}

static void read_table(void) {
    char *line = NULL;
    size_t room = 0;
    ssize_t length;
    Bytes report = {NULL, 0};
    while ((length = getline(&line, &room, stdin)) >= 0) {
        if (length && line[length - 1] == '\n') line[length - 1] = 0;
        if (!*line) continue;
        if (!(count & (count - 1))) cases = realloc(cases, (count ? 2 * count : 1) * sizeof *cases);
        cases[count++] = case_of(line, &report);
    }
    free(line);
}

static void free_table(void) {
    for (size_t at = 0; at < count; at++) {
        if (cases[at].verb == REPORT) free(cases[at].report.start);
        free(cases[at].text);
        free(cases[at].view.start);
        free(cases[at].word.start);
        free(cases[at].name.start);
        for (size_t view = 0; view < cases[at].view_count; view++) free(cases[at].views[view].start);
    }
    free(cases);
}

/* ---- calls ---- */

/* Whether a case is a call of the library. */
static int asks(const Case *c) { return c->verb >= EXCERPT; }

/* What is told of several views agrees with what the call tells: each has its fault, or the answers are as long together. */
static uint32_t call_several(const Case *c, iodef_redact_asked *asked, uint8_t *out, size_t room, size_t *needed) {
    size_t together = 0;
    for (size_t at = 0; at < c->view_count; at++) {
        iodef_redact_asked one = {c->views[at].start, c->views[at].length, 12345, 12345};
        asked[at] = one;
    }
    uint32_t number = iodef_redact_excerpts(c->report.start, c->report.length, c->view_count ? asked : NULL, c->view_count, out, room, needed);
    for (size_t at = 0; at < c->view_count; at++) {
        if (number && asked[at].fault != number) fail("a view has another fault than the call", at + 1);
        if (asked[at].fault && asked[at].needed) fail("needed isn't 0 of a view with a fault", at + 1);
        if (asked[at].view_length != c->views[at].length) fail("a view was changed", at + 1);
        together += asked[at].needed;
    }
    if (together != *needed) fail("the answers have another length together", 0);
    return number;
}

static uint32_t call(const Case *c, uint8_t *out, size_t room, size_t *needed) {
    Bytes r = c->report, v = c->view, w = c->word, n = c->name;
    iodef_redact_asked asked[MOST_VIEWS];
    switch (c->verb) {
        case EXCERPTS: return call_several(c, asked, out, room, needed);
        case EXCERPT: case READS: return iodef_redact_excerpt(r.start, r.length, v.start, v.length, out, room, needed);
        case DOCUMENT: return iodef_redact_document(r.start, r.length, v.start, v.length, out, room, needed);
        case WHOLE: return iodef_redact_whole(r.start, r.length, v.start, v.length, out, room, needed);
        case WHOLE_WITH_ID:
            return iodef_redact_whole_with_id(r.start, r.length, v.start, v.length, n.start, n.length, w.start, w.length, out, room,
                                              needed);
        case FAULT: return iodef_redact_first_fault(r.start, r.length, v.start, v.length, c->number, out, room, needed);
        case FINDS: return iodef_redact_finds(r.start, r.length, v.start, v.length, w.start, w.length, out, room, needed);
        case FINDS_IN_CLASS:
            return iodef_redact_finds_in_class(r.start, r.length, v.start, v.length, w.start, w.length, n.start, n.length, out, room,
                                               needed);
        case EXPLAIN: return iodef_redact_explain(r.start, r.length, v.start, v.length, w.start, w.length, out, room, needed);
        default: return iodef_redact_marks(r.start, r.length, c->number, out, room, needed);
    }
}

/* What is answered of a case, in a room of just this length: what was told and written is looked at. */
static uint32_t call_in(const Case *c, size_t room, size_t wanted_length, uint8_t *out, size_t place) {
    size_t needed = 12345;
    memset(out, FILL, room);
    uint32_t number = call(c, room ? out : NULL, room, &needed);
    if (number && needed) fail("needed isn't 0 on a fault", place);
    if (!number && needed != wanted_length) fail("needed isn't the answer's length", place);
    for (size_t at = !number && needed <= room ? needed : 0; at < room; at++)
        if (out[at] != FILL) fail("a byte was written that isn't of the answer", place);
    return number;
}

static Answer answer_of(const Case *c, size_t place) {
    Answer answer = {0, {NULL, 0}};
    size_t needed = 0;
    answer.number = call(c, NULL, 0, &needed);
    if (answer.number) return answer;
    answer.text.start = malloc(needed ? needed : 1);
    answer.text.length = needed;
    if (call(c, answer.text.start, needed, &needed)) fail("asked again, it has a fault", place);
    return answer;
}

static void call_in_room(const Case *c, const Answer *answer, size_t room, size_t place) {
    size_t length = answer->text.length;
    uint8_t *out = malloc(room ? room : 1);
    if (call_in(c, room, length, out, place) != answer->number) fail("another number in another room", place);
    if (!answer->number && room >= length && memcmp(out, answer->text.start, length)) fail("another answer in another room", place);
    free(out);
}

static void call_in_all(const Case *c, const Answer *answer, size_t place) {
    size_t length = answer->text.length;
    for (size_t room = 0; room <= length + 1; room++) {
        if (length > ALL_LENGTHS && room > 2 && room + 2 < length && room % (length / 16)) continue;
        call_in_room(c, answer, room, place);
    }
}

static void call_in_three(const Case *c, const Answer *answer, size_t place) {
    size_t length = answer->text.length;
    for (size_t room = length ? length - 1 : 0; room <= length + 1; room++) call_in_room(c, answer, room, place);
}

static void print_faults(void) {
    for (uint32_t number = 1; number < IODEF_REDACT_NULL_POINTER; number++)
        if (*iodef_redact_fault_name(number))
            printf("%u %s: %s\n", (unsigned)number, iodef_redact_fault_name(number), iodef_redact_fault_reason(number));
}

/* Whether an excerpt says that its document is a report again: by its last such member, as behind that are texts alone. */
static int is_readable(const Answer *answer) {
    static const char member[] = ",\"readable\":";
    size_t length = sizeof member - 1, at = answer->text.length - length;
    while (at && memcmp(answer->text.start + at, member, length)) at--;
    return answer->text.start[at + length] == 't';
}

/* What one view has of several is what iodef_redact_excerpt tells of it alone. */
static void check_alone(const Case *c, size_t at, const iodef_redact_asked *asked, const uint8_t *answer) {
    size_t needed = 0;
    Bytes r = c->report, v = c->views[at];
    uint8_t *alone = malloc(asked->needed ? asked->needed : 1);
    uint32_t number = iodef_redact_excerpt(r.start, r.length, v.start, v.length, alone, asked->needed, &needed);
    if (number != asked->fault || needed != asked->needed) fail("alone, a view has another answer", at + 1);
    if (needed && memcmp(alone, answer, needed)) fail("alone, a view has other bytes", at + 1);
    free(alone);
}

/* The answer of each view on its line. */
static void print_several(const Case *c, const Answer *answer) {
    iodef_redact_asked asked[MOST_VIEWS];
    size_t needed = 0, start = 0;
    if (call_several(c, asked, NULL, 0, &needed)) fail("asked again, it has a fault", 0);
    for (size_t at = 0; at < c->view_count; at++) {
        check_alone(c, at, &asked[at], answer->text.start + start);
        if (asked[at].fault) printf("%u %s", (unsigned)asked[at].fault, iodef_redact_fault_name(asked[at].fault));
        fwrite(answer->text.start + start, 1, asked[at].needed, stdout);
        putchar('\n');
        start += asked[at].needed;
    }
    if (!c->view_count) putchar('\n');
}

static void print(const Case *c, const Answer *answer) {
    if (answer->number) {
        printf("%u %s\n", (unsigned)answer->number, iodef_redact_fault_name(answer->number));
        return;
    }
    if (c->verb == EXCERPTS) {
        print_several(c, answer);
        return;
    }
    if (c->verb == READS) {
        puts(is_readable(answer) ? "true" : "false");
        return;
    }
    fwrite(answer->text.start, 1, answer->text.length, stdout);
    if (!answer->text.length || answer->text.start[answer->text.length - 1] != '\n') putchar('\n');
}

static void by_rooms(void (*in_rooms)(const Case *, const Answer *, size_t)) {
    for (size_t at = 0; at < count; at++) {
        if (cases[at].verb == FAULTS) print_faults();
        if (cases[at].verb == TEXT) puts(cases[at].text);
        if (!asks(&cases[at])) continue;
        Answer answer = answer_of(&cases[at], at + 1);
        in_rooms(&cases[at], &answer, at + 1);
        print(&cases[at], &answer);
        free(answer.text.start);
    }
}

/* ---- threads ---- */

static Answer *answers; /* those of one thread alone */

static void *answer_all(void *unused) {
    for (size_t at = 0; at < count; at++) {
        if (!asks(&cases[at])) continue;
        Answer answer = answer_of(&cases[at], at + 1);
        if (answer.number != answers[at].number || answer.text.length != answers[at].text.length ||
            (answer.text.length && memcmp(answer.text.start, answers[at].text.start, answer.text.length)))
            fail("another answer in another thread", at + 1);
        free(answer.text.start);
    }
    return unused;
}

static void by_threads(size_t threads, size_t stack) {
    pthread_t *all = calloc(threads, sizeof *all);
    pthread_attr_t how;
    answers = calloc(count + 1, sizeof *answers);
    for (size_t at = 0; at < count; at++)
        if (asks(&cases[at])) answers[at] = answer_of(&cases[at], at + 1);
    pthread_attr_init(&how);
    if (stack && pthread_attr_setstacksize(&how, stack)) fail("no such stack", 0);
    for (size_t at = 0; at < threads; at++)
        if (pthread_create(&all[at], &how, answer_all, NULL)) fail("no thread", 0);
    for (size_t at = 0; at < threads; at++) pthread_join(all[at], NULL);
    pthread_attr_destroy(&how);
    for (size_t at = 0; at < count; at++) free(answers[at].text.start);
    free(answers);
    free(all);
    printf("%zu threads\n", threads);
}

/* ---- NULL ---- */

#define WANTED(CALL, NUMBER) \
    do { \
        needed = 7; \
        uint32_t number = CALL; \
        if (number != (NUMBER)) fprintf(stderr, "calls: %s: %u\n", #CALL, (unsigned)number), exit(1); \
        if (number && needed != 0) fprintf(stderr, "calls: %s: needed is %zu\n", #CALL, needed), exit(1); \
    } while (0)

static void by_null(void) {
    uint8_t out[4] = {FILL, FILL, FILL, FILL};
    size_t needed, *none = NULL;
    const char *view = "{\"clearance\":\"GREEN\"}", *dated = "{\"clearance\":\"GREEN\",\"now\":\"2026-01-01T00:00:00Z\"}";
    const char *report =
        "{\"Incident\":[{\"purpose\":\"watch\",\"IncidentID\":\"1\",\"GenerationTime\":\"g\",\"restriction\":\"public\",\"Contact\":[]}]}";
    size_t length = strlen(view), huge = (size_t)PTRDIFF_MAX + 1;
    iodef_redact_asked asked = {NULL, 0, 7, 7}, bad = {NULL, 1, 7, 7};
    /* NULL with length 0 is an empty text: no report, and no view */
    WANTED(iodef_redact_excerpt(NULL, 0, view, length, out, 4, &needed), IODEF_REDACT_NOT_JSON);
    WANTED(iodef_redact_excerpt(NULL, 0, NULL, 0, NULL, 0, &needed), IODEF_REDACT_VIEW_NOT_JSON);
    WANTED(iodef_redact_excerpts(NULL, 0, NULL, 0, NULL, 0, &needed), IODEF_REDACT_NOT_JSON);
    WANTED(iodef_redact_excerpts(report, strlen(report), NULL, 0, NULL, 0, &needed), IODEF_REDACT_DONE);
    WANTED(iodef_redact_excerpts(report, strlen(report), &asked, 1, NULL, 0, &needed), IODEF_REDACT_DONE);
    if (asked.fault != IODEF_REDACT_VIEW_NOT_JSON || asked.needed) fail("NULL is an empty view", 0);
    WANTED(iodef_redact_document(NULL, 0, NULL, 0, NULL, 0, &needed), IODEF_REDACT_VIEW_NOT_JSON);
    WANTED(iodef_redact_whole(NULL, 0, view, length, NULL, 0, &needed), IODEF_REDACT_MISSING_MEMBER);
    WANTED(iodef_redact_whole_with_id(NULL, 0, dated, strlen(dated), NULL, 0, NULL, 0, NULL, 0, &needed), IODEF_REDACT_NOT_JSON);
    WANTED(iodef_redact_first_fault(NULL, 0, view, length, 0, NULL, 0, &needed), IODEF_REDACT_DONE);
    WANTED(iodef_redact_finds(NULL, 0, view, length, NULL, 0, NULL, 0, &needed), IODEF_REDACT_NOT_JSON);
    WANTED(iodef_redact_finds_in_class(NULL, 0, view, length, NULL, 0, NULL, 0, NULL, 0, &needed), IODEF_REDACT_NOT_JSON);
    WANTED(iodef_redact_explain(NULL, 0, view, length, NULL, 0, NULL, 0, &needed), IODEF_REDACT_NOT_JSON);
    WANTED(iodef_redact_marks(NULL, 0, 0, NULL, 0, &needed), IODEF_REDACT_NOT_JSON);
    /* any other NULL is refused, and so is a length that nothing has */
    WANTED(iodef_redact_excerpt(NULL, 1, view, length, out, 4, &needed), IODEF_REDACT_NULL_POINTER);
    WANTED(iodef_redact_excerpt("", 0, NULL, length, out, 4, &needed), IODEF_REDACT_NULL_POINTER);
    WANTED(iodef_redact_excerpt("", 0, view, length, NULL, 4, &needed), IODEF_REDACT_NULL_POINTER);
    WANTED(iodef_redact_excerpt("", huge, view, length, out, 4, &needed), IODEF_REDACT_NULL_POINTER);
    WANTED(iodef_redact_excerpt("", 0, view, length, out, huge, &needed), IODEF_REDACT_NULL_POINTER);
    WANTED(iodef_redact_excerpts(NULL, 1, &asked, 1, out, 4, &needed), IODEF_REDACT_NULL_POINTER);
    WANTED(iodef_redact_excerpts("", 0, NULL, 1, out, 4, &needed), IODEF_REDACT_NULL_POINTER);
    WANTED(iodef_redact_excerpts("", 0, &asked, huge / sizeof asked + 1, out, 4, &needed), IODEF_REDACT_NULL_POINTER);
    WANTED(iodef_redact_excerpts("", 0, &bad, 1, out, 4, &needed), IODEF_REDACT_NULL_POINTER);
    if (bad.fault != IODEF_REDACT_NULL_POINTER || bad.needed) fail("a view that is NULL has the fault", 0);
    WANTED(iodef_redact_document(NULL, 1, view, length, out, 4, &needed), IODEF_REDACT_NULL_POINTER);
    WANTED(iodef_redact_document("", 0, NULL, 1, out, 4, &needed), IODEF_REDACT_NULL_POINTER);
    WANTED(iodef_redact_whole(NULL, 1, view, length, out, 4, &needed), IODEF_REDACT_NULL_POINTER);
    WANTED(iodef_redact_whole("", 0, NULL, 1, out, 4, &needed), IODEF_REDACT_NULL_POINTER);
    WANTED(iodef_redact_whole_with_id("", 0, view, length, NULL, 1, "", 0, out, 4, &needed), IODEF_REDACT_NULL_POINTER);
    WANTED(iodef_redact_whole_with_id("", 0, view, length, "", 0, NULL, 1, out, 4, &needed), IODEF_REDACT_NULL_POINTER);
    WANTED(iodef_redact_first_fault(NULL, 1, view, length, 0, out, 4, &needed), IODEF_REDACT_NULL_POINTER);
    WANTED(iodef_redact_first_fault("", 0, NULL, 1, 1, out, 4, &needed), IODEF_REDACT_NULL_POINTER);
    WANTED(iodef_redact_finds("", 0, view, length, NULL, 1, out, 4, &needed), IODEF_REDACT_NULL_POINTER);
    WANTED(iodef_redact_finds_in_class("", 0, view, length, "", 0, NULL, 1, out, 4, &needed), IODEF_REDACT_NULL_POINTER);
    WANTED(iodef_redact_explain("", 0, view, length, NULL, 1, out, 4, &needed), IODEF_REDACT_NULL_POINTER);
    WANTED(iodef_redact_marks(NULL, 1, 0, out, 4, &needed), IODEF_REDACT_NULL_POINTER);
    needed = 0;
    if (iodef_redact_marks("", 0, 0, out, 4, none) != IODEF_REDACT_NULL_POINTER) fail("needed may be NULL", 0);
    for (int at = 0; at < 4; at++)
        if (out[at] != FILL) fail("a byte was written on a fault", 0);
    if (strcmp(iodef_redact_fault_name(IODEF_REDACT_NULL_POINTER), "NullPointer") || *iodef_redact_fault_name(0) ||
        *iodef_redact_fault_name(26) || *iodef_redact_fault_reason(0))
        fail("the table of faults", 0);
    puts("NULL");
}

/* ---- memory that is refused ---- */

static void by_refusals(void) {
#ifdef REFUSE
    long refusals = 0;
    for (size_t at = 0; at < count; at++) {
        if (!asks(&cases[at])) continue;
        Answer answer = answer_of(&cases[at], at + 1);
        uint8_t *out = malloc(answer.text.length + 1);
        for (long given = 0;; given = (long)next_piece((size_t)given)) {
            long before = live;
            taken = 0;
            allowed = given;
            uint32_t number = call_in(&cases[at], answer.text.length + 1, answer.text.length, out, at + 1);
            int is_hit = taken > allowed;
            allowed = -1;
            if (live != before) fail("memory was kept", at + 1);
            if (number != answer.number && number != IODEF_REDACT_NO_MEMORY) fail("another fault where memory is refused", at + 1);
            if (!is_hit && number != answer.number) fail("no memory, and none was refused", at + 1);
            if (!number && memcmp(out, answer.text.start, answer.text.length)) fail("another answer where memory is refused", at + 1);
            if (!is_hit) break;
            refusals++;
        }
        free(out);
        free(answer.text.start);
    }
    printf("%ld refusals\n", refusals);
#else
    fail("this build refuses nothing", 0);
#endif
}

/* ---- a growth that is refused, and no other ---- */

enum { ARMS = 0x40, ASKS = 0x50 }; /* the first byte of sizes that no heap has */
static void *(*volatile take)(size_t) = malloc;

/* The heap refuses this growth from here on, and of 0 none. */
static void arm(size_t growth) {
    if (take(((size_t)ARMS << 56) + growth)) fail("the heap gives what no heap has", 0);
}

/* Whether the heap refused one since it was armed. */
static int has_refused(void) {
    void *piece = take((size_t)ASKS << 56);
    free(piece);
    return piece != NULL;
}

static void call_and_compare(const Case *c, const Answer *answer, uint8_t *out, size_t place) {
    size_t length = answer->text.length;
    if (call_in(c, length + 1, length, out, place) != answer->number) fail("another number behind a refusal", place);
    if (!answer->number && memcmp(out, answer->text.start, length)) fail("another answer behind a refusal", place);
}

static long refusals_of(const Case *c, size_t place) {
    Answer answer = answer_of(c, place);
    uint8_t *out = malloc(answer.text.length + 1);
    size_t growth = 0;
    long refused = 0;
    for (int is_hit = 1; is_hit;) {
        growth = next_piece(growth);
        arm(growth);
        uint32_t number = call_in(c, answer.text.length + 1, answer.text.length, out, place);
        is_hit = has_refused();
        refused += is_hit;
        arm(0);
        if (number != (is_hit ? IODEF_REDACT_NO_MEMORY : answer.number)) fail("a growth was refused, and another number told", place);
        call_and_compare(c, &answer, out, place);
    }
    free(out);
    free(answer.text.start);
    return refused;
}

static void by_growths(void) {
    long refusals = 0, none = 0;
    for (size_t at = 0; at < count; at++) {
        if (!asks(&cases[at])) continue;
        long here = refusals_of(&cases[at], at + 1);
        refusals += here;
        none += here == 0;
    }
    printf("%ld growths refused, %ld cases without one\n", refusals, none);
}

int main(int argc, char **argv) {
    const char *how = argc > 1 ? argv[1] : "lengths";
    size_t number = argc > 2 ? strtoul(argv[2], NULL, 10) : 0;
    if (!strcmp(how, "null")) return by_null(), 0;
    read_table();
    if (!strcmp(how, "lengths")) by_rooms(call_in_all);
    else if (!strcmp(how, "answers")) by_rooms(call_in_three);
    else if (!strcmp(how, "growths")) by_growths();
    else if (!strcmp(how, "threads")) by_threads(number, 0);
    else if (!strcmp(how, "stack")) by_threads(1, number);
    else if (!strcmp(how, "refuse")) by_refusals();
    else fail("no such word", 0);
    free_table();
    return 0;
}
