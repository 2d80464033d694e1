/* What a reader may see of an incident report: the library iodef_redact for C and C++. clients/c/README.md shows its use.
 *
 * Each call takes a report (an IODEF v2 document in JSON, RFC 7970 and RFC 8727) and mostly a view description (JSON: for whom
 * the report is redacted, and by which case), and gives an answer, a text in UTF-8. It returns 0 if there is an answer, and
 * otherwise the number of the fault.
 *
 *   - On 0, *needed is the answer's length in bytes. If out_length is at least that, the answer is at the beginning of out,
 *     without a NUL after it; otherwise out is unchanged. So call again with *needed bytes if they are more than out_length.
 *   - On a fault, *needed is 0 and out is unchanged.
 *
 * A length is in bytes, and NULL may be passed with length 0. NULL with another length, or for needed, is the fault
 * IODEF_REDACT_NULL_POINTER. No size is limited: a call's memory and time grow with the report's length.
 *
 * What the caller must ensure, and nothing checks:
 *
 *   - out, needed, asked and the bytes that are read do not overlap. While a call runs, no other thread writes to any of them, nor
 *     reads out, needed and asked. Otherwise calls may run in parallel: the library has no state.
 *   - malloc, realloc and free belong to one allocator. malloc and realloc align a block to each power of two up to 16 that
 *     divides its size.
 *   - No call is made in a signal handler, nor in the forked child of a process that has threads. The child may exec first.
 *   - The stack has IODEF_REDACT_STACK bytes left.
 *
 * The functions whose names end in _into are the library itself. They take no NULL. */
#ifndef IODEF_REDACT_H
#define IODEF_REDACT_H

#include <stddef.h>
#include <stdint.h>

#ifdef __cplusplus
extern "C" {
#endif

/* The faults in their order: if there are several, the first is returned. IODEF_REDACT_NO_MEMORY may replace any answer. Each
 * has a number, the name that the program iodef-redact prints, and a reason. */
#define IODEF_REDACT_FAULTS(FAULT) \
    FAULT(NO_MEMORY, 1, "NoMemory", "memory ran out") \
    FAULT(VIEW_NOT_JSON, 2, "ViewNotJson", "the view is no JSON text in UTF-8") \
    FAULT(DOUBLED_MEMBER, 3, "DoubledMember", "an object of the view has a member twice") \
    FAULT(NOT_OBJECT, 4, "NotObject", "the view is no object") \
    FAULT(UNKNOWN_MEMBER, 5, "UnknownMember", "an object of the view has an unknown member") \
    FAULT(MISSING_MEMBER, 6, "MissingMember", "an object of the view lacks a member") \
    FAULT(WRONG_KIND, 7, "WrongKind", "a value of the view is of the wrong kind") \
    FAULT(OUT_OF_RANGE, 8, "OutOfRange", "a value of the view is out of range") \
    FAULT(BAD_POINTER, 9, "BadPointer", "a path is no JSON pointer") \
    FAULT(BAD_MOMENT, 10, "BadMoment", "a moment of the view is no whole second with an offset") \
    FAULT(SOURCE_UNSAID, 11, "SourceUnsaid", "`source` isn't true exactly if the reader's organisation is the source") \
    FAULT(NOT_UTF8, 12, "NotUtf8", "a word isn't UTF-8") \
    FAULT(NOT_JSON, 13, "NotJson", "the report is no JSON text in UTF-8") \
    FAULT(NOT_DOCUMENT, 14, "NotDocument", "the report is no IODEF document") \
    FAULT(MISSING, 15, "Missing", "an Incident lacks a member") \
    FAULT(NOT_WHOLE, 16, "NotWhole", "a number is no whole one of 64 bits") \
    FAULT(NESTED_CLASS, 17, "NestedClass", "an object is in an array inside an array") \
    FAULT(TOO_DEEP, 18, "TooDeep", "a member is too deep") \
    FAULT(TOO_MANY_LINES, 19, "TooManyLines", "an Incident has too many lines") \
    FAULT(BAD_MARKING, 20, "BadMarking", "a class breaks the marking rule") \
    FAULT(NO_INCIDENT, 21, "NoIncident", "there is no Incident at that place") \
    FAULT(NO_CLASS, 22, "NoClass", "there is no class at a path") \
    FAULT(NOTHING_VISIBLE, 23, "NothingVisible", "no class is visible") \
    FAULT(NOT_READABLE, 24, "NotReadable", "the excerpt has too many lines for a report, or is too deep") \
    FAULT(ID_MISSING, 25, "IdMissing", "the IncidentID is withheld, and none is given")

enum {
    IODEF_REDACT_DONE = 0,
#define IODEF_REDACT_FAULT_(NAME, NUMBER, WORD, REASON) IODEF_REDACT_##NAME = NUMBER,
    IODEF_REDACT_FAULTS(IODEF_REDACT_FAULT_)
#undef IODEF_REDACT_FAULT_
    /* from this header: a pointer is NULL that must not be, or a length is above PTRDIFF_MAX */
    IODEF_REDACT_NULL_POINTER = 255
};

/* The name of a fault; "" for 0, and for a number that isn't a fault's. */
static inline const char *iodef_redact_fault_name(uint32_t fault) {
    switch (fault) {
#define IODEF_REDACT_FAULT_(NAME, NUMBER, WORD, REASON) case NUMBER: return WORD;
        IODEF_REDACT_FAULTS(IODEF_REDACT_FAULT_)
#undef IODEF_REDACT_FAULT_
        case IODEF_REDACT_NULL_POINTER: return "NullPointer";
        default: return "";
    }
}

/* Why there is no answer; "" for 0, and for a number that isn't a fault's. */
static inline const char *iodef_redact_fault_reason(uint32_t fault) {
    switch (fault) {
#define IODEF_REDACT_FAULT_(NAME, NUMBER, WORD, REASON) case NUMBER: return REASON;
        IODEF_REDACT_FAULTS(IODEF_REDACT_FAULT_)
#undef IODEF_REDACT_FAULT_
        case IODEF_REDACT_NULL_POINTER: return "a pointer is NULL, or a length is too large";
        default: return "";
    }
}

/* The most stack that a call needs, in bytes. */
#define IODEF_REDACT_STACK (256 * 1024)

/* One of several views of a report: what it is, and what the call tells of it. */
typedef struct {
    const uint8_t *view; /* the view description, and its length */
    size_t view_length;
    size_t needed;  /* told: the length of its answer; 0 on a fault */
    uint32_t fault; /* told: 0 if there is an answer, and otherwise the number of the fault */
} iodef_redact_asked;

/* ---- the library itself ---- */

uint32_t iodef_redact_excerpts_into(const uint8_t *report, size_t report_length, iodef_redact_asked *asked, size_t asked_length,
                                    uint8_t *out, size_t out_length, size_t *needed);
uint32_t iodef_redact_excerpt_into(const uint8_t *report, size_t report_length, const uint8_t *view, size_t view_length,
                                   uint8_t *out, size_t out_length, size_t *needed);
uint32_t iodef_redact_document_into(const uint8_t *report, size_t report_length, const uint8_t *view, size_t view_length,
                                    uint8_t *out, size_t out_length, size_t *needed);
uint32_t iodef_redact_whole_into(const uint8_t *report, size_t report_length, const uint8_t *view, size_t view_length,
                                 uint8_t *out, size_t out_length, size_t *needed);
uint32_t iodef_redact_whole_with_id_into(const uint8_t *report, size_t report_length, const uint8_t *view, size_t view_length,
                                         const uint8_t *name, size_t name_length, const uint8_t *id, size_t id_length,
                                         uint8_t *out, size_t out_length, size_t *needed);
uint32_t iodef_redact_first_fault_into(const uint8_t *report, size_t report_length, const uint8_t *view, size_t view_length,
                                       uint32_t dated, uint8_t *out, size_t out_length, size_t *needed);
uint32_t iodef_redact_finds_into(const uint8_t *report, size_t report_length, const uint8_t *view, size_t view_length,
                                 const uint8_t *text, size_t text_length, uint8_t *out, size_t out_length, size_t *needed);
uint32_t iodef_redact_finds_in_class_into(const uint8_t *report, size_t report_length, const uint8_t *view, size_t view_length,
                                          const uint8_t *text, size_t text_length, const uint8_t *name, size_t name_length,
                                          uint8_t *out, size_t out_length, size_t *needed);
uint32_t iodef_redact_explain_into(const uint8_t *report, size_t report_length, const uint8_t *view, size_t view_length,
                                   const uint8_t *pointer, size_t pointer_length, uint8_t *out, size_t out_length, size_t *needed);
uint32_t iodef_redact_marks_into(const uint8_t *report, size_t report_length, uint32_t incident, uint8_t *out, size_t out_length,
                                 size_t *needed);

/* ---- what to call ---- */

/* Bytes as the library takes them: never NULL. */
typedef struct {
    const uint8_t *start;
    size_t length;
    int is_good;
} iodef_redact_bytes_;

static inline iodef_redact_bytes_ iodef_redact_bytes_of_(const void *start, size_t length) {
    iodef_redact_bytes_ bytes;
    bytes.start = start ? (const uint8_t *)start : (const uint8_t *)"";
    bytes.length = length;
    bytes.is_good = start ? length <= PTRDIFF_MAX : length == 0;
    return bytes;
}

/* The answer's bytes as the library takes them. Nothing is written to the empty text, as its length is 0. */
static inline uint8_t *iodef_redact_start_of_(void *out) {
    return out ? (uint8_t *)out : (uint8_t *)(uintptr_t) "";
}

static inline int iodef_redact_takes_(const void *out, size_t out_length, size_t *needed) {
    if (needed) *needed = 0;
    return needed && (out ? out_length <= PTRDIFF_MAX : out_length == 0);
}

/* What the reader may see of the report, and what is withheld, as a JSON object: {"classes":N,"document":{..},
 * "label":"TLP:GREEN","readable":true,"withheld":[[POINTER,RULE],..]}. `classes` is how many classes the reader may see,
 * `document` the report without the others, `label` the highest label of these classes, `readable` whether the document is a
 * report again, and `withheld` says at which of its places something is withheld, and by which rule. */
static inline uint32_t iodef_redact_excerpt(const void *report, size_t report_length, const void *view, size_t view_length,
                                            void *out, size_t out_length, size_t *needed) {
    iodef_redact_bytes_ r = iodef_redact_bytes_of_(report, report_length), v = iodef_redact_bytes_of_(view, view_length);
    if (!iodef_redact_takes_(out, out_length, needed) || !r.is_good || !v.is_good) return IODEF_REDACT_NULL_POINTER;
    return iodef_redact_excerpt_into(r.start, r.length, v.start, v.length, iodef_redact_start_of_(out), out_length, needed);
}

/* The same for each of several views, of which there are `asked_length`. The report is read once. On 0, `fault` and `needed` of each
 * view are what iodef_redact_excerpt would return and tell, and *needed is the length of all answers together. If out_length is
 * at least that, out begins with the answers, one behind the other in the order of the views.
 *
 * The call itself has a fault if the report has one, whatever faults the views have, or if memory runs out for any of them. On a
 * fault each view has it too. A view that is NULL with length 0 is set to an empty text. */
static inline uint32_t iodef_redact_excerpts(const void *report, size_t report_length, iodef_redact_asked *asked,
                                             size_t asked_length, void *out, size_t out_length, size_t *needed) {
    iodef_redact_bytes_ r = iodef_redact_bytes_of_(report, report_length), v;
    int is_good = iodef_redact_takes_(out, out_length, needed) && r.is_good;
    iodef_redact_asked none;
    size_t at;
    if (asked ? asked_length > PTRDIFF_MAX / sizeof *asked : asked_length != 0) return IODEF_REDACT_NULL_POINTER;
    for (at = 0; at < asked_length; at++) {
        v = iodef_redact_bytes_of_(asked[at].view, asked[at].view_length);
        is_good = is_good && v.is_good;
        if (v.is_good) asked[at].view = v.start;
        asked[at].needed = 0;
        asked[at].fault = IODEF_REDACT_NULL_POINTER;
    }
    if (!is_good) return IODEF_REDACT_NULL_POINTER;
    return iodef_redact_excerpts_into(r.start, r.length, asked ? asked : &none, asked_length, iodef_redact_start_of_(out), out_length,
                                      needed);
}

/* The member `document` of that answer, alone. */
static inline uint32_t iodef_redact_document(const void *report, size_t report_length, const void *view, size_t view_length,
                                             void *out, size_t out_length, size_t *needed) {
    iodef_redact_bytes_ r = iodef_redact_bytes_of_(report, report_length), v = iodef_redact_bytes_of_(view, view_length);
    if (!iodef_redact_takes_(out, out_length, needed) || !r.is_good || !v.is_good) return IODEF_REDACT_NULL_POINTER;
    return iodef_redact_document_into(r.start, r.length, v.start, v.length, iodef_redact_start_of_(out), out_length, needed);
}

/* The same, made a report again: placeholders replace the members that a report must have and that are withheld. The view must
 * have `now`. A withheld IncidentID is the fault IODEF_REDACT_ID_MISSING. */
static inline uint32_t iodef_redact_whole(const void *report, size_t report_length, const void *view, size_t view_length,
                                          void *out, size_t out_length, size_t *needed) {
    iodef_redact_bytes_ r = iodef_redact_bytes_of_(report, report_length), v = iodef_redact_bytes_of_(view, view_length);
    if (!iodef_redact_takes_(out, out_length, needed) || !r.is_good || !v.is_good) return IODEF_REDACT_NULL_POINTER;
    return iodef_redact_whole_into(r.start, r.length, v.start, v.length, iodef_redact_start_of_(out), out_length, needed);
}

/* The same with an IncidentID for the case that the report's is withheld: its name, such as the caller's domain name, and its
 * id, as texts in UTF-8. */
static inline uint32_t iodef_redact_whole_with_id(const void *report, size_t report_length, const void *view, size_t view_length,
                                                  const void *name, size_t name_length, const void *id, size_t id_length,
                                                  void *out, size_t out_length, size_t *needed) {
    iodef_redact_bytes_ r = iodef_redact_bytes_of_(report, report_length), v = iodef_redact_bytes_of_(view, view_length);
    iodef_redact_bytes_ n = iodef_redact_bytes_of_(name, name_length), i = iodef_redact_bytes_of_(id, id_length);
    if (!iodef_redact_takes_(out, out_length, needed) || !r.is_good || !v.is_good || !n.is_good || !i.is_good)
        return IODEF_REDACT_NULL_POINTER;
    return iodef_redact_whole_with_id_into(r.start, r.length, v.start, v.length, n.start, n.length, i.start, i.length,
                                           iodef_redact_start_of_(out), out_length, needed);
}

/* `true` or `false`: whether a class that the reader may see directly holds a text that contains this one. */
static inline uint32_t iodef_redact_finds(const void *report, size_t report_length, const void *view, size_t view_length,
                                          const void *text, size_t text_length, void *out, size_t out_length, size_t *needed) {
    iodef_redact_bytes_ r = iodef_redact_bytes_of_(report, report_length), v = iodef_redact_bytes_of_(view, view_length);
    iodef_redact_bytes_ t = iodef_redact_bytes_of_(text, text_length);
    if (!iodef_redact_takes_(out, out_length, needed) || !r.is_good || !v.is_good || !t.is_good) return IODEF_REDACT_NULL_POINTER;
    return iodef_redact_finds_into(r.start, r.length, v.start, v.length, t.start, t.length, iodef_redact_start_of_(out), out_length,
                                   needed);
}

/* The same for the classes of one name, such as "Address". A class may have an empty name: with NULL or length 0, classes with
 * that name alone are searched. */
static inline uint32_t iodef_redact_finds_in_class(const void *report, size_t report_length, const void *view, size_t view_length,
                                                   const void *text, size_t text_length, const void *name, size_t name_length,
                                                   void *out, size_t out_length, size_t *needed) {
    iodef_redact_bytes_ r = iodef_redact_bytes_of_(report, report_length), v = iodef_redact_bytes_of_(view, view_length);
    iodef_redact_bytes_ t = iodef_redact_bytes_of_(text, text_length), n = iodef_redact_bytes_of_(name, name_length);
    if (!iodef_redact_takes_(out, out_length, needed) || !r.is_good || !v.is_good || !t.is_good || !n.is_good)
        return IODEF_REDACT_NULL_POINTER;
    return iodef_redact_finds_in_class_into(r.start, r.length, v.start, v.length, t.start, t.length, n.start, n.length,
                                            iodef_redact_start_of_(out), out_length, needed);
}

/* Why the reader sees the class at a JSON pointer (RFC 6901), or doesn't: lines, each ended by a newline. */
static inline uint32_t iodef_redact_explain(const void *report, size_t report_length, const void *view, size_t view_length,
                                            const void *pointer, size_t pointer_length, void *out, size_t out_length,
                                            size_t *needed) {
    iodef_redact_bytes_ r = iodef_redact_bytes_of_(report, report_length), v = iodef_redact_bytes_of_(view, view_length);
    iodef_redact_bytes_ p = iodef_redact_bytes_of_(pointer, pointer_length);
    if (!iodef_redact_takes_(out, out_length, needed) || !r.is_good || !v.is_good || !p.is_good) return IODEF_REDACT_NULL_POINTER;
    return iodef_redact_explain_into(r.start, r.length, v.start, v.length, p.start, p.length, iodef_redact_start_of_(out),
                                     out_length, needed);
}

/* For each class of the Incident at a place of the report, from 0, a line with the JSON array of its path, its label, the label's
 * handling, and the path of the class that has that label. */
static inline uint32_t iodef_redact_marks(const void *report, size_t report_length, uint32_t incident, void *out,
                                          size_t out_length, size_t *needed) {
    iodef_redact_bytes_ r = iodef_redact_bytes_of_(report, report_length);
    if (!iodef_redact_takes_(out, out_length, needed) || !r.is_good) return IODEF_REDACT_NULL_POINTER;
    return iodef_redact_marks_into(r.start, r.length, incident, iodef_redact_start_of_(out), out_length, needed);
}

/* The first fault of a view and a report, and its place: the fault's number, a space and a JSON pointer (RFC 6901), such as
 * `6 /case/gates/0/level`. The answer is empty if they have no fault. The pointer leads into the view up to
 * IODEF_REDACT_SOURCE_UNSAID, and for IODEF_REDACT_NO_INCIDENT and IODEF_REDACT_NO_CLASS; else into the report. It is empty if the
 * whole text is at fault. `dated` isn't 0 if the view must have `now`, as for iodef_redact_whole.
 *
 * After a fault of another call, compare its number: a fault of another word, such as the pointer of iodef_redact_explain, has no
 * place. */
static inline uint32_t iodef_redact_first_fault(const void *report, size_t report_length, const void *view, size_t view_length,
                                                uint32_t dated, void *out, size_t out_length, size_t *needed) {
    iodef_redact_bytes_ r = iodef_redact_bytes_of_(report, report_length), v = iodef_redact_bytes_of_(view, view_length);
    if (!iodef_redact_takes_(out, out_length, needed) || !r.is_good || !v.is_good) return IODEF_REDACT_NULL_POINTER;
    return iodef_redact_first_fault_into(r.start, r.length, v.start, v.length, dated, iodef_redact_start_of_(out), out_length,
                                         needed);
}

#ifdef __cplusplus
}
#endif

#endif
