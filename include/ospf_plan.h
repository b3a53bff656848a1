/* The planner for OSPF Version 2 (RFC 2328) as a static library, and as a shared one.
 *
 * A call reads the bytes that it is handed, and writes to the room that it is handed, and nothing else: no file, no
 * allocation, no thread, no state between calls. So calls may run side by side, each with memory and rooms of its own.
 *
 * What a call writes is proved to be what the programs ospf-plan, ospf-study and ospf-capture write for the same input;
 * docs/PROOFS.md says what that means. The caller sees to these:
 *
 * - No pointer is NULL, even where its length is 0, and no length is above 2^63 - 1.
 * - What is written to (memory, rooms, report) overlaps nothing else that the call is handed.
 * - memory.start is a multiple of 16, and memory.size too. The memory is the library's during the call, and what it
 *   has afterwards means nothing; it can be handed in again. Where a call ends with OSPF_NO_MEMORY, it needs more:
 *   four times as much, say. 16 MiB do for some hundred routers.
 * - A bool is 0 or 1.
 *
 * A room keeps the bytes after the text that is written to it. Where a room is too small, the call ends with
 * OSPF_NO_ROOM, no text is written, and the report has the lengths that are needed.
 */
#ifndef OSPF_PLAN_H
#define OSPF_PLAN_H

#include <stdbool.h>
#include <stddef.h>
#include <stdint.h>

#ifdef __cplusplus
extern "C" {
#endif

/* How a call ends: 0 to 5 are the statuses of the programs. */
enum {
    OSPF_DONE = 0,         /* the texts are in their rooms */
    OSPF_NOT_ACCEPTED = 1, /* so are they, but a line of the study was refused or failed, or the run has a warning */
    OSPF_NOT_TEXT = 2,     /* the name of a file is not text in UTF-8 */
    OSPF_REFUSED = 3,      /* the dump, the baseline, the names or a file are refused, or the files make no database */
    OSPF_TOO_LARGE = 4,    /* the script, the names or the study have more than 1,048,576 bytes, or a file 536,870,912 */
    OSPF_NO_MEMORY = 5,    /* the memory is used up */
    OSPF_NO_ROOM = 6,      /* a room is too small */
};

/* Memory for a call. */
struct ospf_memory {
    void *start;
    size_t size; /* in bytes */
};

/* ---- scripts, as of ospf-plan */

/* Which texts of a run are wanted. */
struct ospf_plan_wanted {
    bool replies;
    bool dump;    /* the dump that branch 0 is left with */
    bool session; /* the session of branch 0 */
};

/* Lengths are in bytes, and 0 for a text that is not wanted. Where the call ends with another status than OSPF_DONE and
 * OSPF_NO_ROOM, all is 0 but `fault`. */
struct ospf_plan_report {
    size_t replies;
    size_t dump;
    size_t session;
    size_t fault;      /* the length of the line that says why the run ended early; else 0 */
    uint64_t commands; /* the lines with a reply */
    uint64_t refused;  /* those of them that were refused */
};

/* Carries out a script on a dump or on a saved session.
 *
 * Returns OSPF_DONE, OSPF_REFUSED, OSPF_TOO_LARGE, OSPF_NO_MEMORY or OSPF_NO_ROOM. Where the run ended early, its line,
 * as `dump: L4 TrailingBytes at 99`, is written to `fault`, if it fits: 128 bytes always do. */
uint32_t ospf_plan_run(struct ospf_memory memory, const struct ospf_plan_wanted *wanted,
                       const uint8_t *dump, size_t dump_length,
                       const uint8_t *script, size_t script_length,
                       uint8_t *replies, size_t replies_room,
                       uint8_t *out, size_t out_room,
                       uint8_t *session, size_t session_room,
                       uint8_t *fault, size_t fault_room,
                       struct ospf_plan_report *report);

/* ---- studies, as of ospf-study */

/* How a study is carried out: the options of ospf-study. */
struct ospf_study_manner {
    bool has_baseline; /* whether a baseline is given */
    bool keep_going;   /* --keep-going */
    bool verbose;      /* --verbose */
    bool json;         /* --format json */
    bool wants_dump;   /* --out */
};

/* Lengths are in bytes. Where the call ends with another status than OSPF_DONE, OSPF_NOT_ACCEPTED and OSPF_NO_ROOM,
 * all is 0 but `errors`. */
struct ospf_study_report {
    size_t replies;
    size_t errors;
    size_t dump;           /* 0 where it is not wanted, and where a line was not accepted */
    uint64_t lines;        /* the lines with an answer */
    uint64_t refused;      /* those that were refused */
    uint64_t expectations; /* the expectations that were neither faulty nor refused */
    uint64_t failed;       /* those of them that failed */
};

/* Carries out a study on a dump or on a saved session. Without a baseline its length is 0, and without a names file the
 * length of that. The study is called `-`, as standard input.
 *
 * Returns any status. `replies` gets what ospf-study writes to standard output, `errors` what it writes to standard
 * error, and `left` the dump of --out. Where the run ended early, `errors` gets the line that says why, if it fits. */
uint32_t ospf_study_run(struct ospf_memory memory, const struct ospf_study_manner *manner,
                        const uint8_t *dump, size_t dump_length,
                        const uint8_t *baseline, size_t baseline_length,
                        const uint8_t *names, size_t names_length,
                        const uint8_t *study, size_t study_length,
                        uint8_t *replies, size_t replies_room,
                        uint8_t *errors, size_t errors_room,
                        uint8_t *left, size_t left_room,
                        struct ospf_study_report *report);

/* ---- captures, as of ospf-capture */

/* A file: a packet capture, an SNMP walk, a printed database or a list. The name, in UTF-8 and without a NUL at its end,
 * stands before each line about the file. */
struct ospf_capture_file {
    const char *name;
    size_t name_length; /* in bytes */
    const uint8_t *bytes;
    size_t length;
};

/* How a run is made: the options of ospf-capture. */
struct ospf_capture_manner {
    bool keep_flushed; /* --keep-flushed */
};

/* Lengths are in bytes. Where the call ends with another status than OSPF_DONE, OSPF_NOT_ACCEPTED and OSPF_NO_ROOM, all
 * is 0 but `warnings`. */
struct ospf_capture_report {
    size_t output;
    size_t contents; /* of the output, the lines of what each file contains, which come first */
    size_t warnings; /* where the run ended early, the length of the line that says why */
    size_t dump;
};

/* Makes the dump of a network's files, and compares it with the lists of --against.
 *
 * Returns OSPF_DONE where there is no warning, OSPF_NOT_ACCEPTED where there is one, and any other status. `output` gets
 * what ospf-capture writes to standard output: the lines of what each file contains, and those of notices. `warnings` gets
 * what it writes to standard error, and `dump` the dump of --out. Where the run ended early, `warnings` gets the line that
 * says why, if it fits; with OSPF_NOT_TEXT there is none. */
uint32_t ospf_capture_run(struct ospf_memory memory, const struct ospf_capture_manner *manner,
                          const struct ospf_capture_file *files, size_t file_count,
                          const struct ospf_capture_file *lists, size_t list_count,
                          uint8_t *output, size_t output_room,
                          uint8_t *warnings, size_t warnings_room,
                          uint8_t *dump, size_t dump_room,
                          struct ospf_capture_report *report);

#ifdef __cplusplus
}
#endif

#endif
