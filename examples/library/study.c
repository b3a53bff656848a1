/* Carries out a study with the library, and prints what ospf-study prints:
 *
 *     cc -Iinclude -o study examples/library/study.c libospf_plan_c.a
 *     ./study examples/two-areas.oswp examples/hosts examples/maintenance.study
 *
 * The status is 0 where every line was accepted, 1 where one was not, and that of ospf-study where the run ended early. */
#include "ospf_plan.h"

#include <stdio.h>
#include <stdlib.h>

/* The bytes of a file. */
struct text {
    uint8_t *bytes;
    size_t length;
};

static struct text read_file(const char *path)
{
    struct text text = {NULL, 0};
    FILE *file = fopen(path, "rb");
    if (file == NULL || fseek(file, 0, SEEK_END) != 0) {
        perror(path);
        exit(4);
    }
    long length = ftell(file);
    rewind(file);
    text.bytes = malloc((size_t)length + 1);
    text.length = text.bytes == NULL ? 0 : fread(text.bytes, 1, (size_t)length, file);
    fclose(file);
    if (text.bytes == NULL || text.length != (size_t)length) {
        fprintf(stderr, "%s cannot be read\n", path);
        exit(4);
    }
    return text;
}

int main(int count, char **words)
{
    if (count != 4) {
        fprintf(stderr, "usage: %s DUMP NAMES STUDY\n", words[0]);
        return 2;
    }
    struct text dump = read_file(words[1]), names = read_file(words[2]), study = read_file(words[3]);
    struct ospf_study_manner manner = {.has_baseline = false};
    struct ospf_study_report report;
    size_t memory = (size_t)1 << 24, room = 65536;
    for (;;) {
        struct ospf_memory block = {aligned_alloc(16, memory), memory};
        uint8_t *replies = malloc(room), *errors = malloc(room), nothing[1];
        if (block.start == NULL || replies == NULL || errors == NULL) {
            return OSPF_NO_MEMORY;
        }
        uint32_t status = ospf_study_run(block, &manner, dump.bytes, dump.length, nothing, 0, names.bytes, names.length,
                                         study.bytes, study.length, replies, room, errors, room, nothing, 0, &report);
        free(block.start);
        if (status == OSPF_NO_ROOM) {
            room = report.replies > report.errors ? report.replies : report.errors;
        } else if (status == OSPF_NO_MEMORY && memory < (size_t)1 << 33) {
            memory *= 4;
        } else {
            fwrite(replies, 1, report.replies, stdout);
            fwrite(errors, 1, report.errors, stderr);
            return (int)status;
        }
        free(replies);
        free(errors);
    }
}
