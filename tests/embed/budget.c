/* Each allocation of each call fails in its turn, alone or with all behind it: the call answers that there is no memory, has written
 * nothing but the fault, and has given all back. A command of the program may do without what it would only keep: it ends as with ample
 * memory then. With a number, each such allocation alone. It is C99 and C++ alike. */
#include <simcore.h>
#include <stdio.h>
#include <string.h>

#include "heap.h"

static const char MATCH[] =
    "{\"size\":[8,8],\"closed\":[[1,1,2,2]],\"players\":[[2],[1]],\"cap\":9,\"delay\":1,\"turns\":2,\"seed\":0,\"templates\":["
    "{\"@name\":\"post\",\"Health\":{\"Max\":9}},"
    "{\"@name\":\"walker\",\"@parent\":\"post\",\"Motion\":{\"Speed\":10},"
    "\"Attack\":{\"Hack\":2,\"Range\":2,\"Vision\":9,\"Repeat\":1}}],"
    "\"entities\":[[\"walker\",1,\"4.5\",\"2.5\"],[\"walker\",2,\"5.5\",\"2.5\"],[\"walker\",1,\"7.5\",\"7.5\"]],\"commands\":[]}";
static const char LIST[] =
    "{\"clients\":2,\"steps\":[[\"order\",1,\"walk\",[2],\"6.5\",\"2.5\"],[\"up\",1],[\"up\",1],[\"up\",2],[\"down\",1],[\"play\",1],[\"play\",2]]}";
static const char ORDERS[] = "[[1,\"walk\",[2,4],\"6.5\",\"6.5\"],[2,\"attack\",[3],2],[1,\"delete\",[4]]]";

/* Behind simcore_run's name the words, each with a 0 behind it. */
static const char *const COMMANDS[] = {"state\0m\0" "1\0s", "session\0m\0l", "film\0m\0" "1"};
static const size_t COMMAND_LENGTHS[] = {12, 12, 9};

/* All that a call can write. */
struct outs {
    uint8_t bytes[4096], file[4096];
    struct simcore_entity rows[8];
    uint64_t written, file_written;
    struct simcore_facts facts;
    uint32_t turn, entity, part;
    uint8_t digest[16];
    struct simcore_fault fault;
};

enum { RUN = 7, CALLS_N = 10 };
static const char *const CALLS[CALLS_N] = {"match", "first", "turn", "digest", "compare", "entities", "show", "state", "session", "film"};
static uint8_t first[4096], second[4096], files[4096];
static uint64_t first_n, second_n;
static size_t files_n;
static long stride = 1;

/* Adds bytes behind their length to the files of simcore_run. */
static void add_piece(const char *text) {
    size_t i, n = strlen(text);
    for (i = 0; i < 4; i++) files[files_n++] = (uint8_t)(n >> 8 * i);
    memcpy(files + files_n, text, n);
    files_n += n;
}

static int32_t call(int which, struct outs *it) {
    const uint8_t *match = (const uint8_t *)MATCH;
    size_t n = strlen(MATCH);
    switch (which) {
    case 0: return simcore_match(match, n, &it->facts, &it->fault);
    case 1: return simcore_first(match, n, it->bytes, sizeof it->bytes, &it->written, it->digest, &it->fault);
    case 2: return simcore_turn(match, n, first, (size_t)first_n, (const uint8_t *)ORDERS, strlen(ORDERS), it->bytes, sizeof it->bytes, &it->written,
                                it->digest, &it->fault);
    case 3: return simcore_digest(match, n, first, (size_t)first_n, it->digest, &it->turn, &it->fault);
    case 4: return simcore_compare(match, n, first, (size_t)first_n, second, (size_t)second_n, &it->entity, &it->part, &it->fault);
    case 5: return simcore_entities(match, n, first, (size_t)first_n, it->rows, 8, &it->written, &it->fault);
    case 6: return simcore_show(match, n, first, (size_t)first_n, it->bytes, sizeof it->bytes, &it->written, &it->fault);
    default: return simcore_run((const uint8_t *)COMMANDS[which - RUN], COMMAND_LENGTHS[which - RUN], files, files_n, it->bytes, sizeof it->bytes,
                                &it->written, it->file, sizeof it->file, &it->file_written);
    }
}

/* How many allocations a call makes, each of which was refused; or -1. */
static long refuse_each(int which, bool stays_empty) {
    int32_t wanted = which == 4 ? SIMCORE_DIFFERS : SIMCORE_OK;
    struct outs before, it, ample;
    long granted;

    memset(&before, 5, sizeof before);
    ample = before;
    heap_grant(-1, false);
    if (call(which, &ample) != wanted) return -1;
    for (granted = 0;; granted += stride) {
        it = before;
        heap_grant(granted, stays_empty);
        int32_t status = call(which, &it);
        if (heap_held != 0) return -1;
        if (!heap_refused) return status == wanted ? granted : -1;
        if (which >= RUN && status == wanted && memcmp(&it, &ample, sizeof it) == 0) continue;
        if (status != SIMCORE_NO_MEMORY || (which < RUN && (it.fault.code || it.fault.index))) return -1;
        it.fault = before.fault;
        if (memcmp(&it, &before, sizeof it) != 0) return -1;
    }
}

int main(int argc, char **argv) {
    struct simcore_fault fault = {0, 0};
    uint8_t digest[16];
    const uint8_t *match = (const uint8_t *)MATCH;
    int which, failed = 0;

    if (argc > 1) stride = strtol(argv[1], NULL, 10);
    if (simcore_first(match, strlen(MATCH), first, sizeof first, &first_n, digest, &fault) != SIMCORE_OK) return 1;
    if (simcore_turn(match, strlen(MATCH), first, (size_t)first_n, (const uint8_t *)ORDERS, strlen(ORDERS), second, sizeof second, &second_n, digest,
                     &fault) != SIMCORE_OK) return 1;
    add_piece("m"), add_piece(MATCH), add_piece("l"), add_piece(LIST);
    for (which = 0; which < CALLS_N; which++) {
        long alone = refuse_each(which, false), all = refuse_each(which, true);
        printf("%s: %ld allocations\n", CALLS[which], alone);
        failed |= alone < 3 || all != alone;
    }
    return failed;
}
