/* Each call once, with ample room, with too little, and with bytes that are none; the layout of the records; the stack that a call takes;
 * and the words and the files of a command, packed well and badly. It is C99 and C++ alike. */
#include <pthread.h>
#include <simcore.h>
#include <stdio.h>
#include <string.h>

static const char MATCH[] =
    "{\"size\":[8,8],\"closed\":[],\"players\":[[]],\"cap\":0,\"delay\":1,\"turns\":2,\"seed\":0,"
    "\"templates\":[{\"@name\":\"walker\",\"Motion\":{\"Speed\":10}}],\"entities\":[[\"walker\",1,\"2.5\",\"2.5\"]],\"commands\":[]}";

static const uint8_t *bytes(const char *text) { return (const uint8_t *)text; }

static int failed;

static void want(int holds, const char *what) {
    if (!holds) {
        printf("failed: %s\n", what);
        failed = 1;
    }
}

/* The deepest JSON that is read, 127 lists within one another, on a thread of 256 KB. */
static void *go_deep(void *answer) {
    uint8_t deep[254];
    struct simcore_facts facts;
    struct simcore_fault fault = {0, 0};
    memset(deep, '[', 127);
    memset(deep + 127, ']', 127);
    *(int *)answer = simcore_match(deep, sizeof deep, &facts, &fault) == SIMCORE_MATCH_REFUSED && fault.code == 2;
    return NULL;
}

static void try_stack(void) {
    int answer = 0;
    pthread_t thread;
    pthread_attr_t how;
    want(pthread_attr_init(&how) == 0 && pthread_attr_setstacksize(&how, 256 * 1024) == 0, "a thread of 256 KB");
    want(pthread_create(&thread, &how, go_deep, &answer) == 0 && pthread_join(thread, NULL) == 0 && answer, "deep JSON on 256 KB of stack");
}

/* What a command comes to. */
struct ran {
    int32_t status;
    uint8_t text[2048], out[256];
    uint64_t text_n, out_n;
};

static uint8_t files[2048];
static size_t files_n;

/* A file more, as simcore_run takes it. */
static void add_file(const char *name, const char *content) {
    const char *pieces[2];
    int which, i;
    pieces[0] = name, pieces[1] = content;
    for (which = 0; which < 2; which++) {
        size_t n = strlen(pieces[which]);
        for (i = 0; i < 4; i++) files[files_n++] = (uint8_t)(n >> 8 * i);
        memcpy(files + files_n, pieces[which], n);
        files_n += n;
    }
}

static struct ran run_in(const char *words, size_t words_n, size_t text_room, size_t out_room) {
    struct ran ran;
    memset(&ran, 5, sizeof ran);
    ran.status = simcore_run(bytes(words), words_n, files, files_n, ran.text, text_room, &ran.text_n, ran.out, out_room, &ran.out_n);
    return ran;
}

static struct ran run(const char *words, size_t words_n) { return run_in(words, words_n, 2048, 256); }

/* Whether nothing was written but what the two lengths are. */
static int is_blank(const struct ran *ran) {
    size_t i;
    for (i = 0; i < sizeof ran->text; i++)
        if (ran->text[i] != 5) return 0;
    for (i = 0; i < sizeof ran->out; i++)
        if (ran->out[i] != 5) return 0;
    return 1;
}

static int says(const struct ran *ran, const char *text) { return ran->text_n == strlen(text) && memcmp(ran->text, text, strlen(text)) == 0; }

/* Commands over files in memory; `first` is the first state of the match. */
static void try_run(const uint8_t *first, size_t first_n) {
    struct ran ran, less;
    files_n = 0;
    add_file("m", "{}"), add_file("", "x"), add_file("m", MATCH), add_file("s", "old");
    ran = run("state\0m\0" "0\0s", 12);
    want(ran.status == SIMCORE_OK && ran.text_n > 40 && memcmp(ran.text, "state 0 ", 8) == 0 && ran.text[ran.text_n] == 5, "state, of the last file m");
    want(ran.out_n == first_n && memcmp(ran.out, first, first_n) == 0 && ran.out[first_n] == 5, "what state stores is the first state");
    less = run_in("state\0m\0" "0\0s", 12, (size_t)ran.text_n, (size_t)ran.out_n);
    want(memcmp(&less, &ran, sizeof ran) == 0, "just enough room");
    less = run_in("state\0m\0" "0\0s", 12, (size_t)ran.text_n - 1, 256);
    want(less.status == SIMCORE_NO_ROOM && less.text_n == ran.text_n && less.out_n == ran.out_n && is_blank(&less), "no room for the text");
    less = run_in("state\0m\0" "0\0s", 12, 2048, (size_t)ran.out_n - 1);
    want(less.status == SIMCORE_NO_ROOM && less.text_n == ran.text_n && less.out_n == ran.out_n && is_blank(&less), "no room for the file");
    ran = run("state\0m\0" "9\0s", 12);
    want(ran.status == SIMCORE_NO_TURN && says(&ran, "no turn 9 of 2\n") && ran.out_n == 3 && memcmp(ran.out, "old", 3) == 0, "what is not stored stays");
    ran = run("play\0", 6);
    want(ran.status == SIMCORE_MATCH_REFUSED && says(&ran, "match refused 1 0\n") && ran.out_n == 0, "a file without a name");
    ran = run("play\0n", 7);
    want(ran.status == SIMCORE_NO_FILE && ran.text_n == 0 && ran.out_n == 0 && is_blank(&ran), "no such file");
    less = run("", 0);
    want(less.status == SIMCORE_USAGE && less.text_n > 100 && memcmp(less.text, "usage", 5) == 0, "no words");
    ran = run("play\0m", 6);
    want(memcmp(&ran, &less, sizeof ran) == 0, "a word without an end");
    ran = run("play\0\xff", 7);
    want(memcmp(&ran, &less, sizeof ran) == 0, "a word that is not UTF-8");
    ran = run("play\0m\0", 8);
    want(memcmp(&ran, &less, sizeof ran) == 0, "an empty word more");
    files_n--;
    ran = run("play\0m", 7);
    want(ran.status == SIMCORE_FILES_REFUSED && is_blank(&ran), "bytes that are no files");
    want(ran.text_n == 0x0505050505050505u && ran.out_n == ran.text_n, "they write no lengths either");
    files_n = 0;
    add_file("\xff", "x");
    want(run("play\0m", 7).status == SIMCORE_FILES_REFUSED, "a name that is not UTF-8");
    want(strcmp(simcore_status_text(SIMCORE_FILES_REFUSED), "files refused") == 0, "its status in words");
}

int main(void) {
    uint8_t first[256], next[256], digest[16] = {0}, again[16] = {0};
    uint64_t length = 0, written = 0;
    uint32_t turn = 7, entity = 0, part = 0;
    struct simcore_facts facts;
    struct simcore_entity row;
    struct simcore_fault fault = {99, 99};
    size_t n = strlen(MATCH);
    const char *walk = "[[1,\"walk\",[2],\"6.5\",\"2.5\"]]";

    memset(&facts, 0, sizeof facts);
    want(sizeof facts == 36 && sizeof row == 44 && sizeof fault == 8, "records have no gaps");
    want(simcore_version() == SIMCORE_VERSION && simcore_fits(), "version");
    want(strcmp(simcore_status_text(SIMCORE_NO_ROOM), "no room") == 0, "a status in words");
    try_stack();
    want(simcore_match(bytes(MATCH), n, &facts, &fault) == SIMCORE_OK && facts.width == 8 && facts.turns == 2 && facts.entities == 1, "match");
    want(fault.code == 99, "a call with an answer leaves the fault");
    want(simcore_match(bytes("{}"), 2, &facts, &fault) == SIMCORE_MATCH_REFUSED && fault.code == 2 && facts.width == 8, "match refused");
    want(simcore_match(bytes(""), 0, &facts, &fault) == SIMCORE_MATCH_REFUSED && fault.code == 1, "no match");

    want(simcore_first(bytes(MATCH), n, first, sizeof first, &length, digest, &fault) == SIMCORE_OK && length > 40, "first");
    try_run(first, (size_t)length);
    memset(next, 5, sizeof next);
    want(simcore_first(bytes(MATCH), n, next, (size_t)length - 1, &written, again, &fault) == SIMCORE_NO_ROOM, "no room");
    want(written == length && next[0] == 5 && again[0] == 0, "no room writes nothing but the length");

    want(simcore_turn(bytes(MATCH), n, first, (size_t)length, bytes(walk), strlen(walk), next, sizeof next, &written, again, &fault) == SIMCORE_OK,
         "turn");
    want(simcore_compare(bytes(MATCH), n, first, (size_t)length, first, (size_t)length, &entity, &part, &fault) == SIMCORE_OK && entity == 0, "same");
    want(simcore_compare(bytes(MATCH), n, first, (size_t)length, next, (size_t)written, &entity, &part, &fault) == SIMCORE_DIFFERS, "differs");
    want(entity == 1 && part == 0, "the clock differs");
    want(simcore_digest(bytes(MATCH), n, next, (size_t)written, digest, &turn, &fault) == SIMCORE_OK, "digest");
    want(turn == 1 && memcmp(digest, again, 16) == 0, "the digest is that of the turn");
    want(simcore_entities(bytes(MATCH), n, next, (size_t)written, &row, 1, &length, &fault) == SIMCORE_OK && length == 1, "entities");
    want(row.id == 2 && row.owner == 1 && row.going == 1 && row.goal_x == 425984 && row.goal_z == 163840 && row.x > 163840, "the walker walks");
    want(simcore_entities(bytes(MATCH), n, next, (size_t)written, &row, 0, &length, &fault) == SIMCORE_NO_ROOM && length == 1, "no room for rows");

    want(simcore_turn(bytes(MATCH), n, bytes(""), 0, bytes("[]"), 2, next, sizeof next, &written, again, &fault) == SIMCORE_STATE_REFUSED, "no state");
    want(simcore_digest(bytes("{}"), 2, first, 8, digest, &turn, &fault) == SIMCORE_MATCH_REFUSED, "digest of no match");
    memset(first, 0, sizeof first);
    want(simcore_show(bytes(MATCH), n, first, sizeof first, next, sizeof next, &written, &fault) == SIMCORE_STATE_REFUSED && fault.code == 1, "no show");
    want(simcore_first(bytes(MATCH), n, first, sizeof first, &length, digest, &fault) == SIMCORE_OK, "first again");
    want(simcore_turn(bytes(MATCH), n, first, (size_t)length, bytes("[[1,\"stop\",[2]],[2,\"resign\"]]"), 29, next, sizeof next, &written, again,
                      &fault) == SIMCORE_LIST_REFUSED && fault.index == 2, "a command of nobody");
    want(simcore_turn(bytes(MATCH), n, first, (size_t)length, bytes("{}"), 2, next, sizeof next, &written, again, &fault) == SIMCORE_LIST_REFUSED
         && fault.index == 0, "no list");
    for (turn = 0; turn < 2; turn++) {
        want(simcore_turn(bytes(MATCH), n, first, (size_t)length, bytes("[]"), 2, next, sizeof next, &written, again, &fault) == SIMCORE_OK, "on");
        memcpy(first, next, (size_t)written);
        length = written;
    }
    want(simcore_turn(bytes(MATCH), n, first, (size_t)length, bytes("[]"), 2, next, sizeof next, &written, again, &fault) == SIMCORE_NO_TURN, "over");
    want(simcore_turn(bytes(MATCH), n, first, (size_t)length, bytes("{}"), 2, next, sizeof next, &written, again, &fault) == SIMCORE_NO_TURN
         && fault.index == 0, "over, whatever the commands");
    printf("%s\n", failed ? "failed" : "all calls answer as they should");
    return failed;
}
