/* A fuzzer of the border: fuzz SECONDS SEED MATCH..
 *
 * Random calls in random order, with bytes, lengths and rooms that are good, damaged or made up. What is handed in stands against a page
 * that nobody may read, and cannot be written; the room that is handed out stands so too. A heap of its own refuses now and then. After
 * each call its status is one of those that the header names for it, what stands is as the header says, and no block is held. */
#include "areas.h"
#include "heap.h"

enum { GAMES = 64, STATES = 256 };
enum { MATCH, FIRST, TURN, DIGEST, COMPARE, ENTITIES, SHOW, RUN, CALLS };

/* The statuses that the header names for each call. */
static const int32_t NAMED[CALLS][16] = {{0, 6, 9, -1}, {0, 6, 9, 100, -1}, {0, 6, 7, 8, 9, 10, 100, -1}, {0, 6, 7, 9, -1},
                                         {0, 1, 6, 7, 9, -1}, {0, 6, 7, 9, 100, -1}, {0, 6, 7, 9, 100, -1},
                                         {0, 1, 2, 6, 7, 8, 9, 10, 11, 12, 13, 14, 100, 106, -1}};

/* What a call can write beside its room. */
struct outs {
    uint64_t written, file_written;
    uint8_t file[1024];
    struct simcore_facts facts;
    uint32_t turn, entity, part;
    uint8_t digest[16];
    struct simcore_fault fault;
};

static struct bytes games[GAMES], states[STATES];
static int games_n, states_n, game_of[STATES];
static long tried[CALLS], seen[128];

/* A command over the files m, s and l, some of which make sense. */
static size_t write_words(char *text) {
    static const char *const WORDS[] = {"play m", "state m # o", "state m # s", "resume m s", "rejoin m #", "show m s", "compare m s s", "sight m # l",
                                        "resight m s l", "log m l", "check m l", "realm m #", "film m #", "parts m", "session m l", "record m l o",
                                        "serve l", "stock m l", "trial # 4 #", "play", "live m 2", "play n", "log m"};
    size_t length = (size_t)sprintf(text, "%s", WORDS[chance(23)]) + 1;
    for (size_t i = 0; i < length; i++) {
        if (text[i] == ' ') text[i] = 0;
        if (text[i] == '#') text[i] = (char)('0' + chance(10));
    }
    return length;
}

/* A file more behind those that are packed. */
static size_t pack(uint8_t *packed, size_t length, const char *name, const uint8_t *content, size_t content_n) {
    size_t lengths[2] = {strlen(name), content_n};
    const void *pieces[2] = {name, content};
    for (int which = 0; which < 2; which++) {
        for (int i = 0; i < 4; i++) packed[length++] = (uint8_t)(lengths[which] >> 8 * i);
        memcpy(packed + length, pieces[which], lengths[which]);
        length += lengths[which];
    }
    return length;
}

static int32_t call(int which, uint8_t *room, size_t items, struct outs *it) {
    struct bytes match = in[0], left = in[1], right = in[2];
    struct simcore_entity *rows = (struct simcore_entity *)(void *)room;
    switch (which) {
    case MATCH: return simcore_match(match.at, match.length, &it->facts, &it->fault);
    case FIRST: return simcore_first(match.at, match.length, room, items, &it->written, it->digest, &it->fault);
    case TURN: return simcore_turn(match.at, match.length, left.at, left.length, right.at, right.length, room, items, &it->written, it->digest, &it->fault);
    case DIGEST: return simcore_digest(match.at, match.length, left.at, left.length, it->digest, &it->turn, &it->fault);
    case COMPARE: return simcore_compare(match.at, match.length, left.at, left.length, right.at, right.length, &it->entity, &it->part, &it->fault);
    case ENTITIES: return simcore_entities(match.at, match.length, left.at, left.length, rows, items, &it->written, &it->fault);
    case SHOW: return simcore_show(match.at, match.length, left.at, left.length, room, items, &it->written, &it->fault);
    default: return simcore_run(match.at, match.length, left.at, left.length, room, items, &it->written, it->file, sizeof it->file, &it->file_written);
    }
}

/* Whether a call has put items into the room. */
static bool has_put(int which, int32_t status) {
    if (which == RUN) return status < SIMCORE_NO_ROOM && status != SIMCORE_NO_MEMORY;
    return status == SIMCORE_OK && (which == FIRST || which == TURN || which == ENTITIES || which == SHOW);
}

static bool tells_digest(int which) { return which == FIRST || which == TURN || which == DIGEST; }

static void check_named(int which, int32_t status) {
    const int32_t *named = NAMED[which];
    while (*named != -1 && *named != status) named++;
    if (*named == -1) fail("a status that the header does not name", which, status);
}

/* Takes back what the header says is written, and looks that all else is as it was. */
static void check_outs(int which, int32_t status, struct outs it) {
    struct outs before;
    memset(&before, FILL, sizeof before);
    if (which != RUN && status >= 6 && status <= 10) it.fault = before.fault;
    if (status == SIMCORE_NO_ROOM || has_put(which, status)) it.written = before.written;
    if (which == RUN && has_put(which, status)) memset(it.file, FILL, it.file_written < 1024 ? it.file_written : 1024);
    if (which == RUN && (status == SIMCORE_NO_ROOM || has_put(which, status))) it.file_written = before.file_written;
    if (status == SIMCORE_OK && tells_digest(which)) memcpy(it.digest, before.digest, 16);
    if (status == SIMCORE_OK && which == DIGEST) it.turn = before.turn;
    if (status == SIMCORE_OK && which == MATCH) it.facts = before.facts;
    if (which == COMPARE && status == SIMCORE_DIFFERS) it.entity = before.entity, it.part = before.part;
    if (memcmp(&it, &before, sizeof it) != 0) fail("something is written that the header does not name", which, status);
}

static void check_fault(int which, int32_t status, struct simcore_fault fault) {
    bool right = true;
    if (status == SIMCORE_NO_MEMORY && !heap_refused) fail("no memory where none was refused", which, status);
    if (which == RUN) return;
    if (status == SIMCORE_MATCH_REFUSED) right = fault.code >= 1 && fault.code <= 10;
    if (status == SIMCORE_STATE_REFUSED) right = fault.code >= 1 && fault.code <= 3 && fault.index <= (which == COMPARE);
    if (status == SIMCORE_LIST_REFUSED) right = fault.code == 0;
    if (status == SIMCORE_NO_MEMORY || status == SIMCORE_NO_TURN) right = !fault.code && !fault.index;
    if (!right) fail("a fault that the header does not name", which, status);
}

static void check_room(int which, int32_t status, const uint8_t *room, size_t length, size_t written, size_t size) {
    size_t used = has_put(which, status) ? written * size : 0;
    if (status == SIMCORE_NO_ROOM && which != RUN && written * size <= length) fail("no room where there is enough", which, status);
    if (used > length) fail("more is written than there is room", which, status);
    for (size_t i = used; i < length; i++)
        if (room[i] != FILL) fail("the room is written behind what is said", which, status);
}

/* Keeps a state that stands for one, so that later calls begin there. */
static void keep(int game, const uint8_t *state, size_t length) {
    int place = states_n < STATES ? states_n++ : (int)chance(STATES);
    free(states[place].at);
    states[place] = copy_of(state, length);
    game_of[place] = game;
}

static void try_one(void) {
    static char orders[4096], words[64];
    static uint8_t packed[3 * MOST_IN];
    int which = chance(3) ? TURN : (int)chance(CALLS), state = (int)chance((uint32_t)states_n), other = (int)chance((uint32_t)states_n);
    int game = chance(20) ? game_of[state] : (int)chance((uint32_t)games_n);
    size_t size = which == ENTITIES ? sizeof(struct simcore_entity) : 1;
    size_t items = chance(3) ? SIMCORE_MOST_ENTITIES : chance(600), length = items * size;
    struct outs it, again;
    bool damaged = true;

    hand_in(0, games[game].at, games[game].length, 8);
    hand_in(1, states[state].at, states[state].length, 6);
    if (which == TURN) hand_in(2, (const uint8_t *)orders, write_orders(orders), 6);
    else hand_in(2, states[other].at, states[other].length, 6);
    if (which == RUN) {
        size_t length = pack(packed, 0, "m", in[0].at, in[0].length);
        length = pack(packed, length, "s", in[1].at, in[1].length);
        length = pack(packed, length, "l", in[2].at, in[2].length);
        hand_in(1, packed, length, 30);
        hand_in(0, (const uint8_t *)words, write_words(words), 20);
    }
    damaged = in[0].length != games[game].length || memcmp(in[0].at, games[game].at, in[0].length) != 0;
    uint8_t *room = areas[3] + MOST_OUT - length;
    memset(room, FILL, length);
    memset(&it, FILL, sizeof it);
    heap_grant(chance(6) ? -1 : (long)chance(250), chance(2));
    int32_t status = call(which, room, items, &it);
    if (heap_held != 0) fail("a block is still held", which, status);
    check_named(which, status);
    check_outs(which, status, it);
    check_fault(which, status, it.fault);
    check_room(which, status, room, length, (size_t)it.written, size);
    tried[which]++, seen[status]++;
    if (status == SIMCORE_OK && (which == FIRST || which == TURN) && !damaged) keep(game, room, (size_t)it.written);
    if (status == SIMCORE_NO_MEMORY || chance(16)) return;
    memset(&again, FILL, sizeof again);
    memset(room, FILL, length);
    heap_grant(-1, false);
    if (call(which, room, items, &again) != status || memcmp(&it, &again, sizeof it) != 0) fail("the same call has another answer", which, status);
}

int main(int argc, char **argv) {
    double seconds = argc > 1 ? strtod(argv[1], NULL) : 10;
    time_t end = time(NULL) + (time_t)seconds;
    word = argc > 2 ? strtoull(argv[2], NULL, 10) : 1;
    make_areas();
    for (int i = 3; i < argc && games_n < GAMES; i++) {
        struct outs it;
        struct bytes game = read_file(argv[i]);
        hand_in(0, game.at, game.length, 1u << 31);
        if (call(FIRST, areas[3], MOST_OUT, &it) == SIMCORE_OK) {
            games[games_n] = game;
            keep(games_n++, areas[3], (size_t)it.written);
        } else free(game.at);
    }
    if (!games_n) fail("no file is a match", -1, 0);
    while (time(NULL) < end)
        for (int i = 0; i < 64; i++) try_one();
    printf("calls:");
    for (int i = 0; i < CALLS; i++) printf(" %ld", tried[i]);
    printf("\nstatuses:");
    for (int i = 0; i < 128; i++)
        if (seen[i]) printf(" %d:%ld", i, seen[i]);
    printf("\nno crash, and no status that the header does not name\n");
    return 0;
}
