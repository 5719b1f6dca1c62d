/* A fuzzer of level two: held_fuzz SECONDS SEED MATCH..
 *
 * A server, its clients and a game of a match, and random calls of them in random order: with frames that came of the others, commands and
 * states, with bytes that are damaged or made up, on handles that are open, closed or of another kind, with rooms of any size, and with a
 * heap that refuses now and then. Each handle has a twin to which the same is done with ample memory; where memory was refused, it is done
 * what the header says that stands: nothing, or for a step of a client a cut. After each call both look the same. At the end of a match
 * all is closed, and no block is held. What is handed in and out stands against pages that nobody may touch. */
#include "areas.h"
#include "heap.h"
#include "held.h"

enum { HANDLES = 7, CLIENTS = 4, FRAMES = 48, CALLS_OF_A_MATCH = 800 };

static struct simcore_handle handles[HANDLES], twins[HANDLES];
static struct bytes games[64], frames[FRAMES], state;
static int games_n;
static uint8_t *rooms[2];
static const uint8_t *put;
static bool ample;
/* One call in so many is refused memory, or is any call, or has damaged bytes: a match is wild or calm. */
static uint32_t spare;
static long tried[HELD_CALLS], answered[128], turns;
static const uint8_t *match;
static size_t match_n;

static void keep(struct bytes *place, const uint8_t *at, size_t length) {
    free(place->at);
    *place = copy_of(at, length);
}

/* Keeps the frames that were taken, some of them over others. */
static void keep_frames(const uint8_t *said, uint64_t written) {
    for (uint64_t at = 0, length; at < written; at += length) {
        length = simcore_frame_length(said + at, (size_t)(written - at));
        if (length < 5 || at + length > written) fail("what was taken is no frames", 0, 0);
        if (length < 1 << 16) keep(&frames[chance(FRAMES)], said + at, (size_t)length);
    }
}

/* Does to the twin what was done, or what the header says that stands. */
static void follow(int which, int place, int32_t status, const struct handed *given, const struct answer *it, size_t items, size_t length,
                   const struct answer *blank) {
    struct answer again = *blank;
    memset(rooms[1] + MOST_OUT - length, FILL, length);
    if (status == SIMCORE_NO_MEMORY) {
        if (which >= JOIN && which <= PLAY) simcore_client_cut(&twins[place]);
        return;
    }
    if (held_call(which, &twins[place], given, rooms[1] + MOST_OUT - length, items, &again) != status) fail("the twin has another status", which, status);
    if (memcmp(it, &again, sizeof again) != 0) fail("the twin has another answer", which, status);
    if (memcmp(rooms[0] + MOST_OUT - length, rooms[1] + MOST_OUT - length, length) != 0) fail("the twin has another room", which, status);
}

/* Makes a call, follows it with the twin, and looks at all. */
static int32_t make(int which, int place, const struct handed *given, size_t items, struct answer *it) {
    struct seen before = held_seen(&handles[place]), after, twin;
    struct answer blank;
    size_t length = items * (which == ENTITIES ? sizeof(struct simcore_entity) : 1);
    uint8_t *room = rooms[0] + MOST_OUT - length;
    memset(&blank, FILL, sizeof blank);
    memset(room, FILL, length);
    *it = blank;
    heap_grant(ample || chance(spare) ? -1 : (long)chance(chance(2) ? 12 : 160), chance(2));
    put = room;
    int32_t status = held_call(which, &handles[place], given, room, items, it);
    bool refused = heap_refused;
    heap_grant(-1, false);
    after = held_seen(&handles[place]);
    if (!held_wrote_right(which, status, *it, &blank)) fail("a status or a number that the header does not name", which, status);
    if (status == SIMCORE_NO_MEMORY && !refused) fail("no memory where none was refused", which, status);
    if (status != SIMCORE_OK && !held_stands_right(which, status, &before, &after)) fail("what stands is not what the header says", which, status);
    if (which == PLAY && status == SIMCORE_OK && (after.turn != before.turn + it->count || it->count > given->number)) fail("other turns", which, status);
    if (which == PLAY && status == SIMCORE_OK) turns += it->count;
    size_t used = held_has_room(which) && status == SIMCORE_OK ? (size_t)it->written * (length / (items ? items : 1)) : 0;
    if (used > length) fail("more is written than there is room", which, status);
    for (size_t i = used; i < length; i++)
        if (room[i] != FILL) fail("the room is written behind what is said", which, status);
    follow(which, place, status, given, it, items, length, &blank);
    twin = held_seen(&twins[place]);
    if (!held_is_same(&after, &twin)) fail("the twin stands elsewhere", which, status);
    if ((which == CLIENT_TAKE || which == SERVER_TAKE) && status == SIMCORE_OK) keep_frames(room, it->written);
    if (which == STATE && status == SIMCORE_OK && it->written < 1 << 16) keep(&state, room, (size_t)it->written);
    tried[which]++, answered[status]++;
    return status;
}

/* A call with bytes that are handed in, one time in so many damaged. */
static int32_t try_bytes(int which, int place, uint32_t number, const uint8_t *bytes, size_t length, uint32_t good, struct answer *it) {
    struct handed given;
    size_t items = which == ENTITIES ? chance(40) : chance(5) ? 1 << 14 : chance(300);
    if (held_opens(which)) hand_in(0, match, match_n, 12);
    hand_in(1, bytes, length, good);
    given.match = in[0].at, given.match_n = in[0].length, given.bytes = in[1].at, given.bytes_n = in[1].length;
    given.number = number, given.begins = chance(3);
    return make(which, place, &given, items, it);
}

/* All that a client says goes to the server, or all that waits for it there to the client, which then may play. One that is off may join. */
static void carry(int client, bool up) {
    static uint8_t said[1 << 14];
    struct answer it;
    if (held_seen(&handles[client]).standing.stage == SIMCORE_OFF) try_bytes(JOIN, client, 0, match, 0, 1u << 31, &it);
    if (try_bytes(up ? CLIENT_TAKE : SERVER_TAKE, up ? client : 0, (uint32_t)client, match, 0, 1u << 31, &it) != SIMCORE_OK) return;
    size_t written = (size_t)it.written;
    memcpy(said, put, written);
    for (size_t at = 0, length; at < written; at += length) {
        length = (size_t)simcore_frame_length(said + at, written - at);
        try_bytes(up ? SERVER_HEAR : CLIENT_HEAR, up ? 0 : client, (uint32_t)client, said + at, length, 40 * spare, &it);
    }
    if (!up) try_bytes(PLAY, client, 1 + chance(3), match, 0, 1u << 31, &it);
}

/* One call, which makes sense for the handle most of the time. */
static void try_any(void) {
    static const int OF_CLIENT[] = {ORDER, ORDER, CLIENT_HEAR, PLAY, PLAY, PLAY, JOIN, STANDING, STATE, SHOW, ENTITIES, DIGEST};
    static const int OF_SERVER[] = {SERVER_HEAR, SERVER_HEAR, SERVER_TAKE, RELEASED}, OF_GAME[] = {GAME_PLAY, GAME_PLAY, PLAY_OWN, STATE, SHOW, ENTITIES};
    static char text[1024];
    int place = (int)chance(HANDLES), which = (int)chance(HELD_CALLS);
    struct answer it;
    if (chance(spare)) which = place == 0 ? OF_SERVER[chance(4)] : place <= CLIENTS ? OF_CLIENT[chance(12)] : OF_GAME[chance(6)];
    else if ((which == CLOSE || which == CLIENT_CUT || which == SERVER_CUT) && chance(3)) return;
    uint32_t number = chance(20) ? chance(6) : chance(2) ? 254 + chance(5) : chance(1u << 31) * 2;
    const struct bytes *frame = &frames[chance(FRAMES)];
    if ((which == SERVER_HEAR || which == CLIENT_HEAR) && chance(spare)) return;
    if (which == ORDER) try_bytes(which, place, number, (const uint8_t *)text, (size_t)(write_rest(text + sprintf(text, "[")) - text), 8, &it);
    else if (which == GAME_PLAY) try_bytes(which, place, number, (const uint8_t *)text, write_orders(text), 8, &it);
    else if (which == GAME_LOAD) try_bytes(which, place, number, state.at, state.length, 4, &it);
    else try_bytes(which, place, number, frame->at, frame->length, 6, &it);
}

/* A server, clients and a game are opened, and one handle is left closed. */
static void open_all(uint32_t players) {
    uint32_t active = chance(4) ? players : chance(CLIENTS + 2);
    for (int i = 0; i < HANDLES - 1; i++) {
        struct answer it;
        struct handed given;
        given.match = match, given.match_n = match_n, given.bytes = match, given.bytes_n = 0;
        given.number = i == 0 ? active : (uint32_t)i, given.begins = (uint32_t)i <= active;
        ample = chance(10);
        make(i == 0 ? SERVER_OPEN : i <= CLIENTS ? CLIENT_OPEN : GAME_OPEN, i, &given, 0, &it);
        ample = false;
    }
}

static void close_all(void) {
    for (int i = 0; i < HANDLES; i++) {
        int place = (int)(((uint32_t)i * 3 + 1) % HANDLES);
        if (simcore_close(&handles[place]) != simcore_close(&twins[place])) fail("a twin is not closed", CLOSE, 0);
        if (handles[place].held || twins[place].held) fail("a handle is not closed", CLOSE, 0);
    }
    if (heap_held != 0) fail("a block is still held", CLOSE, 0);
}

static void try_match(time_t end) {
    const struct bytes *game = &games[chance((uint32_t)games_n)];
    struct simcore_facts facts;
    struct simcore_fault fault;
    match = game->at, match_n = game->length;
    if (simcore_match(match, match_n, &facts, &fault) != SIMCORE_OK) fail("a match is none", -1, 0);
    spare = chance(2) ? 400 : 25;
    open_all(facts.players);
    for (int i = 0; i < CALLS_OF_A_MATCH && time(NULL) < end; i++) {
        if (chance(2)) try_any();
        else carry(1 + (int)chance(facts.players < CLIENTS ? facts.players : CLIENTS), chance(2));
    }
    close_all();
}

int main(int argc, char **argv) {
    time_t end = time(NULL) + (time_t)(argc > 1 ? strtod(argv[1], NULL) : 10);
    word = argc > 2 ? strtoull(argv[2], NULL, 10) : 1;
    make_areas();
    rooms[0] = areas[3], rooms[1] = new_area(MOST_OUT);
    for (int i = 0; i < FRAMES; i++) frames[i] = copy_of((const uint8_t *)"\1\0\0\0\1", 5);
    state = copy_of((const uint8_t *)"RSIM", 4);
    for (int i = 3; i < argc && games_n < 64; i++) {
        struct simcore_fault fault;
        struct bytes game = read_file(argv[i]);
        if (simcore_game_open(&handles[0], game.at, game.length, &fault) == SIMCORE_OK) games[games_n++] = game;
        simcore_close(&handles[0]);
    }
    if (!games_n) fail("no file is a match", -1, 0);
    while (time(NULL) < end) try_match(end);
    printf("calls:");
    for (int i = 0; i < HELD_CALLS; i++) printf(" %s:%ld", HELD_NAMES[i], tried[i]);
    printf("\nstatuses:");
    for (int i = 0; i < 128; i++)
        if (answered[i]) printf(" %d:%ld", i, answered[i]);
    printf("\nturns: %ld\nno crash, and nothing that the header does not say\n", turns);
    return 0;
}
