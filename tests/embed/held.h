/* Each call of level two by a number, so that a test can make any of them; what it may write; and where a handle stands. A program includes
 * it once. C99 and C++. */
#include <simcore.h>
#include <stdio.h>
#include <string.h>

enum {
    CLIENT_OPEN, SERVER_OPEN, GAME_OPEN, GAME_LOAD, JOIN, ORDER, CLIENT_HEAR, PLAY, CLIENT_CUT, CLIENT_TAKE, STANDING, SERVER_HEAR,
    SERVER_CUT, SERVER_TAKE, RELEASED, GAME_PLAY, PLAY_OWN, STATE, DIGEST, SHOW, ENTITIES, CLOSE, HELD_CALLS
};

static const char *const HELD_NAMES[HELD_CALLS] = {
    "client_open", "server_open", "game_open", "game_load", "client_join", "client_order", "client_hear", "client_play", "client_cut",
    "client_take", "client_standing", "server_hear", "server_cut", "server_take", "server_released", "game_play", "game_play_own",
    "held_state", "held_digest", "held_show", "held_entities", "close"};

/* The statuses that the header names for each call. */
static const int32_t HELD_NAMED[HELD_CALLS][8] = {
    {0, 101, 6, 104, 9, -1}, {0, 101, 6, 104, 9, -1}, {0, 101, 6, 9, -1}, {0, 101, 6, 7, 9, -1}, {0, 102, 101, 9, -1}, {0, 102, 8, 101, 9, -1},
    {0, 102, 103, 101, 9, -1}, {0, 102, 101, 9, -1}, {0, 101, -1}, {0, 100, 101, -1}, {0, 101, -1}, {0, 102, 103, 101, 9, -1}, {0, 102, 101, 9, -1},
    {0, 100, 101, 9, -1}, {0, 101, -1}, {0, 10, 8, 101, 9, -1}, {0, 102, 101, 9, -1}, {0, 101, 105, 100, 9, -1}, {0, 101, 105, -1},
    {0, 101, 105, 100, 9, -1}, {0, 101, 105, 100, 9, -1}, {0, 101, -1}};

/* What is handed in; `number` is a player, a client, how many begin, or how many turns. */
struct handed {
    const uint8_t *match, *bytes;
    size_t match_n, bytes_n;
    uint32_t number, begins;
};

/* What a call can write beside its room. */
struct answer {
    uint64_t written;
    struct simcore_standing standing;
    struct simcore_fault fault;
    uint32_t count, unused;
    uint8_t digest[16];
};

static int32_t held_call(int which, struct simcore_handle *handle, const struct handed *in, uint8_t *room, size_t items, struct answer *it) {
    switch (which) {
    case CLIENT_OPEN: return simcore_client_open(handle, in->match, in->match_n, in->number, in->begins, &it->fault);
    case SERVER_OPEN: return simcore_server_open(handle, in->match, in->match_n, in->number, &it->fault);
    case GAME_OPEN: return simcore_game_open(handle, in->match, in->match_n, &it->fault);
    case GAME_LOAD: return simcore_game_load(handle, in->match, in->match_n, in->bytes, in->bytes_n, &it->fault);
    case JOIN: return simcore_client_join(handle);
    case ORDER: return simcore_client_order(handle, in->bytes, in->bytes_n);
    case CLIENT_HEAR: return simcore_client_hear(handle, in->bytes, in->bytes_n);
    case PLAY: return simcore_client_play(handle, in->number, &it->count);
    case CLIENT_CUT: return simcore_client_cut(handle);
    case CLIENT_TAKE: return simcore_client_take(handle, room, items, &it->written);
    case STANDING: return simcore_client_standing(handle, &it->standing);
    case SERVER_HEAR: return simcore_server_hear(handle, in->number, in->bytes, in->bytes_n);
    case SERVER_CUT: return simcore_server_cut(handle, in->number);
    case SERVER_TAKE: return simcore_server_take(handle, in->number, room, items, &it->written);
    case RELEASED: return simcore_server_released(handle, &it->count);
    case GAME_PLAY: return simcore_game_play(handle, in->bytes, in->bytes_n, &it->fault);
    case PLAY_OWN: return simcore_game_play_own(handle, in->number, &it->count);
    case STATE: return simcore_held_state(handle, room, items, &it->written, it->digest);
    case DIGEST: return simcore_held_digest(handle, it->digest, &it->count);
    case SHOW: return simcore_held_show(handle, room, items, &it->written);
    case ENTITIES: return simcore_held_entities(handle, (struct simcore_entity *)(void *)room, items, &it->written);
    default: return simcore_close(handle);
    }
}

static int held_is_named(int which, int32_t status) {
    const int32_t *named = HELD_NAMED[which];
    while (*named != -1 && *named != status) named++;
    return *named == status;
}

static int held_opens(int which) { return which <= GAME_LOAD; }

static int held_has_room(int which) {
    return which == CLIENT_TAKE || which == SERVER_TAKE || which == STATE || which == SHOW || which == ENTITIES;
}

/* Whether a call has a status of the header's, and has written what that says, and nothing else: all of `it` was as `before`. */
static int held_wrote_right(int which, int32_t status, struct answer it, const struct answer *before) {
    int has_fault = held_opens(which) || which == GAME_PLAY;
    if (!held_is_named(which, status)) return 0;
    if (has_fault && status >= SIMCORE_MATCH_REFUSED && status <= SIMCORE_NO_TURN) it.fault = before->fault;
    if (held_has_room(which) && (status == SIMCORE_OK || status == SIMCORE_NO_ROOM)) it.written = before->written;
    if (status == SIMCORE_OK && (which == PLAY || which == RELEASED || which == PLAY_OWN || which == DIGEST)) it.count = before->count;
    if (status == SIMCORE_OK && (which == STATE || which == DIGEST)) memcpy(it.digest, before->digest, 16);
    if (status == SIMCORE_OK && which == STANDING) it.standing = before->standing;
    return memcmp(&it, before, sizeof it) == 0;
}

/* What can be seen of a handle, of whatever kind, without changing it. A take without room says how much waits. */
struct seen {
    int32_t kind, digests;
    struct simcore_standing standing;
    uint32_t released, turn;
    uint8_t digest[16];
    uint64_t waiting[9];
};

enum { CLOSED, CLIENT, SERVER, GAME };

static struct seen held_seen(struct simcore_handle *handle) {
    struct seen seen;
    uint8_t none;
    memset(&seen, 0, sizeof seen);
    if (simcore_client_standing(handle, &seen.standing) == SIMCORE_OK) {
        seen.kind = CLIENT;
        simcore_client_take(handle, &none, 0, &seen.waiting[0]);
    } else if (simcore_server_released(handle, &seen.released) == SIMCORE_OK) {
        seen.kind = SERVER;
        for (uint32_t i = 1; i < 9; i++) simcore_server_take(handle, i, &none, 0, &seen.waiting[i]);
    } else if (simcore_is_open(handle)) seen.kind = GAME;
    seen.digests = simcore_held_digest(handle, seen.digest, &seen.turn);
    return seen;
}

static int held_is_same(const struct seen *left, const struct seen *right) { return memcmp(left, right, sizeof *left) == 0; }

/* Whether what a handle came to by a call that did not succeed is what the header says. */
static int held_stands_right(int which, int32_t status, const struct seen *before, const struct seen *after) {
    if (before->kind == CLIENT && status == SIMCORE_NO_MEMORY && which >= JOIN && which <= PLAY)
        return after->kind == CLIENT && after->standing.stage == SIMCORE_OFF && after->waiting[0] == 0;
    if (which == SERVER_HEAR && status == SIMCORE_FRAME_REFUSED) return after->kind == SERVER;
    return held_is_same(before, after);
}
