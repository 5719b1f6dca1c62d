/* Each call of level two: on handles that are closed, and of each kind; opened and closed in every order; what it answers where it may do
 * nothing; and a session by hand, in which a client comes late. All of it is on a thread with 256 KB of stack, or so many as a word says.
 * It is C99 and C++ alike. */
#include <pthread.h>
#include <stdlib.h>

#include "held.h"

static const char MATCH[] = "{\"size\":[8,8],\"closed\":[],\"players\":[[],[],[]],\"cap\":0,\"delay\":1,\"turns\":4,\"seed\":0,\"templates\":["
                            "{\"@name\":\"walker\",\"Motion\":{\"Speed\":10}}],\"entities\":[[\"walker\",1,\"2.5\",\"2.5\"],[\"walker\",2,5,5]],"
                            "\"commands\":[[2,2,\"walk\",[3],1,1]]}";
static const char WALK[] = "[\"walk\",[2],\"6.5\",\"2.5\"]";
static uint8_t room[1 << 16];
static int failed;

static void want(int good, const char *what) {
    if (!good) {
        printf("failed: %s\n", what);
        failed = 1;
    }
}

static struct handed give(const void *bytes, size_t bytes_n, uint32_t number, uint32_t begins) {
    struct handed in;
    in.match = (const uint8_t *)MATCH, in.match_n = strlen(MATCH), in.bytes = (const uint8_t *)bytes, in.bytes_n = bytes_n;
    in.number = number, in.begins = begins;
    return in;
}

/* Makes a call with ample room, and looks that it writes and changes what it may. */
static int32_t call(int which, struct simcore_handle *handle, const void *bytes, size_t bytes_n, uint32_t number, uint32_t begins) {
    struct handed in = give(bytes, bytes_n, number, begins);
    struct answer before, it;
    struct seen stood = held_seen(handle), stands;
    memset(&before, 5, sizeof before);
    it = before;
    int32_t status = held_call(which, handle, &in, room, which == ENTITIES ? 9 : sizeof room, &it);
    stands = held_seen(handle);
    want(held_wrote_right(which, status, it, &before), HELD_NAMES[which]);
    if (status != SIMCORE_OK) want(held_stands_right(which, status, &stood, &stands), HELD_NAMES[which]);
    return status;
}

static int32_t step(int which, struct simcore_handle *handle, uint32_t number) { return call(which, handle, "", 0, number, 0); }

static struct simcore_handle opened(int which) {
    struct simcore_handle handle = {0};
    want(call(which, &handle, "", 0, 1, 1) == SIMCORE_OK && simcore_is_open(&handle), "open");
    return handle;
}

/* Calls that are for another kind, or for none: they answer so. */
static void try_kinds(void) {
    static const int OPENS[3] = {CLIENT_OPEN, SERVER_OPEN, GAME_OPEN};
    static const int FROM[4] = {JOIN, SERVER_HEAR, GAME_PLAY, STATE};
    struct simcore_handle handle = {0};
    int which, kind;
    for (which = JOIN; which < HELD_CALLS; which++) want(step(which, &handle, 1) == SIMCORE_BAD_HANDLE && !simcore_is_open(&handle), "a closed handle");
    for (kind = 0; kind < 3; kind++) {
        handle = opened(OPENS[kind]);
        for (which = 0; which < CLOSE; which++) {
            int own = (which >= FROM[kind] && which < FROM[kind + 1]) || (which >= STATE && kind != 1);
            if (!own) want(step(which, &handle, 1) == SIMCORE_BAD_HANDLE, "a handle of another kind");
        }
        want(step(CLOSE, &handle, 0) == SIMCORE_OK && !handle.held, "close");
        want(step(CLOSE, &handle, 0) == SIMCORE_BAD_HANDLE, "close of a closed one");
    }
}

/* Three handles, opened and closed in all orders. */
static void try_orders(void) {
    static const int ORDERS[6][3] = {{0, 1, 2}, {0, 2, 1}, {1, 0, 2}, {1, 2, 0}, {2, 0, 1}, {2, 1, 0}};
    static const int OPENS[3] = {CLIENT_OPEN, SERVER_OPEN, GAME_OPEN};
    int i, j, k;
    for (i = 0; i < 6; i++) {
        for (j = 0; j < 6; j++) {
            struct simcore_handle handles[3];
            for (k = 0; k < 3; k++) handles[ORDERS[i][k]] = opened(OPENS[ORDERS[i][k]]);
            step(JOIN, &handles[0], 0), step(PLAY, &handles[0], 9), step(SERVER_CUT, &handles[1], 1), step(PLAY_OWN, &handles[2], 2);
            for (k = 0; k < 3; k++) want(step(CLOSE, &handles[ORDERS[j][k]], 0) == SIMCORE_OK, "close in any order");
        }
    }
}

static void try_opens(void) {
    struct simcore_handle handle = {0};
    struct handed in = give("none", 4, 1, 1);
    struct answer it;
    in.match_n = 2;
    want(held_call(CLIENT_OPEN, &handle, &in, room, 0, &it) == SIMCORE_MATCH_REFUSED && it.fault.code == 1, "a client of no match");
    want(held_call(SERVER_OPEN, &handle, &in, room, 0, &it) == SIMCORE_MATCH_REFUSED && it.fault.code == 1, "a server of no match");
    want(held_call(GAME_OPEN, &handle, &in, room, 0, &it) == SIMCORE_MATCH_REFUSED && it.fault.code == 1, "no match");
    want(call(GAME_LOAD, &handle, "none", 4, 0, 0) == SIMCORE_STATE_REFUSED, "no state");
    want(step(CLIENT_OPEN, &handle, 0) == SIMCORE_NO_PLAYER && step(CLIENT_OPEN, &handle, 4) == SIMCORE_NO_PLAYER, "no such player");
    want(step(CLIENT_OPEN, &handle, 257) == SIMCORE_NO_PLAYER && step(SERVER_OPEN, &handle, 4) == SIMCORE_NO_PLAYER, "nor one of these");
    want(step(SERVER_OPEN, &handle, 256) == SIMCORE_NO_PLAYER && step(SERVER_OPEN, &handle, 0xffffffffu) == SIMCORE_NO_PLAYER, "so many");
    want(!simcore_is_open(&handle), "it stays closed");
}

static void try_game(void) {
    struct simcore_handle game = opened(GAME_OPEN), other = {0};
    struct simcore_fault fault = {0, 0};
    struct seen left, right;
    const char *walk = "[[1,\"walk\",[2],\"6.5\",\"2.5\"]]", *wrong = "[[1,\"stop\",[2]],[4,\"resign\"]]";
    uint64_t length = 0;
    uint8_t digest[16];
    want(call(GAME_PLAY, &game, walk, strlen(walk), 0, 0) == SIMCORE_OK, "a turn");
    want(simcore_game_play(&game, (const uint8_t *)wrong, strlen(wrong), &fault) == SIMCORE_LIST_REFUSED && fault.index == 2, "a command of nobody");
    want(call(GAME_PLAY, &game, "{}", 2, 0, 0) == SIMCORE_LIST_REFUSED, "no commands");
    want(simcore_held_state(&game, room, 9, &length, digest) == SIMCORE_NO_ROOM && length > 40, "no room for a state");
    want(simcore_held_state(&game, room, (size_t)length, &length, digest) == SIMCORE_OK, "a state");
    want(call(GAME_LOAD, &other, room, (size_t)length, 0, 0) == SIMCORE_OK, "a game at a state");
    left = held_seen(&game), right = held_seen(&other);
    want(held_is_same(&left, &right) && left.turn == 1 && memcmp(left.digest, digest, 16) == 0, "two games at one state");
    want(step(SHOW, &game, 0) == SIMCORE_OK && step(ENTITIES, &game, 0) == SIMCORE_OK && step(DIGEST, &game, 0) == SIMCORE_OK, "looks");
    want(step(PLAY_OWN, &game, 0) == SIMCORE_IDLE && step(PLAY_OWN, &game, 99) == SIMCORE_OK, "its own turns");
    want(call(GAME_PLAY, &other, "[[2,\"walk\",[3],1,1]]", 20, 0, 0) == SIMCORE_OK && step(PLAY_OWN, &other, 2) == SIMCORE_OK, "the same turns");
    left = held_seen(&game), right = held_seen(&other);
    want(held_is_same(&left, &right) && left.turn == 4, "two games at their end");
    want(step(PLAY_OWN, &game, 1) == SIMCORE_IDLE && call(GAME_PLAY, &game, "{}", 2, 0, 0) == SIMCORE_NO_TURN, "over, whatever the commands");
    step(CLOSE, &game, 0), step(CLOSE, &other, 0);
}

/* What a client said goes to the server, or what waits for it there comes to it; how many frames these were. */
static int carry(struct simcore_handle *server, struct simcore_handle *client, uint32_t number, int up) {
    static uint8_t said[1 << 16];
    uint64_t written = 0, at = 0;
    int frames = 0;
    int32_t status = up ? simcore_client_take(client, said, sizeof said, &written) : simcore_server_take(server, number, said, sizeof said, &written);
    want(status == SIMCORE_OK, "take");
    for (; at < written; frames++) {
        uint64_t length = simcore_frame_length(said + at, (size_t)(written - at));
        status = call(up ? SERVER_HEAR : CLIENT_HEAR, up ? server : client, said + at, (size_t)length, number, 0);
        want(length > 4 && at + length <= written && (status == SIMCORE_OK || status == SIMCORE_IDLE), "a frame is heard");
        at += length;
    }
    return frames;
}

static struct simcore_standing standing(struct simcore_handle *client) {
    struct simcore_standing stands = {9, 9, 9, 9};
    want(simcore_client_standing(client, &stands) == SIMCORE_OK, "standing");
    return stands;
}

static int stands(struct simcore_handle *client, uint32_t stage, uint32_t turn, uint32_t released, uint32_t done) {
    struct simcore_standing it = standing(client);
    return it.stage == stage && it.turn == turn && it.released == released && it.done == done;
}

static void try_client(void) {
    struct simcore_handle client = {0}, on = opened(CLIENT_OPEN);
    uint64_t written = 77;
    int i;
    want(call(CLIENT_OPEN, &client, "", 0, 3, 0) == SIMCORE_OK && stands(&client, SIMCORE_OFF, 0, 0, 0), "a client that is off");
    want(call(ORDER, &client, WALK, strlen(WALK), 0, 0) == SIMCORE_IDLE && step(PLAY, &client, 9) == SIMCORE_IDLE, "it orders and plays nothing");
    want(call(ORDER, &client, "[1,2]", 5, 0, 0) == SIMCORE_LIST_REFUSED, "no command");
    want(call(CLIENT_HEAR, &client, "", 0, 0, 0) == SIMCORE_FRAME_REFUSED, "no frame");
    for (i = STATE; i < CLOSE; i++) want(step(i, &client, 0) == SIMCORE_NOT_ON, "it has no state");
    want(step(JOIN, &client, 0) == SIMCORE_OK && step(JOIN, &client, 0) == SIMCORE_IDLE && stands(&client, SIMCORE_JOINING, 0, 0, 0), "it joins");
    want(step(DIGEST, &client, 0) == SIMCORE_NOT_ON, "it has no state yet");
    want(simcore_client_take(&client, room, 4, &written) == SIMCORE_NO_ROOM && written == 5, "no room for its frame");
    want(simcore_client_take(&client, room, 5, &written) == SIMCORE_OK && written == 5 && memcmp(room, "\1\0\0\0\1", 5) == 0, "its frame");
    want(simcore_client_take(&client, room, 0, &written) == SIMCORE_OK && written == 0, "none waits");
    want(call(CLIENT_HEAR, &client, "\2\0\0\0\6\4", 6, 0, 0) == SIMCORE_OK && stands(&client, SIMCORE_OFF, 0, 0, 0), "it may not join");
    want(stands(&on, SIMCORE_ON, 0, 1, 1) && step(JOIN, &on, 0) == SIMCORE_IDLE, "a client that is on");
    for (i = 0; i < 64; i++) want(call(ORDER, &on, WALK, strlen(WALK), 0, 0) == SIMCORE_OK, "64 orders");
    want(call(ORDER, &on, WALK, strlen(WALK), 0, 0) == SIMCORE_IDLE, "and none more");
    want(step(PLAY, &on, 0) == SIMCORE_IDLE && step(PLAY, &on, 9) == SIMCORE_OK && stands(&on, SIMCORE_ON, 1, 1, 2), "it plays what is released");
    want(call(CLIENT_HEAR, &on, "\6\0\0\0\5\1\0\0\0\1", 10, 0, 0) == SIMCORE_IDLE, "a notice does nothing");
    want(step(CLIENT_CUT, &on, 0) == SIMCORE_OK && stands(&on, SIMCORE_OFF, 0, 0, 0), "it is cut off");
    want(simcore_client_take(&on, room, 0, &written) == SIMCORE_OK && written == 0, "and has nothing to say");
    step(CLOSE, &client, 0), step(CLOSE, &on, 0);
}

static void try_server(void) {
    struct simcore_handle server = opened(SERVER_OPEN);
    uint64_t written = 77;
    uint32_t turn = 9;
    want(step(SERVER_HEAR, &server, 0) == SIMCORE_IDLE && step(SERVER_HEAR, &server, 4) == SIMCORE_IDLE, "bytes of nobody");
    want(step(SERVER_CUT, &server, 257) == SIMCORE_IDLE, "nobody is cut");
    want(simcore_server_take(&server, 257, room, 0, &written) == SIMCORE_OK && written == 0, "nothing waits for nobody");
    want(call(SERVER_HEAR, &server, "\1\0\0\0\1", 5, 2, 0) == SIMCORE_OK && held_seen(&server).waiting[1] == 6, "one joins, and the other is asked");
    want(simcore_server_take(&server, 1, room, 5, &written) == SIMCORE_NO_ROOM && written == 6 && held_seen(&server).waiting[1] == 6, "no room for that");
    want(simcore_server_take(&server, 1, room, 6, &written) == SIMCORE_OK && memcmp(room, "\2\0\0\0\1\2", 6) == 0, "the frame of it");
    want(call(SERVER_HEAR, &server, "\1\0\0\0\1\1", 6, 1, 0) == SIMCORE_FRAME_REFUSED && held_seen(&server).waiting[2] == 6, "no frame: cut off");
    want(simcore_server_released(&server, &turn) == SIMCORE_OK && turn == 1, "released");
    want(step(SERVER_CUT, &server, 2) == SIMCORE_OK && held_seen(&server).waiting[2] == 0, "what waits for who is cut is gone");
    step(CLOSE, &server, 0);
}

/* Clients 1 and 2 play, and client 3 comes late: all have the same state in the end. */
static void try_session(void) {
    struct simcore_handle server = {0}, clients[3];
    struct seen seen[3];
    uint32_t i, round, turn = 0;
    memset(clients, 0, sizeof clients);
    want(step(SERVER_OPEN, &server, 2) == SIMCORE_OK, "a server of two");
    for (i = 0; i < 3; i++) want(call(CLIENT_OPEN, &clients[i], "", 0, i + 1, i < 2) == SIMCORE_OK, "three clients");
    want(call(ORDER, &clients[0], WALK, strlen(WALK), 0, 0) == SIMCORE_OK && step(JOIN, &clients[2], 0) == SIMCORE_OK, "an order, and a wish to join");
    for (round = 0; round < 12; round++) {
        for (i = 0; i < 3; i++) step(PLAY, &clients[i], 1), carry(&server, &clients[i], i + 1, 1);
        for (i = 0; i < 3; i++) carry(&server, &clients[i], i + 1, 0);
    }
    for (i = 0; i < 3; i++) {
        want(stands(&clients[i], SIMCORE_ON, 4, 4, 4), "all have come to the end");
        seen[i] = held_seen(&clients[i]);
    }
    want(simcore_server_released(&server, &turn) == SIMCORE_OK && turn == 4, "all is released");
    want(memcmp(seen[0].digest, seen[1].digest, 16) == 0 && memcmp(seen[0].digest, seen[2].digest, 16) == 0, "and the states are the same");
    for (i = 0; i < 3; i++) step(CLOSE, &clients[i], 0);
    step(CLOSE, &server, 0);
}

/* JSON as deep as can be, where a command is awaited, commands, and a match. */
static void try_deep(void) {
    static char deep[4096];
    struct simcore_handle client = opened(CLIENT_OPEN), game = opened(GAME_OPEN), none = {0};
    struct simcore_fault fault = {0, 0};
    memset(deep, '[', 127), memset(deep + 127, ']', 127);
    want(call(ORDER, &client, deep, 254, 0, 0) == SIMCORE_LIST_REFUSED && call(GAME_PLAY, &game, deep, 254, 0, 0) == SIMCORE_LIST_REFUSED, "deep JSON");
    memset(deep, '[', sizeof deep);
    want(call(ORDER, &client, deep, sizeof deep, 0, 0) == SIMCORE_LIST_REFUSED, "JSON that is too deep");
    want(simcore_server_open(&none, (const uint8_t *)deep, sizeof deep, 1, &fault) == SIMCORE_MATCH_REFUSED, "a match that is too deep");
    step(CLOSE, &client, 0), step(CLOSE, &game, 0);
}

static void *try_all(void *unused) {
    want(sizeof(struct simcore_handle) == sizeof(void *) && sizeof(struct simcore_standing) == 16, "records have no gaps");
    want(simcore_fits() && strcmp(simcore_status_text(SIMCORE_NOT_ON), "the client is not on") == 0, "version, and a status in words");
    want(simcore_frame_length(room, 3) == 0 && simcore_frame_length((const uint8_t *)"\2\1\0\0", 4) == 262, "the length of a frame");
    try_kinds();
    try_orders();
    try_opens();
    try_game();
    try_client();
    try_server();
    try_session();
    try_deep();
    return unused;
}

int main(int argc, char **argv) {
    pthread_attr_t how;
    pthread_t thread;
    size_t stack = (size_t)(argc > 1 ? strtol(argv[1], NULL, 10) : 256) << 10;
    want(pthread_attr_init(&how) == 0 && pthread_attr_setstacksize(&how, stack) == 0, "a stack");
    want(pthread_create(&thread, &how, try_all, NULL) == 0 && pthread_join(thread, NULL) == 0, "a thread");
    printf("%s\n", failed ? "failed" : "all calls of level two answer as they should");
    return failed;
}
