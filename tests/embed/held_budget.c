/* Each allocation of each call of level two fails in its turn, alone or with all behind it: the call answers that there is no memory, what
 * stands is what the header says, and nothing is held when all is closed. With a number, each such allocation alone. It is C99 and C++
 * alike. */
#include "held.h"
#include "heap.h"

static const char MATCH[] =
    "{\"size\":[8,8],\"closed\":[[1,1,2,2]],\"players\":[[2],[1],[]],\"cap\":9,\"delay\":2,\"turns\":4,\"seed\":0,\"templates\":["
    "{\"@name\":\"walker\",\"Health\":{\"Max\":9},\"Motion\":{\"Speed\":10},\"Attack\":{\"Hack\":2,\"Range\":2,\"Vision\":9,\"Repeat\":1}}],"
    "\"entities\":[[\"walker\",1,\"4.5\",\"2.5\"],[\"walker\",2,\"5.5\",\"2.5\"],[\"walker\",3,\"7.5\",\"7.5\"]],"
    "\"commands\":[[1,1,\"walk\",[2],\"6.5\",\"6.5\"]]}";
static const char ORDER_TEXT[] = "[\"walk\",[2],\"6.5\",\"2.5\"]", TURN_TEXT[] = "[[1,\"walk\",[2,4],\"6.5\",\"6.5\"],[2,\"attack\",[3],2]]";

/* Frames that are heard, and a state that is loaded: what clients and a server said before. */
enum { ORDER_UP, ORDER_DOWN, JOIN_UP, ASK_DOWN, STATE_UP, STATE_DOWN, FRAMES };
static uint8_t frames[FRAMES][4096], state[4096], room[4096];
static size_t frame_lengths[FRAMES], state_n;
static long stride = 1;

/* A call, what is handed in, and the steps before it: a letter each. */
struct trial {
    int which;
    const char *before;
    const uint8_t *bytes;
    size_t bytes_n;
    uint32_t number;
};

static struct handed give(const void *bytes, size_t bytes_n, uint32_t number) {
    struct handed in;
    in.match = (const uint8_t *)MATCH, in.match_n = strlen(MATCH), in.bytes = (const uint8_t *)bytes, in.bytes_n = bytes_n;
    in.number = number, in.begins = 1;
    return in;
}

static void stop(const char *what) {
    printf("failed: %s\n", what);
    exit(1);
}

static void make(int which, struct simcore_handle *handle, const void *bytes, size_t bytes_n, uint32_t number) {
    struct handed in = give(bytes, bytes_n, number);
    struct answer it;
    if (held_call(which, handle, &in, room, sizeof room, &it) != SIMCORE_OK) stop(HELD_NAMES[which]);
}

/* Takes the first frame that waits, or ends. */
static void keep(int which, struct simcore_handle *handle, uint32_t number) {
    uint64_t written = 0;
    int32_t status = number ? simcore_server_take(handle, number, room, sizeof room, &written) : simcore_client_take(handle, room, sizeof room, &written);
    if (status != SIMCORE_OK || written == 0) stop("take");
    frame_lengths[which] = (size_t)simcore_frame_length(room, (size_t)written);
    memcpy(frames[which], room, frame_lengths[which]);
}

/* The frames of a session in which client 3 comes late. */
static void gather(void) {
    struct simcore_handle server = {0}, first = {0}, third = {0}, game = {0};
    struct handed in = give("", 0, 3);
    struct answer it;
    in.begins = 0;
    make(SERVER_OPEN, &server, "", 0, 2), make(CLIENT_OPEN, &first, "", 0, 1), make(GAME_OPEN, &game, "", 0, 0);
    if (held_call(CLIENT_OPEN, &third, &in, room, 0, &it) != SIMCORE_OK) stop("open");
    make(ORDER, &first, ORDER_TEXT, strlen(ORDER_TEXT), 0), keep(ORDER_UP, &first, 0);
    make(SERVER_HEAR, &server, frames[ORDER_UP], frame_lengths[ORDER_UP], 1), keep(ORDER_DOWN, &server, 1);
    make(JOIN, &third, "", 0, 0), keep(JOIN_UP, &third, 0);
    make(SERVER_HEAR, &server, frames[JOIN_UP], 5, 3), keep(ASK_DOWN, &server, 1);
    make(CLIENT_HEAR, &first, frames[ASK_DOWN], frame_lengths[ASK_DOWN], 0), keep(STATE_UP, &first, 0);
    make(SERVER_HEAR, &server, frames[STATE_UP], frame_lengths[STATE_UP], 1), keep(STATE_DOWN, &server, 3);
    make(STATE, &game, "", 0, 0);
    uint64_t written = 0;
    uint8_t digest[16];
    if (simcore_held_state(&game, state, sizeof state, &written, digest) != SIMCORE_OK) stop("state");
    state_n = (size_t)written;
    simcore_close(&server), simcore_close(&first), simcore_close(&third), simcore_close(&game);
}

/* Puts a handle to where a call is tried. */
static struct simcore_handle prepare(const char *before) {
    struct simcore_handle handle = {0};
    for (; *before; before++) {
        switch (*before) {
        case 'c': make(CLIENT_OPEN, &handle, "", 0, 1); break;
        case 's': make(SERVER_OPEN, &handle, "", 0, 2); break;
        case 'g': make(GAME_OPEN, &handle, "", 0, 0); break;
        case 'x': make(CLIENT_CUT, &handle, "", 0, 0); break;
        case 'j': make(JOIN, &handle, "", 0, 0); break;
        case 'o': make(ORDER, &handle, ORDER_TEXT, strlen(ORDER_TEXT), 0); break;
        case 'd': make(CLIENT_HEAR, &handle, frames[ORDER_DOWN], frame_lengths[ORDER_DOWN], 0); break;
        case 'J': make(SERVER_HEAR, &handle, frames[JOIN_UP], 5, 3); break;
        default: make(SERVER_HEAR, &handle, frames[ORDER_UP], frame_lengths[ORDER_UP], 1); break;
        }
    }
    return handle;
}

/* How many allocations a call makes, each of which was refused; or ends. */
static long refuse_each(const struct trial *it, bool stays_empty) {
    struct handed in = give(it->bytes, it->bytes_n, it->number);
    struct answer before, after;
    struct seen stood, stands;
    long granted;
    memset(&before, 5, sizeof before);
    for (granted = 0;; granted += stride) {
        struct simcore_handle handle = prepare(it->before);
        bool refused;
        stood = held_seen(&handle);
        after = before;
        heap_grant(granted, stays_empty);
        int32_t status = held_call(it->which, &handle, &in, room, it->which == ENTITIES ? 9 : sizeof room, &after);
        refused = heap_refused;
        heap_grant(-1, false);
        stands = held_seen(&handle);
        if (status != (refused ? SIMCORE_NO_MEMORY : SIMCORE_OK) && !(status == SIMCORE_FRAME_REFUSED && !refused)) stop(HELD_NAMES[it->which]);
        if (!held_wrote_right(it->which, status, after, &before)) stop("something is written that the header does not name");
        if (refused && !held_stands_right(it->which, status, &stood, &stands)) stop("what stands is not what the header says");
        if (simcore_is_open(&handle)) simcore_close(&handle);
        if (heap_held != 0) stop("a block is still held");
        if (!refused) return granted;
    }
}

int main(int argc, char **argv) {
    if (argc > 1) stride = strtol(argv[1], NULL, 10);
    gather();
    if (heap_held != 0) stop("a block is still held");
    const struct trial tried[] = {
        {CLIENT_OPEN, "", frames[0], 0, 1}, {SERVER_OPEN, "", frames[0], 0, 2}, {GAME_OPEN, "", frames[0], 0, 0}, {GAME_LOAD, "", state, state_n, 0},
        {JOIN, "cx", frames[0], 0, 0}, {ORDER, "c", (const uint8_t *)ORDER_TEXT, strlen(ORDER_TEXT), 0}, {PLAY, "cd", frames[0], 0, 9},
        {CLIENT_HEAR, "c", frames[ORDER_DOWN], frame_lengths[ORDER_DOWN], 0}, {CLIENT_HEAR, "co", frames[ASK_DOWN], frame_lengths[ASK_DOWN], 0},
        {CLIENT_HEAR, "cxj", frames[STATE_DOWN], frame_lengths[STATE_DOWN], 0}, {SERVER_HEAR, "s", frames[ORDER_UP], frame_lengths[ORDER_UP], 1},
        {SERVER_HEAR, "sC", frames[JOIN_UP], frame_lengths[JOIN_UP], 3}, {SERVER_HEAR, "sCJ", frames[STATE_UP], frame_lengths[STATE_UP], 1},
        {SERVER_HEAR, "sCJ", frames[0], 3, 1}, {SERVER_CUT, "sCJ", frames[0], 0, 1}, {SERVER_TAKE, "sCJ", frames[0], 0, 1},
        {GAME_PLAY, "g", (const uint8_t *)TURN_TEXT, strlen(TURN_TEXT), 0}, {PLAY_OWN, "g", frames[0], 0, 9}, {STATE, "c", frames[0], 0, 0},
        {SHOW, "g", frames[0], 0, 0}, {ENTITIES, "c", frames[0], 0, 0}};
    for (size_t i = 0; i < sizeof tried / sizeof *tried; i++) {
        long alone = refuse_each(&tried[i], false), all = refuse_each(&tried[i], true);
        printf("%s: %ld allocations\n", HELD_NAMES[tried[i].which], alone);
        if (alone < 1 || all != alone) stop(HELD_NAMES[tried[i].which]);
    }
    /* These take no memory. */
    const struct trial light[] = {{CLIENT_CUT, "co", frames[0], 0, 0}, {CLIENT_TAKE, "co", frames[0], 0, 0}, {STANDING, "c", frames[0], 0, 0},
                                  {RELEASED, "s", frames[0], 0, 0}, {CLOSE, "g", frames[0], 0, 0}};
    for (size_t i = 0; i < sizeof light / sizeof *light; i++)
        if (refuse_each(&light[i], true) != 0) stop(HELD_NAMES[light[i].which]);
    return 0;
}
