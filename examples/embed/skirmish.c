/* A match of two players in one process, drawn as characters: two clients and their server, as in a networked game, without a network.
 *
 *   cc -std=c99 -I PREFIX/include examples/embed/skirmish.c PREFIX/lib/libsimcore.a -o skirmish && ./skirmish [TURNS]
 *
 * Each player looks at the state of his own client, and orders there. What the clients and the server say to each other are frames: here
 * they go from hand to hand, and in a game through two sockets. Each client plays every turn by itself, and the digests behind a turn are
 * the same, on every machine: who has another one is out of sync. C99 and C++.
 */
#include <simcore.h>
#include <stdio.h>
#include <stdlib.h>
#include <string.h>

enum { WIDTH = 48, DEPTH = 12, PLAYERS = 2, TURNS = 200 };

/* Five against four, who see each other only when they are near. */
static const char MATCH[] =
    "{\"size\":[48,12],\"closed\":[[22,0,25,3],[22,8,25,11]],\"players\":[[2],[1]],\"cap\":0,\"delay\":2,\"turns\":200,\"seed\":7,"
    "\"templates\":[{\"@name\":\"guard\",\"Health\":{\"Max\":60},\"Motion\":{\"Speed\":3},\"Resist\":{\"Hack\":2},"
    "\"Attack\":{\"Hack\":8,\"Range\":3,\"Vision\":8,\"Repeat\":2}}],"
    "\"entities\":[[\"guard\",1,3,2],[\"guard\",1,3,4],[\"guard\",1,3,6],[\"guard\",1,3,8],[\"guard\",1,3,10],"
    "[\"guard\",2,44,2],[\"guard\",2,44,4],[\"guard\",2,44,6],[\"guard\",2,44,8]],\"commands\":[]}";

/* A server, a client for each player, and what the players see. */
struct game {
    struct simcore_handle server, clients[PLAYERS];
    struct simcore_entity *rows;
    uint64_t count;
    uint8_t *room;
};

/* Ends where a call has not done what it should; that nothing happens is no fault. */
static void check(const char *what, int32_t status) {
    if (status == SIMCORE_OK || status == SIMCORE_IDLE) return;
    fprintf(stderr, "%s: %s\n", what, simcore_status_text(status));
    exit(1);
}

static void open_all(struct game *game) {
    const uint8_t *match = (const uint8_t *)MATCH;
    struct simcore_fault fault = {0, 0};
    memset(game, 0, sizeof *game);
    check("server", simcore_server_open(&game->server, match, strlen(MATCH), PLAYERS, &fault));
    for (uint32_t i = 0; i < PLAYERS; i++) check("client", simcore_client_open(&game->clients[i], match, strlen(MATCH), i + 1, 1, &fault));
    game->rows = (struct simcore_entity *)malloc(SIMCORE_MOST_ENTITIES * sizeof *game->rows);
    game->room = (uint8_t *)malloc(SIMCORE_MOST_FRAME);
    if (!game->rows || !game->room) check("room", SIMCORE_NO_MEMORY);
}

static void close_all(struct game *game) {
    check("close", simcore_close(&game->server));
    for (int i = 0; i < PLAYERS; i++) check("close", simcore_close(&game->clients[i]));
    free(game->rows);
    free(game->room);
}

/* What a client says goes to the server, frame by frame. A host with a socket sends the bytes as they are, and the other side cuts them. */
static void carry_up(struct game *game, uint32_t player) {
    uint64_t written = 0, length;
    check("take", simcore_client_take(&game->clients[player - 1], game->room, SIMCORE_MOST_FRAME, &written));
    for (const uint8_t *at = game->room; written; at += length, written -= length) {
        length = simcore_frame_length(at, (size_t)written);
        check("server hears", simcore_server_hear(&game->server, player, at, (size_t)length));
    }
}

/* And what the server says to a client goes there. */
static void carry_down(struct game *game, uint32_t player) {
    uint64_t written = 0, length;
    check("take", simcore_server_take(&game->server, player, game->room, SIMCORE_MOST_FRAME, &written));
    for (const uint8_t *at = game->room; written; at += length, written -= length) {
        length = simcore_frame_length(at, (size_t)written);
        check("client hears", simcore_client_hear(&game->clients[player - 1], at, (size_t)length));
    }
}

/* Reads the entities of a player's own state. */
static void look(struct game *game, uint32_t player) {
    check("look", simcore_held_entities(&game->clients[player - 1], game->rows, SIMCORE_MOST_ENTITIES, &game->count));
}

/* What a player orders: whoever stands idle far from the middle goes there. Who has come there chooses whom to hit by himself. */
static void order(struct game *game, uint32_t player) {
    char ids[256] = "", text[512];
    look(game, player);
    for (uint64_t i = 0; i < game->count; i++) {
        const struct simcore_entity *row = &game->rows[i];
        size_t used = strlen(ids);
        if (row->owner != player || row->going || row->target || labs((long)row->x - 24 * SIMCORE_CELL) < 3 * SIMCORE_CELL) continue;
        snprintf(ids + used, sizeof ids - used, "%s%u", used ? "," : "", (unsigned)row->id);
    }
    if (!ids[0]) return;
    snprintf(text, sizeof text, "[\"walk\",[%s],\"%s\",\"5.5\"]", ids, player == 1 ? "23.5" : "24.5");
    check("order", simcore_client_order(&game->clients[player - 1], (const uint8_t *)text, strlen(text)));
}

/* One turn: both order, both play, and the frames go round. */
static void go_on(struct game *game) {
    uint32_t played;
    for (uint32_t player = 1; player <= PLAYERS; player++) {
        order(game, player);
        check("play", simcore_client_play(&game->clients[player - 1], 1, &played));
        carry_up(game, player);
    }
    for (uint32_t player = 1; player <= PLAYERS; player++) carry_down(game, player);
}

/* Whether the states of both are the same: two digests say it. */
static int agree(struct game *game, uint8_t digest[16], uint32_t *turn) {
    uint8_t other[16];
    uint32_t other_turn = 0;
    check("digest", simcore_held_digest(&game->clients[0], digest, turn));
    check("digest", simcore_held_digest(&game->clients[1], other, &other_turn));
    return *turn == other_turn && memcmp(digest, other, 16) == 0;
}

static void draw(struct game *game, const uint8_t digest[16], uint32_t turn) {
    char ground[DEPTH][WIDTH + 1];
    look(game, 1);
    for (int z = 0; z < DEPTH; z++) {
        for (int x = 0; x < WIDTH; x++) ground[z][x] = x >= 22 && x <= 25 && (z <= 3 || z >= 8) ? '#' : '.';
        ground[z][WIDTH] = 0;
    }
    for (uint64_t i = 0; i < game->count; i++) {
        const struct simcore_entity *row = &game->rows[i];
        ground[row->z / SIMCORE_CELL][row->x / SIMCORE_CELL] = row->owner == 1 ? (row->target ? 'A' : 'a') : (row->target ? 'B' : 'b');
    }
    printf("turn %u ", (unsigned)turn);
    for (int i = 0; i < 16; i++) printf("%02x", digest[i]);
    printf("\n");
    for (int z = 0; z < DEPTH; z++) printf("%s\n", ground[z]);
}

static unsigned left(const struct game *game, uint32_t player) {
    unsigned found = 0;
    for (uint64_t i = 0; i < game->count; i++) found += game->rows[i].owner == player;
    return found;
}

int main(int argc, char **argv) {
    uint32_t turns = TURNS, turn = 0;
    uint8_t digest[16];
    struct game game;
    int same = 1;
    if (!simcore_fits()) {
        fprintf(stderr, "the library is of another version than the header\n");
        return 2;
    }
    if (argc > 1) turns = (uint32_t)strtoul(argv[1], NULL, 10);
    open_all(&game);
    same &= agree(&game, digest, &turn);
    draw(&game, digest, turn);
    while (same && turn < turns && turn < TURNS && left(&game, 1) && left(&game, 2)) {
        go_on(&game);
        same &= agree(&game, digest, &turn);
        look(&game, 1);
        if (turn % 20 == 0) draw(&game, digest, turn);
    }
    draw(&game, digest, turn);
    printf("player 1 has %u, player 2 has %u, %s\n", left(&game, 1), left(&game, 2), same ? "and both clients agree" : "and the clients differ");
    close_all(&game);
    return !same;
}
