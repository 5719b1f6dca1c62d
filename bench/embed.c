/* What calls of the library cost: embed MATCH TURNS. bench/embed.py builds and runs it. It prints the processor time of a turn in microseconds,
 * by level one, by a game that is held, by one call of it for all turns, and by a client whose server is there too; the digest behind the
 * last turn, which must be one; and the nanoseconds of a call that does nothing, of one that refuses, and of one that asks a handle. */
#include <simcore.h>
#include <stdio.h>
#include <stdlib.h>
#include <string.h>
#include <time.h>

enum { CALLS = 1000000 };

static double used(void) { return (double)clock() / CLOCKS_PER_SEC; }

/* Files and states; the digest of each way to play. */
static uint8_t match[1 << 22], states[2][SIMCORE_MOST_STATE], digests[4][16];
static size_t match_n;
static struct simcore_fault fault;

/* Turns by level one. */
static double by_states(long turns) {
    uint64_t length = 0, written = 0;
    if (simcore_first(match, match_n, states[0], SIMCORE_MOST_STATE, &length, digests[0], &fault) != SIMCORE_OK) exit(1);
    double begun = used();
    for (long turn = 0; turn < turns; turn++) {
        if (simcore_turn(match, match_n, states[turn % 2], (size_t)length, (const uint8_t *)"[]", 2, states[(turn + 1) % 2], SIMCORE_MOST_STATE,
                         &written, digests[0], &fault) != SIMCORE_OK) exit(2);
        length = written;
    }
    return (used() - begun) / (double)turns * 1e6;
}

/* Turns of a game, one a call or all in one; with a look at the digest behind each call. */
static double by_game(long turns, int at_once, uint8_t digest[16]) {
    struct simcore_handle game = {0};
    uint32_t turn = 0;
    if (simcore_game_open(&game, match, match_n, &fault) != SIMCORE_OK) exit(3);
    double begun = used();
    for (long i = 0; i < (at_once ? 1 : turns); i++) {
        int32_t status = at_once ? simcore_game_play_own(&game, (uint32_t)turns, &turn) : simcore_game_play(&game, (const uint8_t *)"[]", 2, &fault);
        if (status != SIMCORE_OK || simcore_held_digest(&game, digest, &turn) != SIMCORE_OK) exit(4);
    }
    begun = used() - begun;
    simcore_close(&game);
    return begun / (double)turns * 1e6;
}

/* Hears what is in a room, frame by frame. */
static void hear(struct simcore_handle *handle, int is_server, const uint8_t *at, uint64_t written) {
    for (uint64_t length; written; at += length, written -= length) {
        length = simcore_frame_length(at, (size_t)written);
        int32_t status = is_server ? simcore_server_hear(handle, 1, at, (size_t)length) : simcore_client_hear(handle, at, (size_t)length);
        if (status != SIMCORE_OK && status != SIMCORE_IDLE) exit(5);
    }
}

/* Turns of a client, with all that its server does for it. */
static double by_client(long turns) {
    struct simcore_handle client = {0}, server = {0};
    uint64_t written = 0;
    uint32_t played = 0;
    if (simcore_client_open(&client, match, match_n, 1, 1, &fault) != SIMCORE_OK) exit(6);
    if (simcore_server_open(&server, match, match_n, 1, &fault) != SIMCORE_OK) exit(7);
    double begun = used();
    for (long turn = 0; turn < turns; turn++) {
        if (simcore_client_play(&client, 1, &played) != SIMCORE_OK) exit(8);
        if (simcore_client_take(&client, states[0], SIMCORE_MOST_STATE, &written) != SIMCORE_OK) exit(9);
        hear(&server, 1, states[0], written);
        if (simcore_server_take(&server, 1, states[0], SIMCORE_MOST_STATE, &written) != SIMCORE_OK) exit(10);
        hear(&client, 0, states[0], written);
    }
    begun = used() - begun;
    if (simcore_held_digest(&client, digests[3], &played) != SIMCORE_OK) exit(11);
    simcore_close(&client), simcore_close(&server);
    return begun / (double)turns * 1e6;
}

/* The nanoseconds of calls that do little. */
static void print_small(void) {
    struct simcore_handle server = {0};
    struct simcore_facts facts;
    uint32_t turn = 0;
    uint64_t sum = 0;
    double begun = used();
    for (long i = 0; i < CALLS; i++) sum += simcore_version();
    printf(" %.1f", (used() - begun) / CALLS * 1e9);
    begun = used();
    for (long i = 0; i < CALLS / 10; i++) sum += (uint64_t)simcore_match(match, 0, &facts, &fault);
    printf(" %.1f", (used() - begun) / CALLS * 1e10);
    if (simcore_server_open(&server, match, match_n, 1, &fault) != SIMCORE_OK) exit(12);
    begun = used();
    for (long i = 0; i < CALLS; i++) sum += (uint64_t)simcore_server_released(&server, &turn);
    printf(" %.1f\n", (used() - begun) / CALLS * 1e9);
    simcore_close(&server);
    if (sum == 0) exit(13);
}

int main(int argc, char **argv) {
    FILE *file = argc > 2 ? fopen(argv[1], "rb") : NULL;
    long turns = argc > 2 ? strtol(argv[2], NULL, 10) : 0;
    if (!file || turns < 1) return 14;
    match_n = fread(match, 1, sizeof match, file);
    printf("%.2f ", by_states(turns));
    printf("%.2f %.2f %.2f ", by_game(turns, 0, digests[1]), by_game(turns, 1, digests[2]), by_client(turns));
    for (int i = 1; i < 4; i++)
        if (memcmp(digests[0], digests[i], 16) != 0) return 15;
    for (int i = 0; i < 16; i++) printf("%02x", digests[0][i]);
    print_small();
    return 0;
}
