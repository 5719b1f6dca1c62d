/* simcore.h: the simulation core in a program of yours. C99 and C++, for Linux on x86-64.
 *
 * A match is the bytes of a match file, a state is the bytes of a stored state: the program `simcore` reads and writes the same bytes.
 * There are two levels. The calls of level one take bytes, give bytes and keep nothing. Those of level two keep a client of a networked
 * match, its server, or a match that is played on without a network, behind a handle of yours. docs/EMBEDDING.md makes a networked match
 * of them, step by step.
 *
 * What you owe at every call, since nothing can check it:
 *   1. No pointer is null, also where its length is 0.
 *   2. A pointer is to memory of its type, and a length is that of the memory behind its pointer, in items of that type.
 *   3. What a call writes overlaps nothing else that it is handed.
 *   4. While a call runs, nobody writes what it reads, or touches what it writes.
 *   5. The thread has 256 KB of stack left.
 *   6. No call is made in a signal handler, or in the forked child of a process with threads.
 *   7. A handle is all zeroes, or as the last call left it: nobody else writes into it, and nobody uses a copy of an open one.
 * And nothing else. Whatever stands in the bytes, a call ends and answers a status of the table below. Calls share nothing but the handle
 * that they are given, so any number of threads may call at once, each with a handle of its own or with none. The same bytes have the
 * same answer on every machine, and a handle to which the same was done stands the same, or there is no memory.
 */
#ifndef SIMCORE_H
#define SIMCORE_H

#include <stddef.h>
#include <stdint.h>

#ifdef __cplusplus
extern "C" {
#endif

/* The interface of this header: above the lower 16 bits what must be the same in the library, and in them what may be more there. */
#define SIMCORE_VERSION 0x00010002u

/* How a call ends, and what stands then. 0 to 14 mean what they mean as the status of the program.
 *
 * What is not named is as it was: after a refusal nothing is written but *fault, and a call that succeeds leaves *fault alone. That is said
 * of all calls but simcore_run, which has no fault: it answers all that the program can end with, and says itself what stands then. */
enum simcore_status {
    SIMCORE_OK = 0,            /* done: what the call gives is written; simcore_compare: the states are the same, and nothing is written */
    SIMCORE_DIFFERS = 1,       /* simcore_compare: the states differ; *entity and *part are written */
    SIMCORE_USAGE = 2,         /* simcore_run: the words are none of a command; the text says which there are */
    SIMCORE_WRITE_FAULT = 4,   /* simcore_run: what OUT is to hold is longer than 16777216 bytes */
    SIMCORE_TOO_LONG = 5,      /* simcore_run: a file that is read is longer than 16777216 bytes */
    SIMCORE_MATCH_REFUSED = 6, /* the bytes are no match; *fault is CODE and INDEX of `match refused CODE INDEX` */
    SIMCORE_STATE_REFUSED = 7, /* bytes stand for no state of the match; fault->code is CODE of `state refused CODE NAME`, and
                                  fault->index is 1 where they are the second state of the call, and else 0 */
    SIMCORE_LIST_REFUSED = 8,  /* the bytes are no list of commands; fault->code is 0, and fault->index is the first item that is no
                                  command, counted from 1, or 0 where the whole is no list; simcore_client_order: they are no command */
    SIMCORE_NO_MEMORY = 9,     /* memory was refused; *fault is 0 and 0, and all that the call had taken is given back. A step of level two
                                  says below what then stands */
    SIMCORE_NO_TURN = 10,      /* simcore_turn, simcore_game_play: all turns of the match were played; *fault is 0 and 0 */
    SIMCORE_NO_FILE = 11,      /* simcore_run: a file that the words name is none of those that were handed in */
    SIMCORE_SIGHT_REFUSED = 12,   /* simcore_run: a file holds no explored cells of the match */
    SIMCORE_LOG_REFUSED = 13,     /* simcore_run: a file is no log */
    SIMCORE_ECONOMY_REFUSED = 14, /* simcore_run: a file is no economy */
    SIMCORE_NO_ROOM = 100,     /* the room is too small: *written is how many items it takes, and *fault is as it was. Call again with
                                  so many */
    SIMCORE_BAD_HANDLE = 101,    /* the handle is closed, or holds something else than the call is for; of an open: it is not closed.
                                    Nothing is changed or written */
    SIMCORE_IDLE = 102,          /* nothing happens, as where a client is to join that is on. Nothing is changed or written */
    SIMCORE_FRAME_REFUSED = 103, /* the bytes are no frame. simcore_server_hear: the client was cut off, so close its connection;
                                    simcore_client_hear: nothing is changed */
    SIMCORE_NO_PLAYER = 104,     /* an open: the match has no such player, or fewer than are to begin. Nothing is changed or written */
    SIMCORE_NOT_ON = 105,        /* a look at a client that has no state: it is off, or waits for one. Nothing is written */
    SIMCORE_FILES_REFUSED = 106  /* simcore_run: the bytes are no files; nothing is written */
};
/* The first of these is told: the handle is none for the call, the match is refused, a state is (the left one before the right one), there
 * is no such player or, by IDLE, no such client of a server, all turns were played, the commands or the frame are refused, nothing happens,
 * the client is not on, there is no room. Memory may be refused anywhere between. */

/* Why a call was refused. docs/FORMATS.md says what each code means. */
struct simcore_fault {
    uint32_t code, index;
};

/* The numbers of a match. */
struct simcore_facts {
    uint32_t width, depth; /* the ground in cells, at most 256 each */
    uint32_t players;      /* 1 to 8; owner 0 is nobody */
    uint32_t turns;        /* how many turns the match has, at most 65535 */
    uint32_t delay;        /* how many turns lie between an order and its turn, 1 to 8 */
    uint32_t cap;          /* the most entities of a player who makes one */
    uint32_t templates;    /* how many templates the match has */
    uint32_t entities;     /* how many entities there are at turn 0 */
    uint32_t commands;     /* how many commands the match file has of its own; simcore_turn plays none but those that it is handed */
};

/* An entity. A cell is SIMCORE_CELL wide, and health counts in the same unit: 65536 is 1. */
struct simcore_entity {
    uint32_t id;            /* from 2 */
    uint32_t kind;          /* its template, by the place in the match file's list, from 0 */
    uint32_t owner;         /* a player, or 0 */
    int32_t x, z;           /* where it stands, always on the ground */
    int32_t health;         /* 0 where its template has none */
    uint32_t going;         /* 1 while it is on its way, else 0 */
    int32_t goal_x, goal_z; /* where to; where it stands, if it is not going */
    uint32_t target;        /* the id of the entity that it attacks, or 0 */
    uint32_t holds;         /* 1 where it holds its place, else 0 */
};

/* A part of an entity, in the order in which they are compared. */
enum simcore_part {
    SIMCORE_CLOCK = 0, /* of entity 1 alone: the turn, the next id, the random word */
    SIMCORE_ENTITY = 1,
    SIMCORE_POSITION = 2,
    SIMCORE_OWNER = 3,
    SIMCORE_HEALTH = 4,
    SIMCORE_MOTION = 5,
    SIMCORE_ATTACK = 6,
    SIMCORE_STANCE = 7
};

/* What is kept from call to call. Begin with zeroes: struct simcore_handle handle = {0}; that is a closed one, which holds nothing. It is
 * your memory, and may be moved while it is open, but what it points to is the library's until simcore_close. */
struct simcore_handle {
    void *held;
};

/* Where a client stands. */
struct simcore_standing {
    uint32_t stage;    /* SIMCORE_OFF, SIMCORE_JOINING or SIMCORE_ON; the other numbers are 0 where it is not on */
    uint32_t turn;     /* how many turns its state has behind it */
    uint32_t released; /* the last turn of which it knows that it may be played */
    uint32_t done;     /* the last turn for which it gives no more orders: the next one is for the turn behind it */
};

enum simcore_stage { SIMCORE_OFF = 0, SIMCORE_JOINING = 1, SIMCORE_ON = 2 };

#define SIMCORE_CELL 65536
/* No state is longer, and none has more entities: so much room is always enough. */
#define SIMCORE_MOST_STATE 2347083u
#define SIMCORE_MOST_ENTITIES 4096u
/* No frame is longer. */
#define SIMCORE_MOST_FRAME 2400000u

/* The version of the library. It takes no argument and cannot fail. */
uint32_t simcore_version(void);

/* The numbers of a match: *facts.
 * OK, MATCH_REFUSED, NO_MEMORY */
int32_t simcore_match(const uint8_t *match, size_t match_n, struct simcore_facts *facts, struct simcore_fault *fault);

/* The state in which a match begins: its bytes at the front of the room, their number in *written, and MD5 of them in digest.
 * OK, MATCH_REFUSED, NO_MEMORY, NO_ROOM */
int32_t simcore_first(const uint8_t *match, size_t match_n, uint8_t *state, size_t state_room, uint64_t *written, uint8_t digest[16],
                      struct simcore_fault *fault);

/* One turn: from the old state and the commands of the turn, given in their order, the next state, as simcore_first gives one.
 * Commands are JSON, a list of items [PLAYER, KIND, ..] as a match file has them behind the turn, as many as you like, and "[]" for none:
 * [[1,"walk",[2,3],"10.5","4"],[2,"stop",[7]]]. One that makes no sense in the state, as for an entity that has fallen, does nothing.
 * OK, MATCH_REFUSED, STATE_REFUSED, LIST_REFUSED, NO_TURN, NO_MEMORY, NO_ROOM */
int32_t simcore_turn(const uint8_t *match, size_t match_n, const uint8_t *old, size_t old_n, const uint8_t *commands, size_t commands_n,
                     uint8_t *state, size_t state_room, uint64_t *written, uint8_t digest[16], struct simcore_fault *fault);

/* Whether bytes stand for a state of the match, as those of a stranger may not: the digest of it and its turn.
 * OK, MATCH_REFUSED, STATE_REFUSED, NO_MEMORY */
int32_t simcore_digest(const uint8_t *match, size_t match_n, const uint8_t *state, size_t state_n, uint8_t digest[16], uint32_t *turn,
                       struct simcore_fault *fault);

/* Where two states differ first: the least entity, and the first of its parts.
 * OK, DIFFERS, MATCH_REFUSED, STATE_REFUSED, NO_MEMORY */
int32_t simcore_compare(const uint8_t *match, size_t match_n, const uint8_t *left, size_t left_n, const uint8_t *right, size_t right_n,
                        uint32_t *entity, uint32_t *part, struct simcore_fault *fault);

/* The entities of a state, ascending by id, for whoever draws them: at the front of the room, and their number in *written.
 * OK, MATCH_REFUSED, STATE_REFUSED, NO_MEMORY, NO_ROOM */
int32_t simcore_entities(const uint8_t *match, size_t match_n, const uint8_t *state, size_t state_n, struct simcore_entity *rows,
                         size_t rows_room, uint64_t *written, struct simcore_fault *fault);

/* What the program's `show` prints of a state, ASCII, a line for each entity: the text without a 0 behind it, and its length in *written.
 * OK, MATCH_REFUSED, STATE_REFUSED, NO_MEMORY, NO_ROOM */
int32_t simcore_show(const uint8_t *match, size_t match_n, const uint8_t *state, size_t state_n, uint8_t *text, size_t text_room,
                     uint64_t *written, struct simcore_fault *fault);

/* Any command of the program, but a talk: `words` are those behind its name, each with a byte 0 behind it, as "play\0match.json\0" of 16 bytes.
 * The files are handed in, and no other file is read or written. Each is the length of its name in four bytes, the lowest first, its name,
 * its own length so, and its bytes; one stands behind the other, and of two with one name the last counts.
 *
 * What the program prints is put into `text`, without a 0 behind it. What it stores in the file OUT of `state`, `sight`, `log` and `record`
 * is put into `out`: it is what is held under that name when the command has ended, and so the old bytes where it was handed in and the
 * command did not store it, and none after all other commands. Both are put or none: with NO_ROOM nothing is written but both lengths.
 *
 * The status is that of the program, and says what the text holds: words that are none of a command, as bytes that are not UTF-8 or have
 * no 0 at their end, are USAGE with the text of that, and a refusal is what the program prints of it. 3, a file that could not be read,
 * comes of no run in memory. With NO_MEMORY and FILES_REFUSED nothing is written. What is kept of files and text takes memory as often
 * again; a command that stores asks for 16 MB at once, and the files for a time that grows with the square of their number.
 * OK, DIFFERS, USAGE, WRITE_FAULT, TOO_LONG, MATCH_REFUSED to ECONOMY_REFUSED, NO_ROOM, FILES_REFUSED */
int32_t simcore_run(const uint8_t *words, size_t words_n, const uint8_t *files, size_t files_n, uint8_t *text, size_t text_room,
                    uint64_t *text_written, uint8_t *out, size_t out_room, uint64_t *out_written);

/* Level two. What is opened is closed by simcore_close, once, whatever became of it. A handle that holds something else than a call is for
 * answers BAD_HANDLE there, so a mistake of yours changes nothing.
 *
 * What a client and a server say to each other are frames (docs/FORMATS.md, section 6), and all that a host does is to carry them: each
 * whole, in their order, those of a client to the server with its number, and those for a client to it. What travels besides, as who is
 * who and which match is played, is the host's. docs/PROTOCOL.md tells what the frames do. */

/* Opens a client of a match for one of its players, from 1. One that begins in the match, with `begins` not 0, is on at the first state;
 * any other one is off, and may join. None plays the commands that the match file has of its own.
 * OK, BAD_HANDLE, MATCH_REFUSED, NO_PLAYER, NO_MEMORY: the handle stays closed where it was closed */
int32_t simcore_client_open(struct simcore_handle *handle, const uint8_t *match, size_t match_n, uint32_t player, uint32_t begins,
                            struct simcore_fault *fault);

/* The steps of a client. What it says in one waits until it is taken. NO_MEMORY of any of them is as simcore_client_cut: the client is off,
 * and what waited is gone. So end its connection, and let it join again.
 *
 * Wishes to join, if it is off; it is joining then, until it hears the state of another client, and is on, or that there is none, and is off.
 * OK, IDLE, BAD_HANDLE, NO_MEMORY */
int32_t simcore_client_join(struct simcore_handle *handle);

/* Gives a command of its player, as JSON without the player: ["walk",[2,3],"10.5","4"]. It is for the turn behind standing.done, and comes
 * back from the server before it is played. IDLE where it is not on, that turn is none of the match, or 64 were given for it.
 * OK, IDLE, LIST_REFUSED, BAD_HANDLE, NO_MEMORY */
int32_t simcore_client_order(struct simcore_handle *handle, const uint8_t *command, size_t command_n);

/* Hears a frame of the server, one and whole. IDLE where it has no effect, as that of a notice, or of a state that stands for none.
 * OK, IDLE, FRAME_REFUSED, BAD_HANDLE, NO_MEMORY */
int32_t simcore_client_hear(struct simcore_handle *handle, const uint8_t *frame, size_t frame_n);

/* Plays the turns that are released, at most so many, and puts into *played how many these were. For each it says the mark of its state, by
 * which the server compares clients, and that it is done with a turn more, if it is. Many turns in one call cost less than as many calls.
 * OK, IDLE where there is none to be played, BAD_HANDLE, NO_MEMORY */
int32_t simcore_client_play(struct simcore_handle *handle, uint32_t most, uint32_t *played);

/* Its connection has ended: it is off, and forgets all but the match and its player.
 * OK, BAD_HANDLE */
int32_t simcore_client_cut(struct simcore_handle *handle);

/* Takes the frames that wait to be sent, one behind another: they are at the front of the room, and wait no longer. With NO_ROOM all still
 * wait. Where none waits, *written is 0.
 * OK, NO_ROOM, BAD_HANDLE */
int32_t simcore_client_take(struct simcore_handle *handle, uint8_t *room, size_t room_n, uint64_t *written);

/* Where it stands.
 * OK, BAD_HANDLE */
int32_t simcore_client_standing(struct simcore_handle *handle, struct simcore_standing *standing);

/* Opens the server of a match, with a client for each player, of which the first `active` ones begin in the match. It plays nothing.
 * OK, BAD_HANDLE, MATCH_REFUSED, NO_PLAYER, NO_MEMORY: the handle stays closed where it was closed */
int32_t simcore_server_open(struct simcore_handle *handle, const uint8_t *match, size_t match_n, uint32_t active, struct simcore_fault *fault);

/* The steps of a server. NO_MEMORY of any of them has changed nothing: the frame was not heard, and the call may be made again.
 *
 * Hears a frame of a client, one and whole. Bytes that are none cut the client off, as simcore_server_cut. IDLE where there is no such client.
 * OK, IDLE, FRAME_REFUSED, BAD_HANDLE, NO_MEMORY */
int32_t simcore_server_hear(struct simcore_handle *handle, uint32_t from, const uint8_t *frame, size_t frame_n);

/* The connection of a client has ended. What waited for it is gone, and the others may go on without it.
 * OK, IDLE where there is no such client, BAD_HANDLE, NO_MEMORY */
int32_t simcore_server_cut(struct simcore_handle *handle, uint32_t client);

/* Takes the frames that wait for a client, as simcore_client_take does. For a number that is no client's none wait.
 * OK, NO_ROOM, BAD_HANDLE, NO_MEMORY */
int32_t simcore_server_take(struct simcore_handle *handle, uint32_t client, uint8_t *room, size_t room_n, uint64_t *written);

/* The last turn that is released: its commands are final.
 * OK, BAD_HANDLE */
int32_t simcore_server_released(struct simcore_handle *handle, uint32_t *turn);

/* Opens a match that is played on in memory, with no client and no server: at its first state, or at the one that bytes stand for.
 * OK, BAD_HANDLE, MATCH_REFUSED, STATE_REFUSED of a load, NO_MEMORY: the handle stays closed where it was closed */
int32_t simcore_game_open(struct simcore_handle *handle, const uint8_t *match, size_t match_n, struct simcore_fault *fault);
int32_t simcore_game_load(struct simcore_handle *handle, const uint8_t *match, size_t match_n, const uint8_t *state, size_t state_n,
                          struct simcore_fault *fault);

/* Plays a turn with commands as simcore_turn has them. After a refusal, be it of memory, the state is the one before.
 * OK, NO_TURN, LIST_REFUSED, BAD_HANDLE, NO_MEMORY */
int32_t simcore_game_play(struct simcore_handle *handle, const uint8_t *commands, size_t commands_n, struct simcore_fault *fault);

/* Plays turns with the commands that the match file has of its own, as the program's `play` does, at most so many, and puts into *played
 * how many these were. After NO_MEMORY the state is the one before.
 * OK, IDLE where there is none to be played, BAD_HANDLE, NO_MEMORY */
int32_t simcore_game_play_own(struct simcore_handle *handle, uint32_t most, uint32_t *played);

/* Looks at the state of a client or a match, in the answers of simcore_first, simcore_digest, simcore_show and simcore_entities.
 * OK, BAD_HANDLE, NOT_ON; NO_ROOM and NO_MEMORY where there is a room */
int32_t simcore_held_state(struct simcore_handle *handle, uint8_t *state, size_t state_room, uint64_t *written, uint8_t digest[16]);
int32_t simcore_held_digest(struct simcore_handle *handle, uint8_t digest[16], uint32_t *turn);
int32_t simcore_held_show(struct simcore_handle *handle, uint8_t *text, size_t text_room, uint64_t *written);
int32_t simcore_held_entities(struct simcore_handle *handle, struct simcore_entity *rows, size_t rows_room, uint64_t *written);

/* Gives back all that is behind a handle, and leaves zeroes: it is closed, and may be opened again.
 * OK, BAD_HANDLE of a closed one */
int32_t simcore_close(struct simcore_handle *handle);

/* Whether a handle is open. */
static inline int simcore_is_open(const struct simcore_handle *handle) { return handle->held != NULL; }

/* How long the first frame is of bytes that came: hand so many to a call that hears, once they are there. 0 where fewer than four bytes are
 * there, of which nothing can be said. More than SIMCORE_MOST_FRAME is no frame, and its sender may be cut off at once. */
static inline uint64_t simcore_frame_length(const uint8_t *bytes, size_t bytes_n) {
    if (bytes_n < 4) return 0;
    return 4 + ((uint64_t)bytes[0] | (uint64_t)bytes[1] << 8 | (uint64_t)bytes[2] << 16 | (uint64_t)bytes[3] << 24);
}

/* Whether the library that runs is one of this header. Ask it once, before all other calls. */
static inline int simcore_fits(void) {
    uint32_t version = simcore_version();
    return version >> 16 == SIMCORE_VERSION >> 16 && version >= SIMCORE_VERSION;
}

/* A status in words, for a message or a log. */
static inline const char *simcore_status_text(int32_t status) {
    switch (status) {
    case SIMCORE_OK: return "done";
    case SIMCORE_DIFFERS: return "they differ";
    case SIMCORE_USAGE: return "no such command";
    case SIMCORE_WRITE_FAULT: return "the file is too long to be stored";
    case SIMCORE_TOO_LONG: return "a file is too long";
    case SIMCORE_MATCH_REFUSED: return "match refused";
    case SIMCORE_STATE_REFUSED: return "state refused";
    case SIMCORE_LIST_REFUSED: return "list refused";
    case SIMCORE_NO_MEMORY: return "no memory";
    case SIMCORE_NO_TURN: return "no such turn";
    case SIMCORE_NO_FILE: return "no such file";
    case SIMCORE_SIGHT_REFUSED: return "sight refused";
    case SIMCORE_LOG_REFUSED: return "log refused";
    case SIMCORE_ECONOMY_REFUSED: return "economy refused";
    case SIMCORE_NO_ROOM: return "no room";
    case SIMCORE_FILES_REFUSED: return "files refused";
    case SIMCORE_BAD_HANDLE: return "no handle for this call";
    case SIMCORE_IDLE: return "nothing happens";
    case SIMCORE_FRAME_REFUSED: return "frame refused";
    case SIMCORE_NO_PLAYER: return "no such player";
    case SIMCORE_NOT_ON: return "the client is not on";
    default: return "no status of this header";
    }
}

#ifdef __cplusplus
}
#endif
#endif
