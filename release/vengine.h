/* The referee of Vengine in the process of its caller: docs/LIBRARY.md.
 *
 * Link libvengine.a or libvengine.so.1, which need the C library alone. The library starts no thread, opens no file,
 * and writes nothing but what is said here. It allocates by `malloc`. Between two calls it keeps nothing but the games
 * that `vengine_begin` has begun. No call is made in a signal handler, or in the forked child of a process with
 * threads.
 *
 * No pointer is null, also where its length is 0. A room does not lie over anything else that is given, and no other
 * thread writes to what is given, or reads a room, during the call. No length is above PTRDIFF_MAX.
 */
#ifndef VENGINE_H
#define VENGINE_H

#include <stdbool.h>
#include <stddef.h>
#include <stdint.h>

#ifdef __cplusplus
extern "C" {
#endif

/* The statuses of a call. Those but VENGINE_NOT_REFEREED are the statuses of the program. */
enum {
    VENGINE_DONE = 0,         /* the text is what the command prints */
    VENGINE_NOT_REFEREED = 1, /* no text: the words are of a session or a search, which the library does not do */
    VENGINE_USAGE = 2,        /* the text is the usage line: the words are of no command */
    VENGINE_REFUSED = 3,      /* the text is `error FAULT`: an argument, the file or the input has this fault */
    VENGINE_NO_FILE = 6,      /* the text is `error FAULT`: the words name a file, and none is given, or a larger one
                                 than 1,048,576 bytes */
    VENGINE_NO_MEMORY = 7     /* no text: there was no memory */
};

struct vengine_reply {
    size_t length;   /* how many bytes the text has, 0 where there is none */
    uint32_t status; /* one of those above */
};

/* What the program prints that is run with these words, where the file of variants has these bytes and standard input
 * has those.
 *
 *   words   the words of the command line after the program's name, with a line feed between two, as "perft\n3" or
 *           "--variants\nmy.ini\nmoves". The commands are moves, status, checkers, perft, check, stipulate, reach,
 *           variants, rules, help and --version: docs/COMMANDS.md.
 *   file    the bytes of the file that follows `--variants` among the words, whatever its name is. With has_file false
 *           there is no such file; then its bytes are not looked at.
 *   input   what the command reads: for `moves` a game, as "chess\nstartpos\ne2e4 e7e5\n".
 *   room    where the text goes. It is written, from the first byte on, only if all of it has room, that is where
 *           reply.length <= room_length; else nothing is, and a call with a room of reply.length bytes gives it. What
 *           lies behind the text stays as it is. There is no byte 0 at its end.
 *
 * Any number of threads may call at once, each with a room of its own.
 */
struct vengine_reply vengine_answer(const uint8_t *words, size_t words_length,
                                    bool has_file, const uint8_t *file, size_t file_length,
                                    const uint8_t *input, size_t input_length,
                                    uint8_t *room, size_t room_length);

/* The version of the library: the text is three numbers, as "1.0.0". The status is VENGINE_DONE. */
struct vengine_reply vengine_version(uint8_t *room, size_t room_length);

/* A game that is held, with the tables of its rules; or none, where `at` is null. It begins as VENGINE_NO_GAME, and a
 * caller only tests `at`: it writes nothing of it, and does not go on with a copy. All calls with one game are made by
 * the thread that began it; different threads may each have games of their own.
 */
struct vengine_game {
    void *at;
};

#define VENGINE_NO_GAME {0}

/* Begins the game that a game text says, as "chess\nstartpos\ne2e4 e7e5\n", of the variants that are built in and of
 * those of the file. With VENGINE_DONE the game is held, and there is no text. Else none is held, and the text is
 * `error FAULT`: with VENGINE_REFUSED the fault of the file or of the game text, and with VENGINE_NO_FILE that the file
 * is larger than 1,048,576 bytes. `game` holds none before the call.
 */
struct vengine_reply vengine_begin(struct vengine_game *game, bool has_file, const uint8_t *file, size_t file_length,
                                   const uint8_t *input, size_t input_length, uint8_t *room, size_t room_length);

/* The calls below are for a game that is held.
 *
 * vengine_play    plays the legal move with this text, as "e2e4". With VENGINE_DONE it is played, and there is no text.
 *                 Else the game is what it was: with VENGINE_REFUSED the text is `error FAULT`.
 * vengine_undo    takes the last move back; false where there is none.
 * vengine_moves   the text is what `moves` prints: each legal move on a line, and then `moves` and their number.
 * vengine_status  the text is what `status` prints: how the game stands, and on a second line its position.
 * vengine_checkers the text is what `checkers` prints: the squares of the pieces that attack the king of the side to
 *                 move, or a dash.
 * vengine_end     frees all that the game holds. `game` holds none then, and may begin another.
 */
struct vengine_reply vengine_play(struct vengine_game *game, const uint8_t *move, size_t move_length,
                                  uint8_t *room, size_t room_length);
bool vengine_undo(struct vengine_game *game);
struct vengine_reply vengine_moves(struct vengine_game *game, uint8_t *room, size_t room_length);
struct vengine_reply vengine_status(struct vengine_game *game, uint8_t *room, size_t room_length);
struct vengine_reply vengine_checkers(struct vengine_game *game, uint8_t *room, size_t room_length);
void vengine_end(struct vengine_game *game);

#ifdef __cplusplus
}
#endif

#endif
