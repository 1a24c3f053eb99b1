/* Calls the library as a careless or hostile caller may, and prints a line for each fault that it finds; the last line is
 * 'N passed, M failed'. `python/tests/test_library.py` compiles and runs it. */
#include "vengine.h"

#include <malloc.h>
#include <pthread.h>
#include <stdio.h>
#include <stdlib.h>
#include <string.h>

enum { MARK = 0x5a, BEHIND = 64, LARGE = 1 << 16 };
#ifdef FEW
enum { CALLS = 100, MANY = 30, TURNS = 3, THREADS = 3 };
#else
enum { CALLS = 1000000, MANY = 3000, TURNS = 100, THREADS = 8 };
#endif

static int passed, failed;

static void judge(bool holds, const char *what) {
    if (holds) {
        passed++;
    } else {
        failed++;
        printf("%s\n", what);
    }
}

/* A call with texts. Of the room, `length` bytes are lent, and it has BEHIND more. */
static struct vengine_reply ask(const char *words, const char *file, const char *input, uint8_t *room, size_t length) {
    memset(room, MARK, length + BEHIND);
    const char *bytes = file ? file : "";
    return vengine_answer((const uint8_t *)words, strlen(words), file != NULL, (const uint8_t *)bytes, strlen(bytes),
                          (const uint8_t *)input, strlen(input), room, length);
}

/* Whether all bytes from the first of these on are as they were. */
static bool is_untouched(const uint8_t *room, size_t first, size_t length) {
    for (size_t i = first; i < length + BEHIND; i++)
        if (room[i] != MARK) return false;
    return true;
}

static void holds_answer(const char *words, const char *file, const char *input, uint32_t status, const char *text) {
    static uint8_t room[LARGE + BEHIND];
    struct vengine_reply reply = ask(words, file, input, room, LARGE);
    bool holds = reply.status == status && reply.length == strlen(text) && !memcmp(room, text, reply.length)
        && is_untouched(room, reply.length, LARGE);
    judge(holds, words);
    if (!holds) printf("  came status %u, %zu bytes: %.*s\n", reply.status, reply.length, (int)reply.length, room);
}

static const char *const MATED = "chess\nstartpos\nf2f3 e7e5\ng2g4 d8h4\n";
static const char *const MATED_STATUS = "won black checkmate\nrnb1kbnr/pppp1ppp/8/4p3/6Pq/5P2/PPPPP2P/RNBQKBNR w KQkq - 1 3\n";
static const char *const TINY = "[tiny:chess]\nstartFen = 4k3/8/8/8/8/8/8/4K3 w - - 0 1\n";

static void test_answers(void) {
    holds_answer("status", NULL, MATED, VENGINE_DONE, MATED_STATUS);
    holds_answer("moves", NULL, MATED, VENGINE_DONE, "moves 0\n");
    holds_answer("perft\n3", NULL, "chess\nstartpos\n", VENGINE_DONE, "8902\n");
    holds_answer("reach\nW\na1", NULL, "", VENGINE_DONE, "quiet b1 a2\ntake -\n");
    holds_answer("status", NULL, "chess\nstartpos\ne2e5\n", VENGINE_REFUSED, "error GameFault 5 BadMove 1 e2e5\n");
    holds_answer("perft\n0", NULL, "", VENGINE_USAGE, "usage: vengine [--variants FILE] [--threads N] [COMMAND]\n");
    holds_answer("", NULL, "", VENGINE_USAGE, "usage: vengine [--variants FILE] [--threads N] [COMMAND]\n");
    holds_answer("uci", NULL, "", VENGINE_NOT_REFEREED, "");
    holds_answer("generate\nchess\n1\n10", NULL, "", VENGINE_NOT_REFEREED, "");
    holds_answer("suite", NULL, "", VENGINE_NOT_REFEREED, "");
    holds_answer("--variants\nany\nstatus", TINY, "tiny\nstartpos\n", VENGINE_DONE, "ongoing\n4k3/8/8/8/8/8/8/4K3 w - - 0 1\n");
    holds_answer("--variants\nany\nmoves", NULL, "", VENGINE_NO_FILE, "error FileFault 1 Missing\n");
    holds_answer("status", TINY, "tiny\nstartpos\n", VENGINE_REFUSED, "error GameFault 2 UnknownVariant tiny\n");
}

/* Each length of the room, up to some more than the text has. */
static void test_rooms(void) {
    static uint8_t room[LARGE + BEHIND];
    size_t needed = strlen(MATED_STATUS);
    bool holds = true;
    for (size_t length = 0; length < needed + 10; length++) {
        struct vengine_reply reply = ask("status", NULL, MATED, room, length);
        holds = holds && reply.status == VENGINE_DONE && reply.length == needed;
        holds = holds && (length < needed ? is_untouched(room, 0, length)
                                          : !memcmp(room, MATED_STATUS, needed) && is_untouched(room, needed, length));
    }
    judge(holds, "a room of each length");
}

/* Each length of what is given, cut off at its end: the bytes lie at the end of a block of their own. */
static void test_lengths(void) {
    static uint8_t room[LARGE + BEHIND];
    bool holds = true;
    for (size_t length = 0; length <= strlen(MATED); length++) {
        uint8_t *input = malloc(length ? length : 1);
        memcpy(input, MATED, length);
        struct vengine_reply reply = vengine_answer((const uint8_t *)"status", 6, false, input, 0, input, length, room, LARGE);
        holds = holds && (reply.status == VENGINE_DONE || reply.status == VENGINE_REFUSED) && reply.length <= LARGE;
        free(input);
    }
    judge(holds, "an input of each length");
}

static uint64_t seed = 0x9e3779b97f4a7c15u;

static uint32_t drawn(uint32_t below) {
    seed = seed * 6364136223846793005u + 1442695040888963407u;
    return (uint32_t)(seed >> 33) % below;
}

/* Random bytes; half of the time from those that the texts are made of. */
static size_t draw(uint8_t *bytes, size_t most, const char *start) {
    static const char usual[] = "\n\n  /-[]:=*01234567890abcdefghkqrnbpKQRNBPwW+e2e4chessmovesvariants";
    size_t length = strlen(start), more = drawn((uint32_t)most);
    memcpy(bytes, start, length);
    bool is_usual = drawn(2);
    for (size_t i = 0; i < more; i++) bytes[length + i] = is_usual ? (uint8_t)usual[drawn(sizeof usual - 1)] : (uint8_t)drawn(256);
    return length + more;
}

static void test_hostile(void) {
    static const char *const starts[] = {"", "moves", "status", "perft\n1", "check", "stipulate\ncheck", "reach\n", "variants",
                                         "rules\n", "--variants\nf\nmoves", "--variants\nf\nvariants", "--threads\n"};
    static uint8_t words[400], file[4000], input[4000], room[LARGE + BEHIND];
    bool holds = true;
    for (int i = 0; i < MANY; i++) {
        size_t words_length = draw(words, drawn(3) ? 1 : 100, starts[drawn(sizeof starts / sizeof *starts)]);
        size_t file_length = draw(file, 1000, drawn(2) ? "[some:chess]\n" : "");
        size_t input_length = draw(input, 1000, drawn(2) ? "chess\nstartpos\n" : "");
        size_t length = drawn(2) ? LARGE : drawn(100);
        memset(room, MARK, length + BEHIND);
        struct vengine_reply reply = vengine_answer(words, words_length, drawn(2), file, file_length, input, input_length, room, length);
        size_t written = reply.length <= length ? reply.length : 0;
        holds = holds && is_untouched(room, written, length)
            && (reply.status <= VENGINE_REFUSED || reply.status == VENGINE_NO_FILE) && (reply.status != VENGINE_NOT_REFEREED || !reply.length);
    }
    judge(holds, "hostile bytes");
}

/* After a first call no memory is lost: neither to small calls, of which a million are made, nor to larger ones. */
/* Whether a reply has this status and this text, and nothing else of the room was written. */
static bool says(struct vengine_reply reply, uint32_t status, const char *text, const uint8_t *room) {
    return reply.status == status && reply.length == strlen(text) && !memcmp(room, text, reply.length) && is_untouched(room, reply.length, LARGE);
}

static struct vengine_reply begin(struct vengine_game *game, const char *file, const char *input, uint8_t *room) {
    memset(room, MARK, LARGE + BEHIND);
    return vengine_begin(game, file != NULL, (const uint8_t *)(file ? file : ""), file ? strlen(file) : 0, (const uint8_t *)input, strlen(input), room, LARGE);
}

static struct vengine_reply play(struct vengine_game *game, const char *move, uint8_t *room) {
    memset(room, MARK, LARGE + BEHIND);
    return vengine_play(game, (const uint8_t *)move, strlen(move), room, LARGE);
}

static struct vengine_reply asked(struct vengine_reply (*call)(struct vengine_game *, uint8_t *, size_t), struct vengine_game *game, uint8_t *room) {
    memset(room, MARK, LARGE + BEHIND);
    return call(game, room, LARGE);
}

/* A game that is held goes on as its game text does. */
static void test_games(void) {
    static uint8_t room[LARGE + BEHIND];
    struct vengine_game game = VENGINE_NO_GAME;
    judge(says(begin(&game, NULL, "chess\nstartpos\nf2f3 e7e5\n", room), VENGINE_DONE, "", room) && game.at, "a game begins");
    judge(says(play(&game, "g2g5", room), VENGINE_REFUSED, "error GameFault 5 BadMove 3 g2g5\n", room), "a move that is not legal");
    judge(says(play(&game, "", room), VENGINE_REFUSED, "error GameFault 5 BadMove 3 \n", room), "a move without a byte");
    judge(says(play(&game, "g2g4", room), VENGINE_DONE, "", room), "a move");
    judge(says(play(&game, "d8h4", room), VENGINE_DONE, "", room), "a reply");
    judge(says(asked(vengine_status, &game, room), VENGINE_DONE, MATED_STATUS, room), "its status");
    judge(says(asked(vengine_moves, &game, room), VENGINE_DONE, "moves 0\n", room), "its moves");
    judge(says(play(&game, "a2a3", room), VENGINE_REFUSED, "error GameFault 5 BadMove 5 a2a3\n", room), "a move after the end");
    bool holds = true;
    for (int i = 0; i < 4; i++) holds = holds && vengine_undo(&game);
    judge(holds && !vengine_undo(&game) && !vengine_undo(&game), "moves taken back");
    struct vengine_reply reply = asked(vengine_moves, &game, room);
    judge(reply.length == 109 && !memcmp(room + 100, "moves 20\n", 9), "the moves of the start");
    vengine_end(&game);
    judge(!game.at, "a game ends");
    judge(says(begin(&game, TINY, "tiny\nstartpos\n", room), VENGINE_DONE, "", room), "another begins in its place");
    vengine_end(&game);
    judge(says(begin(&game, NULL, "tiny\nstartpos\n", room), VENGINE_REFUSED, "error GameFault 2 UnknownVariant tiny\n", room) && !game.at, "a game of no variant");
    judge(says(begin(&game, "[a\n", "chess\nstartpos\n", room), VENGINE_REFUSED, "error IniFault 5 BadLine 1\n", room) && !game.at, "a file with a fault");
}

static void test_memory(void) {
    static uint8_t room[LARGE + BEHIND];
    ask("reach\nQ\nd4", NULL, "", room, LARGE);
    ask("moves", NULL, "chess\nstartpos\ne2e4\n", room, LARGE);
    size_t before = mallinfo2().uordblks;
    for (int i = 0; i < CALLS; i++) vengine_answer((const uint8_t *)"reach\nQ\nd4", 10, false, room, 0, room, 0, room, 0);
    for (int i = 0; i < TURNS; i++) ask("moves", NULL, "chess\nstartpos\ne2e4\n", room, LARGE);
    for (int i = 0; i < TURNS; i++) ask("--variants\nf\nmoves", TINY, "tiny\nstartpos\ne1e2 bad\n", room, LARGE);
    for (int i = 0; i < TURNS; i++) {
        struct vengine_game game = VENGINE_NO_GAME;
        begin(&game, TINY, i % 2 ? "tiny\nstartpos\n" : "tiny\nstartpos\ne1e9\n", room);
        if (!game.at) continue;
        for (int j = 0; j < 40; j++) play(&game, j % 4 == 0 ? "e1e2" : j % 4 == 1 ? "e8e7" : j % 4 == 2 ? "e2e1" : "e7e8", room);
        while (vengine_undo(&game)) asked(vengine_moves, &game, room);
        vengine_end(&game);
    }
    judge(mallinfo2().uordblks == before, "memory after a million calls");
}

static void *turns(void *unused) {
    (void)unused;
    uint8_t *room = malloc(LARGE + BEHIND);
    bool holds = true;
    for (int i = 0; i < TURNS; i++) {
        struct vengine_reply reply = ask("status", NULL, MATED, room, LARGE);
        holds = holds && reply.length == strlen(MATED_STATUS) && !memcmp(room, MATED_STATUS, reply.length);
        reply = ask("perft\n2", NULL, "chess\nstartpos\n", room, LARGE);
        holds = holds && reply.length == 4 && !memcmp(room, "400\n", 4);
    }
    free(room);
    return holds ? "" : NULL;
}

static void test_threads(void) {
    pthread_t threads[THREADS];
    void *held;
    for (int i = 0; i < THREADS; i++) pthread_create(&threads[i], NULL, turns, NULL);
    for (int i = 0; i < THREADS; i++) {
        pthread_join(threads[i], &held);
        judge(held != NULL, "calls of a thread");
    }
}

int main(void) {
    test_answers();
    test_rooms();
    test_lengths();
    test_hostile();
    test_games();
    test_memory();
    test_threads();
    printf("%d passed, %d failed\n", passed, failed);
    return failed != 0;
}
