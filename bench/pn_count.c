/* How many expansions and nodes the proof trees of `pnmate` have: the definition of a proof tree, done plainly.

   Usage: cc -O2 -o pn_count bench/pn_count.c && ./pn_count FEN N      (White to move; a FEN with [HAND] is of crazyhouse, else of chess)

   For each number of moves from 1 to N, up to that of the mate, it prints the expansions of the tree, its nodes, and the expansions of
   all trees so far. It shares nothing with Vengine, knows no castling and no en passant, and ends no game by repetition, so the
   position has to be one where these do not come up. */
#include <stdint.h>
#include <stdio.h>
#include <stdlib.h>
#include <string.h>

enum { PAWN = 1, KNIGHT, BISHOP, ROOK, QUEEN, KING, DROP = 64, MOST_MOVES = 1024, DEEPEST = 256 };
static const uint32_t INFINITE = 0xffffffffu;
static const char NAMES[] = " pnbrqk", DROPS[] = " PNBRQK";
static const int LEAPS[8][2] = {{1, 2}, {2, 1}, {-1, 2}, {-2, 1}, {1, -2}, {2, -1}, {-1, -2}, {-2, -1}};
static const int STEPS[8][2] = {{1, 0}, {0, 1}, {-1, 0}, {0, -1}, {1, 1}, {1, -1}, {-1, 1}, {-1, -1}};

/* `from` is DROP and the kind where a man is dropped. */
typedef struct { uint8_t from, to, becomes; } Move;
typedef struct { int8_t taken, man, was_promoted, taken_promoted; int counter; } Undo;
typedef struct { uint32_t parent, first, count, proof, disproof; Move chosen; uint8_t left, attacking; } Node;

/* Men of White are positive; `side` is 1 or -1. */
static int8_t board[64], promoted[64], hand[2][7];
static int side = 1, counter = 0, has_hands = 0;
static Node *nodes;
static uint64_t len, room;

static int8_t *hand_of(int who) { return hand[who < 0]; }
static int inside(int x, int y) { return x >= 0 && x < 8 && y >= 0 && y < 8; }

static int slides_by(int kind, int way) { return kind == QUEEN || kind == (way < 4 ? ROOK : BISHOP); }

static int is_attacked(int square, int by) {
    int x = square & 7, y = square >> 3;
    for (int i = 0; i < 8; i++) {
        int a = x + LEAPS[i][0], b = y + LEAPS[i][1];
        if (inside(a, b) && board[8 * b + a] == KNIGHT * by) return 1;
        a = x + STEPS[i][0], b = y + STEPS[i][1];
        if (inside(a, b) && board[8 * b + a] == KING * by) return 1;
        for (; inside(a, b); a += STEPS[i][0], b += STEPS[i][1])
            if (board[8 * b + a]) {
                if (board[8 * b + a] * by > 0 && slides_by(board[8 * b + a] * by, i)) return 1;
                break;
            }
    }
    for (int a = x - 1; a <= x + 1; a += 2)
        if (inside(a, y - by) && board[8 * (y - by) + a] == PAWN * by) return 1;
    return 0;
}

static int is_checked(int who) {
    for (int i = 0; i < 64; i++)
        if (board[i] == KING * who) return is_attacked(i, -who);
    return 0;
}

static Undo make(Move m) {
    Undo u = {board[m.to], 0, 0, promoted[m.to], counter};
    if (m.from >= DROP) {
        board[m.to] = (m.from - DROP) * side, promoted[m.to] = 0;
        hand_of(side)[m.from - DROP]--, counter++;
    } else {
        u.man = board[m.from], u.was_promoted = promoted[m.from];
        board[m.from] = 0, promoted[m.from] = 0;
        board[m.to] = m.becomes ? m.becomes * side : u.man, promoted[m.to] = m.becomes ? 1 : u.was_promoted;
        if (has_hands && u.taken) hand_of(side)[u.taken_promoted ? PAWN : abs(u.taken)]++;
        counter = u.taken || abs(u.man) == PAWN ? 0 : counter + 1;
    }
    side = -side;
    return u;
}

static void unmake(Move m, Undo u) {
    side = -side, counter = u.counter;
    board[m.to] = u.taken, promoted[m.to] = u.taken_promoted;
    if (m.from >= DROP) {
        hand_of(side)[m.from - DROP]++;
    } else {
        board[m.from] = u.man, promoted[m.from] = u.was_promoted;
        if (has_hands && u.taken) hand_of(side)[u.taken_promoted ? PAWN : abs(u.taken)]--;
    }
}

static void write_move(char *text, Move m) {
    int at = m.from >= DROP ? sprintf(text, "%c@", DROPS[m.from - DROP]) : sprintf(text, "%c%c", 'a' + (m.from & 7), '1' + (m.from >> 3));
    at += sprintf(text + at, "%c%c", 'a' + (m.to & 7), '1' + (m.to >> 3));
    if (m.becomes) sprintf(text + at, "%c", NAMES[m.becomes]);
}

static int by_text(const void *one, const void *other) {
    char a[8], b[8];
    write_move(a, *(const Move *)one), write_move(b, *(const Move *)other);
    return strcmp(a, b);
}

static void add_pawn(Move *found, int *count, int from, int to) {
    int last = side > 0 ? 7 : 0;
    if (to >> 3 != last) found[(*count)++] = (Move){from, to, 0};
    else
        for (int kind = KNIGHT; kind <= QUEEN; kind++) found[(*count)++] = (Move){from, to, kind};
}

static void add_pawns(Move *found, int *count, int from) {
    int x = from & 7, to = from + 8 * side;
    if (!board[to]) {
        add_pawn(found, count, from, to);
        if (from >> 3 == (side > 0 ? 1 : 6) && !board[to + 8 * side]) add_pawn(found, count, from, to + 8 * side);
    }
    for (int a = x - 1; a <= x + 1; a += 2)
        if (a >= 0 && a < 8 && board[to + a - x] * side < 0) add_pawn(found, count, from, to + a - x);
}

static void add_piece(Move *found, int *count, int from, int kind) {
    const int(*ways)[2] = kind == KNIGHT ? LEAPS : STEPS;
    for (int i = 0; i < 8; i++) {
        if (kind != KNIGHT && kind != KING && !slides_by(kind, i)) continue;
        for (int a = (from & 7) + ways[i][0], b = (from >> 3) + ways[i][1]; inside(a, b); a += ways[i][0], b += ways[i][1]) {
            if (board[8 * b + a] * side <= 0) found[(*count)++] = (Move){from, 8 * b + a, 0};
            if (board[8 * b + a] || kind == KNIGHT || kind == KING) break;
        }
    }
}

/* The legal moves, in the order of their texts. */
static int legal(Move *kept) {
    Move found[MOST_MOVES];
    int count = 0, some = 0;
    for (int from = 0; from < 64; from++) {
        int kind = board[from] * side;
        if (kind == PAWN) add_pawns(found, &count, from);
        else if (kind > 0) add_piece(found, &count, from, kind);
    }
    for (int kind = PAWN; kind <= QUEEN; kind++)
        for (int to = 0; to < 64 && hand_of(side)[kind]; to++)
            if (!board[to] && (kind != PAWN || (to >> 3 != 0 && to >> 3 != 7))) found[count++] = (Move){DROP + kind, to, 0};
    for (int i = 0; i < count; i++) {
        Undo u = make(found[i]);
        if (!is_checked(-side)) kept[some++] = found[i];
        unmake(found[i], u);
    }
    qsort(kept, some, sizeof(Move), by_text);
    return some;
}

/* The number by which a node's side to move chooses; the other one is a sum. */
static uint32_t chosen_by(int attacking, const Node *v) { return attacking ? v->proof : v->disproof; }

/* Works the numbers of an inner node out; whether they are others than before. */
static int number(Node *v) {
    uint32_t least = INFINITE;
    uint64_t sum = 0;
    int has_infinite = 0;
    for (uint32_t k = 0; k < v->count; k++) {
        const Node *child = &nodes[v->first + k];
        uint32_t own = chosen_by(v->attacking, child), other = chosen_by(!v->attacking, child);
        if (own < least) least = own;
        has_infinite |= other == INFINITE;
        sum += other;
    }
    uint32_t whole = has_infinite ? INFINITE : sum > INFINITE - 1 ? INFINITE - 1 : (uint32_t)sum;
    uint32_t proof = v->attacking ? least : whole, disproof = v->attacking ? whole : least;
    int changed = proof != v->proof || disproof != v->disproof;
    v->proof = proof, v->disproof = disproof;
    return changed;
}

static void settle(Node *v, int is_won) { v->proof = is_won ? 0 : INFINITE, v->disproof = is_won ? INFINITE : 0; }

static void add_children(uint64_t at, const Move *moves, int count) {
    while (len + count > room) {
        room = room ? 2 * room : 1 << 20;
        nodes = realloc(nodes, room * sizeof(Node));
        if (!nodes) exit(1);
    }
    nodes[at].first = len, nodes[at].count = count;
    for (int i = 0; i < count; i++)
        nodes[len++] = (Node){at, 0, 0, 1, 1, moves[i], nodes[at].left - nodes[at].attacking, !nodes[at].attacking};
}

/* Expands the leaf whose position is on the board. */
static void expand(uint64_t at, int attacker) {
    Move moves[MOST_MOVES];
    int count = legal(moves);
    if (at && !count) settle(&nodes[at], side != attacker && is_checked(side));
    else if ((at && counter >= 100) || (nodes[at].attacking && !nodes[at].left)) settle(&nodes[at], 0);
    else {
        add_children(at, moves, count);
        number(&nodes[at]);
    }
    while (at) {
        at = nodes[at].parent;
        if (!number(&nodes[at])) break;
    }
}

static void grow(int attacker) {
    Move made[DEEPEST];
    Undo undo[DEEPEST];
    uint64_t at = 0;
    int deep = 0;
    while (nodes[at].count) {
        int attacking = nodes[at].attacking;
        uint32_t wanted = chosen_by(attacking, &nodes[at]), child = nodes[at].first;
        while (chosen_by(attacking, &nodes[child]) != wanted) child++;
        at = child, made[deep] = nodes[at].chosen, undo[deep] = make(made[deep]), deep++;
    }
    expand(at, attacker);
    while (deep--) unmake(made[deep], undo[deep]);
}

static void read_position(const char *fen) {
    int x = 0, y = 7;
    for (; *fen && *fen != ' '; fen++) {
        if (*fen == '/') x = 0, y--;
        else if (*fen == '[') {
            for (has_hands = 1, fen++; *fen != ']'; fen++) hand[*fen >= 'a'][strchr(NAMES, *fen | 32) - NAMES]++;
        } else if (*fen >= '1' && *fen <= '8') x += *fen - '0';
        else {
            int kind = strchr(NAMES, *fen | 32) - NAMES;
            board[8 * y + x++] = *fen >= 'a' ? -kind : kind;
        }
    }
}

int main(int count, char **words) {
    uint64_t whole = 0;
    if (count != 3) return fprintf(stderr, "usage: pn_count FEN N\n"), 2;
    read_position(words[1]);
    for (int n = 1; n <= atoi(words[2]); n++) {
        uint64_t expansions = 0;
        len = 0;
        if (!nodes) nodes = malloc((room = 1 << 20) * sizeof(Node));
        nodes[len++] = (Node){0, 0, 0, 1, 1, {0, 0, 0}, n, 1};
        for (; nodes[0].proof != INFINITE && nodes[0].disproof != INFINITE; expansions++) grow(side);
        whole += expansions;
        printf("%d %s %llu expansions %llu nodes %llu in all\n", n, nodes[0].proof ? "none" : "mate", (unsigned long long)expansions,
               (unsigned long long)len, (unsigned long long)whole);
        fflush(stdout);
        if (!nodes[0].proof) break;
    }
    return 0;
}
