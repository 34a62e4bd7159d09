/* A plain tactical reader that speaks a few commands of the protocol: it follows the definitions of the candidates, the
 * game tree and the codes word for word, with no pruning, no order and no table, and shares nothing with gopat.
 * compare_plain.py puts it beside gopat. It reads the stated tree, and with the word `wider` behind its name the wider.
 * With `sure` or `sure-wider` the attacker tries the candidates of that tree, and the defender every point of the board.
 *
 * commands: boardsize S, clear_board, depths PLIES WIDE, play C VERTEX, attack VERTEX, defend VERTEX, quit
 */
#include <stdio.h>
#include <stdlib.h>
#include <string.h>

enum { EMPTY, BLACK, WHITE, POINTS = 81 };
/* the ban: a point (-1: none) and the colour that may not play there */
typedef struct { signed char cell[POINTS]; int ban, banned; } Position;
typedef struct { int target, defender, attacks, wide, attacker_ko, defender_ko; } Node;

static int size = 9, points = 81, plies = 10, wide = 2, wider = 0, sure = 0;

static int neighbours(int p, int *q) {
  int n = 0, row = p / size, column = p % size;
  if (row > 0) q[n++] = p - size;
  if (row + 1 < size) q[n++] = p + size;
  if (column > 0) q[n++] = p - 1;
  if (column + 1 < size) q[n++] = p + 1;
  return n;
}

/* the string of p, and its liberties */
static int string_of(const Position *pos, int p, char *in, char *free) {
  int stack[POINTS], n = 0, count = 0;
  memset(in, 0, POINTS);
  memset(free, 0, POINTS);
  if (pos->cell[p] == EMPTY) return 0;
  in[p] = 1;
  stack[n++] = p;
  while (n) {
    int q = stack[--n], side[4], sides = neighbours(q, side);
    for (int i = 0; i < sides; i++) {
      int r = side[i];
      if (pos->cell[r] == EMPTY && !free[r]) free[r] = 1, count++;
      if (pos->cell[r] == pos->cell[p] && !in[r]) in[r] = 1, stack[n++] = r;
    }
  }
  return count;
}

static int liberties(const Position *pos, int p) {
  char in[POINTS], free[POINTS];
  return string_of(pos, p, in, free);
}

/* the play with no regard to the ban; 0 where the point is taken or the play is suicide */
static int play_free(const Position *pos, int c, int p, Position *new) {
  char in[POINTS], free[POINTS], gone[POINTS] = {0};
  int taken = 0, last = -1;
  if (pos->cell[p] != EMPTY) return 0;
  *new = *pos;
  new->ban = -1;
  new->cell[p] = c;
  for (int q = 0; q < points; q++)
    if (new->cell[q] == 3 - c && liberties(new, q) == 0) gone[q] = 1;
  for (int q = 0; q < points; q++)
    if (gone[q]) new->cell[q] = EMPTY, taken++, last = q;
  int free_points = string_of(new, p, in, free), stones = 0;
  if (free_points == 0) return 0;
  for (int q = 0; q < points; q++) stones += in[q];
  if (taken == 1 && stones == 1 && free_points == 1) new->ban = last, new->banned = 3 - c;
  return 1;
}

static int is_banned(const Position *pos, int c, int p) { return pos->ban == p && pos->banned == c; }

/* the stones of a colour that have a neighbour in a set */
static void stones_beside(const Position *pos, int colour, const char *set, char *is) {
  memset(is, 0, POINTS);
  for (int q = 0; q < points; q++) {
    int side[4], sides = neighbours(q, side);
    for (int i = 0; i < sides; i++) if (pos->cell[q] == colour && set[side[i]]) is[q] = 1;
  }
}

/* the stones of the other colour that are next to the string of p */
static void enemies_beside(const Position *pos, int p, char *is) {
  char in[POINTS], free[POINTS];
  string_of(pos, p, in, free);
  stones_beside(pos, 3 - pos->cell[p], in, is);
}

/* the liberties of each of these stones' strings that has at least so many and at most so many */
static void add_liberties(const Position *pos, const char *stones, int least, int most, char *is) {
  char in[POINTS], free[POINTS];
  for (int q = 0; q < points; q++) {
    if (!stones[q]) continue;
    int count = string_of(pos, q, in, free);
    for (int l = 0; l < points; l++) if (least <= count && count <= most && free[l]) is[l] = 1;
  }
}

/* the empty neighbours of the target's liberties, where it has at least so many and at most so many */
static void add_empty_beside(const Position *pos, int target, int least, int most, char *is) {
  char in[POINTS], free[POINTS], empty[POINTS];
  int count = string_of(pos, target, in, free);
  stones_beside(pos, EMPTY, free, empty);
  for (int p = 0; p < points; p++) if (least <= count && count <= most && empty[p]) is[p] = 1;
}

/* The sets of candidates, each by its sentence in docs/DEFINITIONS.md; the colours are those of target and attacker. */

/* a liberty of the target's string */
static void add_own(const Position *pos, int target, char *is) {
  char alone[POINTS] = {0};
  alone[target] = 1;
  add_liberties(pos, alone, 0, POINTS, is);
}

/* the one liberty of an enemy string next to it that has exactly one */
static void add_captures(const Position *pos, int target, char *is) {
  char enemy[POINTS];
  enemies_beside(pos, target, enemy);
  add_liberties(pos, enemy, 1, 1, is);
}

/* where the target's string has at most two liberties, an empty neighbour of these */
static void add_second(const Position *pos, int target, char *is) { add_empty_beside(pos, target, 0, 2, is); }

/* Backfilling move: take a liberty of the target at which the attacker's play, with the ban dropped, is legal and
 * leaves that stone's string exactly one liberty; this liberty, where it is empty before the play */
static void add_backfilling(const Position *pos, int target, char *is) {
  char in[POINTS], free[POINTS], other[POINTS], last[POINTS];
  Position new;
  string_of(pos, target, in, free);
  for (int l = 0; l < points; l++)
    if (free[l] && play_free(pos, 3 - pos->cell[target], l, &new) && string_of(&new, l, other, last) == 1)
      for (int p = 0; p < points; p++) if (last[p] && pos->cell[p] == EMPTY) is[p] = 1;
}

/* Net: an empty neighbour of a liberty of a target that has exactly three liberties */
static void add_net(const Position *pos, int target, char *is) { add_empty_beside(pos, target, 3, 3, is); }

/* Beside: a liberty of an enemy string that is next to the target's string and has at most so many */
static void add_beside(const Position *pos, int target, int most, char *is) {
  char enemy[POINTS];
  enemies_beside(pos, target, enemy);
  add_liberties(pos, enemy, 0, most, is);
}

/* Rescue, and Save for the defender: the one liberty of a string of the target's colour, another than the target's,
 * that has exactly one and is next to an enemy string with at most two liberties that is next to the target's */
static void add_rescue(const Position *pos, int target, char *is) {
  char own[POINTS], free[POINTS], enemy[POINTS], ally[POINTS];
  enemies_beside(pos, target, enemy);
  string_of(pos, target, own, free);
  for (int q = 0; q < points; q++) {
    if (!enemy[q] || liberties(pos, q) > 2) continue;
    enemies_beside(pos, q, ally);
    for (int r = 0; r < points; r++) if (own[r]) ally[r] = 0;
    add_liberties(pos, ally, 1, 1, is);
  }
}

/* a stone of a linked string: one of the target's colour, another than the target's, that is next to a liberty of the
 * target and has at most so many liberties */
static void linked(const Position *pos, int target, int most, char *is) {
  char own[POINTS], free[POINTS];
  string_of(pos, target, own, free);
  stones_beside(pos, pos->cell[target], free, is);
  for (int q = 0; q < points; q++) if (is[q] && (own[q] || liberties(pos, q) > most)) is[q] = 0;
}

/* Join, and Link for the attacker: a liberty of a linked string that has at most so many */
static void add_join(const Position *pos, int target, int most, char *is) {
  char friend[POINTS];
  linked(pos, target, most, friend);
  add_liberties(pos, friend, 0, POINTS, is);
}

/* Cut: the one liberty of an enemy string that has exactly one and is next to a linked string with at most four */
static void add_cut(const Position *pos, int target, char *is) {
  char friend[POINTS], enemy[POINTS];
  linked(pos, target, 4, friend);
  for (int q = 0; q < points; q++) {
    if (!friend[q]) continue;
    enemies_beside(pos, q, enemy);
    add_liberties(pos, enemy, 1, 1, is);
  }
}

/* Cover: an empty neighbour of a liberty of an enemy string that is next to the target's string and has two or three */
static void add_cover(const Position *pos, int target, char *is) {
  char enemy[POINTS], free[POINTS] = {0}, empty[POINTS];
  enemies_beside(pos, target, enemy);
  add_liberties(pos, enemy, 2, 3, free);
  stones_beside(pos, EMPTY, free, empty);
  for (int p = 0; p < points; p++) if (empty[p]) is[p] = 1;
}

/* whether a stone of the colour at the empty point l would take nothing and have at most one liberty, or none */
static int is_cramped(const Position *pos, int colour, int l) {
  char in[POINTS], free[POINTS], reached[POINTS] = {0};
  int side[4], sides = neighbours(l, side), count = 0;
  for (int i = 0; i < sides; i++) {
    int q = side[i];
    if (pos->cell[q] == EMPTY) reached[q] = 1;
    else if (pos->cell[q] == colour) {
      string_of(pos, q, in, free);
      for (int r = 0; r < points; r++) if (free[r] && r != l) reached[r] = 1;
    } else if (liberties(pos, q) == 1) return 0;
  }
  for (int r = 0; r < points; r++) count += reached[r];
  return count <= 1;
}

/* Approach: take a liberty of an enemy string that is next to the target's string and has at most two, where a stone of
 * the target's colour would be cramped; a liberty of an enemy string next to that liberty that has at most two */
static void add_approach(const Position *pos, int target, char *is) {
  char beside[POINTS] = {0}, enemy[POINTS], alone[POINTS];
  add_beside(pos, target, 2, beside);
  for (int l = 0; l < points; l++) {
    if (!beside[l] || !is_cramped(pos, pos->cell[target], l)) continue;
    memset(alone, 0, POINTS);
    alone[l] = 1;
    stones_beside(pos, 3 - pos->cell[target], alone, enemy);
    add_liberties(pos, enemy, 0, 2, is);
  }
}

/* what the wider tree tries besides: in every ply, and where a wide ply is left */
static void further(const Node *node, const Position *pos, char *is) {
  int target = node->target;
  add_rescue(pos, target, is);
  if (node->attacks) {
    add_beside(pos, target, 2, is);
    if (node->wide == 0) return;
    add_net(pos, target, is);
    add_join(pos, target, 2, is);
  } else {
    add_cut(pos, target, is);
    if (node->wide == 0) return;
    add_beside(pos, target, 4, is);
    add_join(pos, target, 4, is);
    add_cover(pos, target, is);
    add_approach(pos, target, is);
  }
}

/* the points that are tried at the node: the candidates, and in a sure tree every point at the defender's turn */
static void tried(const Node *node, const Position *pos, char *is) {
  int target = node->target;
  memset(is, sure && !node->attacks, POINTS);
  if (sure && !node->attacks) return;
  add_own(pos, target, is);
  add_captures(pos, target, is);
  if (node->wide > 0) {
    add_second(pos, target, is);
    add_backfilling(pos, target, is);
  }
  if (wider) further(node, pos, is);
}

/* where the mover's play at p leads; 0 where it cannot be played */
static int child(const Node *node, const Position *pos, int p, Node *next, Position *new) {
  int mover = node->attacks ? 3 - node->defender : node->defender;
  int left = node->attacks ? node->attacker_ko : node->defender_ko;
  if (pos->cell[p] != EMPTY) return 0;
  if (is_banned(pos, mover, p)) { if (left == 0) return 0; left--; }
  if (!play_free(pos, mover, p, new)) return 0;
  *next = *node;
  if (node->attacks) next->attacker_ko = left; else next->defender_ko = left;
  next->attacks = !node->attacks;
  if (next->wide) next->wide--;
  return 1;
}

static void pass(const Node *node, const Position *pos, Node *next, Position *new) {
  *next = *node;
  next->attacks = !node->attacks;
  if (next->wide) next->wide--;
  *new = *pos;
  new->ban = -1;
}

/* Take back, in the wider tree: the defender has just lost a lone stone, so that each neighbour of its point holds a
 * stone of the attacker, and his play at that point can be made; where it leads */
static int takes_back(const Node *node, const Position *pos, Node *next, Position *new) {
  int side[4], sides = neighbours(node->target, side);
  if (!wider || node->attacks) return 0;
  for (int i = 0; i < sides; i++) if (pos->cell[side[i]] != 3 - node->defender) return 0;
  return child(node, pos, node->target, next, new);
}

static int attacker_wins(int n, const Node *node, const Position *pos) {
  char is[POINTS];
  Node next;
  Position new;
  if (pos->cell[node->target] == EMPTY)
    return !takes_back(node, pos, &next, &new) || (n > 0 && attacker_wins(n - 1, &next, &new));
  if (n == 0) return 0;
  if (node->attacks) {
    int count = liberties(pos, node->target);
    if (count > 4 || (!wider && node->wide == 0 && count > 2)) return 0;
  } else {
    pass(node, pos, &next, &new);
    if (!attacker_wins(n - 1, &next, &new)) return 0;
  }
  tried(node, pos, is);
  for (int p = 0; p < points; p++)
    if (is[p] && child(node, pos, p, &next, &new) && attacker_wins(n - 1, &next, &new) == node->attacks)
      return node->attacks;
  return !node->attacks;
}

/* the first move that gives the side to play its way: -1 is the pass, -2 none */
static int first_move(const Node *node, const Position *pos) {
  char is[POINTS];
  Node next;
  Position new;
  if (!node->attacks) {
    pass(node, pos, &next, &new);
    if (!attacker_wins(plies - 1, &next, &new)) return -1;
  }
  tried(node, pos, is);
  for (int p = 0; p < points; p++)
    if (is[p] && child(node, pos, p, &next, &new) && attacker_wins(plies - 1, &next, &new) == node->attacks) return p;
  return -2;
}

static void answer(int attack, int target, const Position *pos) {
  for (int code = 3; code >= 1; code--) {
    int own = code == 1, other = code == 3;
    Node node = {target, pos->cell[target], attack, wide, attack ? own : other, attack ? other : own};
    if (attacker_wins(plies, &node, pos) != attack) continue;
    int p = first_move(&node, pos);
    if (p == -1) printf("= %d PASS\n\n", code);
    else if (p < 0) abort();
    else printf("= %d %c%d\n\n", code, "ABCDEFGHJ"[p % size], size - p / size);
    return;
  }
  printf("= 0\n\n");
}

static int point(const char *vertex) {
  const char *column = strchr("ABCDEFGHJ", vertex[0]);
  return (size - atoi(vertex + 1)) * size + (int) (column - "ABCDEFGHJ");
}

int main(int words_given, char **word) {
  static Position pos, new;
  char line[200], command[50], a[50], b[50];
  wider = words_given > 1 && (!strcmp(word[1], "wider") || !strcmp(word[1], "sure-wider"));
  sure = words_given > 1 && !strncmp(word[1], "sure", 4);
  pos.ban = -1;
  while (fgets(line, sizeof line, stdin)) {
    int words = sscanf(line, "%49s %49s %49s", command, a, b), ok = 1;
    if (words < 1) continue;
    if (!strcmp(command, "boardsize")) size = atoi(a), points = size * size, memset(&pos, 0, sizeof pos), pos.ban = -1;
    else if (!strcmp(command, "clear_board")) memset(&pos, 0, sizeof pos), pos.ban = -1;
    else if (!strcmp(command, "depths")) plies = atoi(a), wide = atoi(b);
    else if (!strcmp(command, "play")) {
      int c = a[0] == 'b' ? BLACK : WHITE, p = point(b);
      ok = !is_banned(&pos, c, p) && play_free(&pos, c, p, &new);
      if (ok) pos = new;
    } else if (!strcmp(command, "attack") || !strcmp(command, "defend")) {
      int p = point(a);
      if (pos.cell[p] != EMPTY) { answer(command[0] == 'a', p, &pos); fflush(stdout); continue; }
      ok = 0;
    } else ok = 0;
    printf(ok ? "=\n\n" : "? refused\n\n");
  }
  return 0;
}
