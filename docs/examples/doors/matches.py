"""Where a pattern of one stone in the second line matches, as numbers."""

import gopat

board = gopat.Board.of_rows(["........."] * 5 + [".......X."] + ["........."] * 3)
with gopat.Patterns("Pattern Edge\nO*|\n:8,s\n") as patterns:
    moves = [match.move for match in patterns.matches(board, gopat.BLACK)]
    print(f"{patterns.count} pattern, matches: {' '.join(moves)}")
