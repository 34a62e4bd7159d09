"""Every move that captures three white stones, the proof that the first of them does, and its check."""

import gopat

board = gopat.Board.of_rows(
    [
        ".........",
        ".........",
        "...XX....",
        "..XOOX...",
        "..XO.X...",
        "...X.X...",
        ".........",
        ".........",
        ".........",
    ]
)
every = board.all_moves("attack", "D6")
proof = board.proof("attack", "D6")
checked = board.proves("attack", "D6", proof.code, proof.text)
print(f"attack {every.code} by {' '.join(every.moves)}: {proof.text} ({'checked' if checked else 'refused'})")
