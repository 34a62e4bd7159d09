"""A white stone in atari: can it be captured, can it be saved, and what does the capture leave?"""

import gopat

board = gopat.Board.of_rows(
    [
        ".........",
        ".........",
        ".........",
        "....X....",
        "...XOX...",
        ".........",
        ".........",
        ".........",
        ".........",
    ]
)
attack, defend = board.attack("E5"), board.defend("E5")
after = board.play(gopat.BLACK, attack.move)
left = after.liberties(attack.move)
print(f"attack {attack.code} {attack.move}, defend {defend.code} {defend.move}, liberties {left}")
