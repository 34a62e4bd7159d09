"""The white stone in atari by lines of the protocol, without the pipe: each line is a call."""

import gopat

with gopat.Session() as session:
    for line in ["boardsize 9", "play b E6", "play b D5", "play w E5", "play b F5"]:
        session.line(line)
    attack, defend = session.result("attack E5"), session.result("defend E5")
    session.line("play b " + attack.split()[1])
    print(f"attack {attack}, defend {defend}, liberties {session.result('countlib E4')}")
