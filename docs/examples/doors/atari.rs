//! A white stone in atari: can it be captured, can it be saved, and what does the capture leave?

#[repr(C)] #[derive(Clone, Copy)] struct Board { size: u8, ban_colour: u8, ban_point: u16, cells: [u8; 625] }
#[repr(C)] #[derive(Clone, Copy)] struct Depths { plies: u8, wide: u8, tree: u8 }
#[repr(C)] struct Answer { status: u8, code: u8, at: u16 }
#[repr(C)] struct Number { status: u8, number: u16 }
#[repr(C)] struct Played { status: u8, board: Board }

#[link(name = "gopat_c")]
unsafe extern "C" {
    safe fn gopat_attack(board: Board, target: u16, depths: Depths) -> Answer;
    safe fn gopat_defend(board: Board, target: u16, depths: Depths) -> Answer;
    safe fn gopat_play(board: Board, colour: u8, at: u16) -> Played;
    safe fn gopat_liberties(board: Board, at: u16) -> Number;
}

fn main() {
    let mut board = Board { size: 9, ban_colour: 0, ban_point: 0, cells: [0; 625] };
    for (point, stone) in [(31, 1), (39, 1), (40, 2), (41, 1)] { board.cells[point] = stone; }
    let vertex = |p: u16| format!("{}{}", b"ABCDEFGHJ"[p as usize % 9] as char, 9 - p / 9);
    let depths = Depths { plies: 10, wide: 2, tree: 0 };
    let (attack, defend) = (gopat_attack(board, 40, depths), gopat_defend(board, 40, depths));
    let next = gopat_play(board, 1, attack.at);
    let left = gopat_liberties(next.board, attack.at);
    assert!([attack.status, defend.status, next.status, left.status] == [0; 4]);
    print!("attack {} {}, defend {} {}, ", attack.code, vertex(attack.at), defend.code, vertex(defend.at));
    println!("liberties {}", left.number);
}
