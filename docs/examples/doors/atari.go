// A white stone in atari: can it be captured, can it be saved, and what does the capture leave?
package main

// #cgo LDFLAGS: -lgopat_c
// #include "gopat.h"
import "C"
import "fmt"

func vertex(point C.uint16_t) string {
	return fmt.Sprintf("%c%d", "ABCDEFGHJ"[point%9], 9-point/9)
}

func main() {
	board := C.GopatBoard{size: 9}
	for _, point := range []int{31, 39, 41} {
		board.cells[point] = C.GOPAT_BLACK
	}
	board.cells[40] = C.GOPAT_WHITE
	depths := C.GopatDepths{plies: 10, wide: 2, tree: C.GOPAT_STATED}
	attack := C.gopat_attack(board, 40, depths)
	defend := C.gopat_defend(board, 40, depths)
	next := C.gopat_play(board, C.GOPAT_BLACK, attack.at)
	fmt.Printf("attack %d %s, ", attack.code, vertex(attack.at))
	fmt.Printf("defend %d %s, ", defend.code, vertex(defend.at))
	fmt.Printf("liberties %d\n", C.gopat_liberties(next.board, attack.at).number)
}
