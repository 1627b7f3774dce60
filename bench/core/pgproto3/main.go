// Times pgproto3, the message layer of pgx, by the commands of ../timer/timer.c, but for count.
package main

import (
	"bufio"
	"fmt"
	"hash/fnv"
	"os"
	"syscall"
	"unsafe"
)

// Each does its work so often, and gives what it has at the end: the bytes, or the consumer's number.
var encoders = map[string]func(script []byte, times int) []byte{
	"prepared": encodePrepared,
	"script":   encodeScript,
}

func main() {
	var input []byte
	lines := bufio.NewScanner(os.Stdin)
	for lines.Scan() {
		var command, word string
		var piece, passes int
		fmt.Sscan(lines.Text(), &command, &word, &piece, &passes)
		switch command {
		case "load":
			input, _ = os.ReadFile(word)
			fmt.Println(len(input))
		case "check":
			fmt.Println(check(word, input, piece))
		case "time":
			fmt.Println(timed(word, input, piece, passes))
		default:
			fmt.Println(0)
		}
	}
}

func check(how string, input []byte, piece int) uint64 {
	if encode := encoders[how]; encode != nil {
		hash := fnv.New64a()
		hash.Write(encode(input, 1))
		return hash.Sum64()
	}
	sum := consumer{isChecksum: true}
	if decode(how, input, piece, 1, &sum) != nil {
		return 0
	}
	return sum.value
}

// The processor time of the passes after the first, in nanoseconds.
func timed(how string, input []byte, piece, passes int) int64 {
	begin := processorTime()
	run(how, input, piece, 1)
	first := processorTime()
	run(how, input, piece, 1+passes)
	all := processorTime()
	return (all - first) - (first - begin)
}

func run(how string, input []byte, piece, times int) {
	if encode := encoders[how]; encode != nil {
		encode(input, times)
		return
	}
	decode(how, input, piece, times, &consumer{})
}

func processorTime() int64 {
	const clockProcessCPUTime = 2
	var now syscall.Timespec
	syscall.Syscall(syscall.SYS_CLOCK_GETTIME, clockProcessCPUTime, uintptr(unsafe.Pointer(&now)), 0)
	return now.Nano()
}
