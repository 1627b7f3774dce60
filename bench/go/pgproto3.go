// How long pgproto3, the messages of Go's driver pgx, takes to read the bodies that `read_bench bodies` prints, and to
// write the rows of `put_bench rows`; and how long Go takes to read the messages of `logical_bench bodies`. Prints for each
// a line as those of `print_turns`: medians of processor time.
package main

import (
	"bufio"
	"encoding/hex"
	"fmt"
	"os"
	"sort"
	"strconv"
	"strings"
	"syscall"

	"github.com/jackc/pgproto3/v2"
)

const rounds, times = 101, 20000

// A message of each kind, which is used again for each body, as pgproto3's own Backend does.
var messages = map[string]interface{ Decode([]byte) error }{
	"B": &pgproto3.Bind{}, "P": &pgproto3.Parse{}, "E": &pgproto3.Execute{}, "I": &insertMessage{},
}

func fail(why error) {
	fmt.Fprintln(os.Stderr, "pgproto3:", why)
	os.Exit(1)
}

// The processor time of this program so far, in nanoseconds, with what the garbage collector takes.
func now() float64 {
	var usage syscall.Rusage
	if err := syscall.Getrusage(syscall.RUSAGE_SELF, &usage); err != nil {
		fail(err)
	}
	return float64(usage.Utime.Nano() + usage.Stime.Nano())
}

// How long one turn of some work takes.
func measure(work func()) float64 {
	var all [rounds]float64
	for round := range all {
		begin := now()
		for i := 0; i < times; i++ {
			work()
		}
		all[round] = (now() - begin) / times
	}
	sort.Float64s(all[:])
	return all[rounds/2]
}

// How long one reading of a body takes.
func measureReading(message interface{ Decode([]byte) error }, body []byte) float64 {
	return measure(func() {
		if err := message.Decode(body); err != nil {
			fail(err)
		}
	})
}

// How long one writing of a row takes, into room that is there.
func measureRow(body []byte) float64 {
	var row pgproto3.DataRow
	if err := row.Decode(body); err != nil {
		fail(err)
	}
	room := make([]byte, 0, 65536)
	return measure(func() {
		room = row.Encode(room[:0])
	})
}

// Prints the line of a message: its words, its tag, its body and the library's nanoseconds are apart by tabs.
func compare(line string) {
	parts := strings.Split(line, "\t")
	body, err := hex.DecodeString(parts[2])
	if err != nil {
		fail(err)
	}
	library, err := strconv.ParseFloat(parts[3], 64)
	if err != nil {
		fail(err)
	}
	var own float64
	if parts[1] == "D" {
		own = measureRow(body)
	} else {
		own = measureReading(messages[parts[1]], body)
	}
	done, other := fmt.Sprintf("read a client's %s, with its lists", parts[0]), "pgproto3"
	switch parts[1] {
	case "D":
		done = "write " + parts[0]
	case "I":
		done, other = "read "+parts[0], "Go by hand"
	}
	fmt.Printf("| %s | %.1f | %s | %.1f | %.2f |\n", done, library, other, own, library/own)
}

func main() {
	var lines []string
	for input := bufio.NewScanner(os.Stdin); input.Scan(); {
		lines = append(lines, input.Text())
	}
	for _, line := range lines {
		compare(line)
	}
}
