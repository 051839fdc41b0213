// Reads a table of orders as a whole, keeps the open ones, one of fifty, drops the rest and runs on. Its heap profile has the few orders that
// are kept; its memory does not come back. With the word `copy` the kept orders are copied, and it does.
package main

import (
	"bytes"
	"encoding/csv"
	"fmt"
	"io"
	"os"
	"runtime"
	"runtime/pprof"
	"strconv"
	"strings"
)

var open [][]string

// table has 30,000 orders as CSV.
func table() []byte {
	text := make([]byte, 0, 4<<20)
	for id := 0; id < 30_000; id++ {
		state := "shipped"
		if id%50 == 7 {
			state = "open"
		}
		text = strconv.AppendInt(text, int64(1_000_000+id), 10)
		text = append(append(append(text, ",2023-05-17,"...), state...), ",Example Street "...)
		text = strconv.AppendInt(text, int64(100+id%900), 10)
		text = append(text, ",Springfield,12345,paid by card,19.90\n"...)
	}
	return text
}

//go:noinline
func load(from io.Reader) [][]string {
	orders, err := csv.NewReader(from).ReadAll()
	if err != nil {
		panic(err)
	}
	return orders
}

//go:noinline
func copied(order []string) []string {
	fields := make([]string, len(order))
	for i, field := range order {
		fields[i] = strings.Clone(field)
	}
	return fields
}

//go:noinline
func keep(orders [][]string, copying bool) {
	for _, order := range orders {
		if order[2] == "open" {
			if copying {
				order = copied(order)
			}
			open = append(open, order)
		}
	}
}

// tell collects, and prints what the runtime says of the heap.
func tell(when string) {
	runtime.GC()
	var heap runtime.MemStats
	runtime.ReadMemStats(&heap)
	fmt.Printf("%-8s HeapAlloc %9d HeapInuse %9d HeapIdle-HeapReleased %9d\n", when, heap.HeapAlloc, heap.HeapInuse, heap.HeapIdle-heap.HeapReleased)
}

func main() {
	runtime.MemProfileRate = 1
	tell("begin")
	orders := load(bytes.NewReader(table()))
	tell("loaded")
	keep(orders, len(os.Args) > 1 && os.Args[1] == "copy")
	orders = nil
	tell("kept")
	file, err := os.Create("heap")
	if err == nil {
		pprof.WriteHeapProfile(file)
		file.Close()
	}
}
