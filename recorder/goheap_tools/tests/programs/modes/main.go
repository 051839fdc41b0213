// Modes is a program of many small runs: its first word says which.
package main

import (
	"encoding/json"
	"fmt"
	"os"
	"os/exec"
	"os/signal"
	"runtime"
	"runtime/debug"
	"strconv"
	"strings"
	"sync"
	"syscall"
	"time"
)

type node struct {
	next *node
	data [5]uint64
}

var (
	kept  *node
	lists [][]byte
	words []string
)

// keep allocates so many objects, keeps one of ten and makes tiny, large and empty ones beside them.
//
//go:noinline
func keep(count int) {
	for i := 0; i < count; i++ {
		one := &node{next: kept}
		if i%10 == 0 {
			kept = one
		}
		if i%100 == 0 {
			lists = append(lists, make([]byte, 40000+i))
			if len(lists) > 20 {
				lists = lists[10:]
			}
		}
		words = append(words[:i%50], strconv.Itoa(i*1000))
		empty(i)
	}
}

var nothing []struct{}
var sink any

//go:noinline
func empty(i int) {
	sink = make([]byte, i%2*8)
}

// work allocates on so many goroutines at once.
func work(goroutines, count int) {
	var done sync.WaitGroup
	for i := 0; i < goroutines; i++ {
		done.Add(1)
		go func() {
			defer done.Done()
			var own []*node
			for j := 0; j < count; j++ {
				own = append(own, &node{})
			}
			runtime.KeepAlive(own)
		}()
	}
	done.Wait()
}

func tell() {
	var stats runtime.MemStats
	runtime.ReadMemStats(&stats)
	json.NewEncoder(os.Stdout).Encode(map[string]uint64{
		"mallocs": stats.Mallocs, "frees": stats.Frees, "heap_alloc": stats.HeapAlloc, "heap_in_use": stats.HeapInuse, "stack_in_use": stats.StackInuse,
		"idle": stats.HeapIdle, "released": stats.HeapReleased, "collections": uint64(stats.NumGC), "total": stats.TotalAlloc,
	})
}

// counts prints the runtime's own counters now and then.
func counts() {
	tell()
	for round := 0; round < 6; round++ {
		keep(3000)
		tell()
		work(8, 2000)
		tell()
		if round%2 == 0 {
			runtime.GC()
			tell()
		}
		if round == 3 {
			lists = nil
			debug.FreeOSMemory()
			tell()
		}
	}
}

func processors() {
	for _, count := range []int{1, 3, 2, 4, 1} {
		runtime.GOMAXPROCS(count)
		work(6, 3000)
		tell()
	}
	runtime.GC()
	tell()
}

// profile prints how many objects of each function Go's own profile has.
func profile() {
	keep(2000)
	work(30, 10)
	runtime.GC()
	runtime.GC()
	records := make([]runtime.MemProfileRecord, 10000)
	count, _ := runtime.MemProfile(records, true)
	found := map[string]int64{}
	for _, record := range records[:count] {
		found[allocator(record.Stack())] += record.AllocObjects
	}
	json.NewEncoder(os.Stdout).Encode(found)
}

// allocator is the function that a heap profile of Go shows: the first that is not the runtime's, or the first of all.
func allocator(stack []uintptr) string {
	first := ""
	frames := runtime.CallersFrames(stack)
	for {
		frame, more := frames.Next()
		if first == "" {
			first = frame.Function
		}
		if !strings.HasPrefix(frame.Function, "runtime.") {
			return frame.Function
		}
		if !more {
			return first
		}
	}
}

// children starts this program twice more, one behind the other, and once from within a child.
func children(levels int) {
	keep(500)
	if levels == 0 {
		return
	}
	for i := 0; i < levels; i++ {
		self, _ := os.Executable()
		command := exec.Command(self, "children", strconv.Itoa(levels-1))
		command.Stdout, command.Stderr = os.Stdout, os.Stderr
		if err := command.Run(); err != nil {
			fmt.Println(err)
			os.Exit(1)
		}
	}
}

// wait allocates until a signal comes; SIGUSR2 ends it well.
func wait() {
	came := make(chan os.Signal, 1)
	signal.Notify(came, syscall.SIGUSR2)
	fmt.Println("ready")
	for {
		select {
		case <-came:
			fmt.Println("came")
			os.Exit(7)
		case <-time.After(time.Millisecond):
			keep(100)
			runtime.GC()
		}
	}
}

func environment() {
	for _, one := range os.Environ() {
		if strings.HasPrefix(one, "GOHEAP_RECORD") {
			fmt.Println(one)
		}
	}
	fmt.Println("arguments", os.Args[2:])
	keep(10)
}

func number(at, usual int) int {
	if len(os.Args) > at {
		if n, err := strconv.Atoi(os.Args[at]); err == nil {
			return n
		}
	}
	return usual
}

func init() {
	if len(os.Args) > 1 && os.Args[1] == "profile" {
		runtime.MemProfileRate = number(2, 1)
	}
}

func main() {
	mode := ""
	if len(os.Args) > 1 {
		mode = os.Args[1]
	}
	switch mode {
	case "counts":
		counts()
	case "processors":
		processors()
	case "profile":
		profile()
	case "children":
		children(number(2, 1))
	case "wait":
		wait()
	case "environment":
		environment()
	case "exit":
		keep(100)
		os.Exit(number(2, 3))
	case "panic":
		keep(100)
		panic("on purpose")
	case "keep":
		keep(number(2, 1000))
		runtime.GC()
	case "addresses":
		keep(500)
		fmt.Printf("%p %p %p\n", kept, kept.next, lists[0])
	}
}
