// Heaps is a program of many small runs, whose recordings are held against the allocator's rules. Its first word says which.
package main

import (
	"bufio"
	"fmt"
	"os"
	"os/exec"
	"runtime"
	"runtime/debug"
	"strconv"
	"strings"
	"sync"
)

var runs = map[string]func(words []string){
	"small": small, "tiny": tiny, "large": large, "finalizers": finalizers, "given": given, "processors": processors, "forty": forty,
	"addresses": addresses, "stacks": stacks, "forever": forever, "lines": lines, "child": child, "sampled": sampled,
	"sizes": sizes, "memory": memory, "few": few,
}

func main() {
	run := runs[os.Args[1]]
	run(os.Args[2:])
}

// counted collects, and prints the runtime's counters.
func counted() {
	runtime.GC()
	var m runtime.MemStats
	runtime.ReadMemStats(&m)
	println("counted", m.Mallocs, m.Frees, m.HeapAlloc, m.HeapInuse, m.StackInuse, m.NumGC)
}

type node struct {
	next *node
	data [3]int
}

var (
	nodes *node
	kept  [][]byte
	any1  any
)

// mix allocates so many nodes and byte slices, and keeps some of them.
//
//go:noinline
func mix(count int) {
	for i := 0; i < count; i++ {
		nodes = &node{next: nodes}
		if i%10 == 0 {
			nodes = nil
		}
		bytes := make([]byte, i%2000)
		if i%100 == 0 {
			kept = append(kept, bytes)
		}
	}
}

func small([]string) {
	for i := 0; i < 3; i++ {
		mix(8000)
		counted()
		kept = kept[:len(kept)/2]
	}
}

// tiny allocates what shares blocks of 16 bytes, between objects that do not.
func tiny([]string) {
	var held []*int8
	for i := 0; i < 8000; i++ {
		held = append(held, new(int8))
		any1 = new(int16)
		any1 = strconv.Itoa(1000 + i)
		any1 = make([]byte, i%16)
		if i%50 == 0 {
			any1 = make([]byte, 33000+i)
			held = nil
		}
	}
	counted()
}

func large([]string) {
	for i := 0; i < 200; i++ {
		kept = append(kept, make([]byte, 32768+i*3000))
		any1 = make([]*int, 5000+i)
		if len(kept) > 12 {
			kept = kept[6:]
		}
	}
	counted()
}

func finalizers([]string) {
	done := make(chan bool, 1000)
	for i := 0; i < 1000; i++ {
		one := &node{next: nodes}
		runtime.SetFinalizer(one, func(*node) { done <- true })
		mix(8)
	}
	nodes = nil
	for ended := 0; ended < 900; {
		runtime.GC()
		for len(done) > 0 {
			<-done
			ended++
		}
	}
	counted()
}

// given gives memory back to the system, and takes it again.
func given([]string) {
	for i := 0; i < 3; i++ {
		mix(4000)
		large(nil)
		kept, nodes = nil, nil
		debug.FreeOSMemory()
		counted()
	}
}

func processors([]string) {
	for _, count := range []int{1, 3, 2, 4, 1, 6} {
		runtime.GOMAXPROCS(count)
		work(count+2, 1000)
		var m runtime.MemStats
		runtime.ReadMemStats(&m)
		work(count, 600)
	}
	counted()
}

func forty([]string) {
	for i := 0; i < 4; i++ {
		work(40, 600)
	}
	counted()
}

// work allocates on so many goroutines at once, some of whose stacks grow.
func work(goroutines, count int) {
	var done sync.WaitGroup
	for i := 0; i < goroutines; i++ {
		done.Add(1)
		go func(i int) {
			defer done.Done()
			var own []*node
			for j := 0; j < count; j++ {
				own = append(own, &node{})
				if j%500 == 0 {
					deep(i*10 + j/10)
				}
			}
			runtime.KeepAlive(own)
		}(i)
	}
	done.Wait()
}

//go:noinline
func deep(n int) int {
	var room [64]byte
	room[n%64] = byte(n)
	if n == 0 {
		any1 = new([40]int)
		return int(room[0])
	}
	return deep(n-1) + int(room[n%64])
}

// forever allocates and says after each thousand how many there were.
func forever([]string) {
	for i := 1; ; i++ {
		for j := 0; j < 1000; j++ {
			nodes = &node{}
		}
		fmt.Println(i * 1000)
	}
}

// lines does a piece of work for each line that it reads.
func lines([]string) {
	for given := bufio.NewScanner(os.Stdin); given.Scan(); {
		mix(2000)
		runtime.GC()
		fmt.Println("done", given.Text())
	}
}

// child starts itself with the words, and tells how many of its variables are the recorder's.
func child(words []string) {
	own := 0
	for _, variable := range os.Environ() {
		if strings.HasPrefix(variable, "GOHEAP_RECORD") {
			own++
		}
	}
	fmt.Println("variables", own)
	if len(words) > 0 {
		out, err := exec.Command(os.Args[0], words...).CombinedOutput()
		fmt.Print(string(out))
		if err != nil {
			fmt.Println(err)
		}
	}
}

// sampled has Go's own profile sample some of its objects, and prints how many it has.
func sampled([]string) {
	runtime.MemProfileRate = 4096
	mix(6000)
	large(nil)
	runtime.MemProfileRate = 0
	runtime.GC()
	runtime.GC()
	records := make([]runtime.MemProfileRecord, 10000)
	count, _ := runtime.MemProfile(records, true)
	total := int64(0)
	for _, record := range records[:count] {
		total += record.AllocObjects
	}
	println("sampled", total)
}

// sizes allocates an object of each size up to 40,000 without pointers, and one of each that Go has with pointers, the multiples of 8.
func sizes([]string) {
	for size := 1; size <= 40000; size++ {
		any1 = make([]byte, size)
		if size%8 == 0 {
			any1 = make([]*int, size/8)
		}
	}
	counted()
}

// memory prints, behind each of its collections and their sweeps, what the runtime says of its memory.
func memory([]string) {
	var m runtime.MemStats
	for i := 0; i < 4; i++ {
		mix(6000)
		deep(200 * i)
		kept = kept[:len(kept)/2]
		runtime.GC()
		runtime.ReadMemStats(&m)
		println("memory", m.NumGC, m.HeapInuse, m.StackInuse, m.HeapIdle, m.HeapReleased)
		if i == 2 {
			debug.FreeOSMemory()
		}
	}
}

// few has a little of each: small, tiny and large objects, stacks of goroutines that grow, and pages that go back to the system.
func few([]string) {
	for i := 0; i < 3; i++ {
		mix(800)
		work(3, 60)
		for j := 0; j < 200; j++ {
			any1 = new(int16)
		}
		kept = append(kept[:len(kept)/2], make([]byte, 40000))
		debug.FreeOSMemory()
	}
	counted()
}
