package main

import (
	"fmt"
	"runtime"
	"unsafe"
)

var sum uint64

func note(p unsafe.Pointer) { sum = sum*31 + uint64(uintptr(p)) }

type tree struct {
	left, right *tree
	text        []byte
}

func plant(depth int) *tree {
	if depth == 0 {
		return nil
	}
	t := &tree{plant(depth - 1), plant(depth - 1), make([]byte, depth)}
	note(unsafe.Pointer(t))
	note(unsafe.Pointer(&t.text[0]))
	return t
}

//go:noinline
func reach(n int) int {
	var room [128]byte
	room[n%128] = byte(n)
	if n == 0 {
		x := new([40]int)
		all = append(all, x)
		note(unsafe.Pointer(x))
		return int(room[0])
	}
	return reach(n-1) + int(room[n%128])
}

var all []any

// addresses prints a sum of the addresses of all that it allocates: small, tiny and large objects, and what goroutines allocate whose
// stacks grow to many depths.
func addresses([]string) {
	done := make(chan int)
	for i := 0; i < 60; i++ {
		t := plant(10)
		big := make([]byte, 40000+i*1000)
		note(unsafe.Pointer(&big[0]))
		if i%3 == 0 {
			all = append(all, t, big)
		}
		go func() { done <- reach(i * 20) }()
		<-done
		println(sum)
	}
}

// stacks prints the address of some objects with the return addresses above the function that allocates each.
func stacks([]string) {
	for i := 0; i < 5; i++ {
		outer(i, i*7)
	}
	done := make(chan int)
	go func() {
		outer(3, 60)
		close(done)
	}()
	<-done
}

//go:noinline
func outer(i, depth int) int {
	if depth > 0 {
		return outer(i, depth-1) + 1
	}
	switch i % 3 {
	case 0:
		return inner(new([6]int))
	case 1:
		return inner(&append([]uintptr(nil), make([]uintptr, 9)...)[0])
	}
	return inner(any(fmt.Sprint(i)))
}

//go:noinline
func inner(x any) int {
	made := new([11]uint64)
	all = append(all, made, x)
	var frames [200]uintptr
	count := runtime.Callers(2, frames[:]) // from outer on
	fmt.Printf("%p", made)
	for _, frame := range frames[:count] {
		fmt.Printf(" %x", frame)
	}
	fmt.Println()
	return count
}
