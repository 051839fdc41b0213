// Names prints stacks twice: as return addresses that frame pointers lead to, and as the runtime itself names them.
package main

import (
	"fmt"
	"runtime"
	"sort"
	"strings"
	"unsafe"
)

func framePointer() uintptr

// stack prints the addresses of the stack of its caller, and behind them what the runtime says of it.
//
//go:noinline
func stack(name string) int {
	fmt.Println("stack", name)
	for frame := framePointer(); frame != 0; frame = *(*uintptr)(unsafe.Pointer(frame)) {
		fmt.Printf("address %#x\n", *(*uintptr)(unsafe.Pointer(frame + 8)))
	}
	callers := make([]uintptr, 200)
	frames := runtime.CallersFrames(callers[:runtime.Callers(2, callers)])
	for {
		frame, more := frames.Next()
		fmt.Printf("frame %s %s:%d\n", frame.Function, frame.File, frame.Line)
		if !more {
			return 1
		}
	}
}

func inlined(name string) int       { return inlinedDeeper(name) + 1 }
func inlinedDeeper(name string) int { return stack(name) + 1 }

//go:noinline
func twice() int {
	return inlined("one") +
		inlined("two")
}

type shape interface{ area() int }
type square struct{ side int }
type named struct{ square }

//go:noinline
func (s square) area() int { return s.side * stack("method") }

//go:noinline
func measure(s shape) int { return s.area() }

//go:noinline
func each[T any](list []T, do func(T) int) (sum int) {
	for _, one := range list {
		sum += do(one)
	}
	return sum
}

func small[T any](one T) int { return stack(fmt.Sprintf("generic %T", one)) }

type pair[K comparable, V any] struct {
	key   K
	value V
}

//go:noinline
func (p *pair[K, V]) show() int { return small(p.value) }

//go:noinline
func recover1() {
	defer func() {
		recover()
		stack("recovering")
	}()
	panic("on purpose")
}

//go:noinline
func divide(by int) {
	defer func() {
		recover()
		stack("fault")
	}()
	fmt.Println(1 / by)
}

//go:noinline
func deep(levels int) int {
	if levels == 0 {
		return inlined("deep")
	}
	return deep(levels-1) + 1
}

type byLength []string

func (l byLength) Len() int           { return len(l) }
func (l byLength) Less(i, j int) bool { return len(l[i]) < len(l[j]) && stack("less") > 0 }
func (l byLength) Swap(i, j int)      { l[i], l[j] = l[j], l[i] }

var atStart = stack("initialisation")

func main() {
	entry := main
	fmt.Printf("text %#x\n", **(**uintptr)(unsafe.Pointer(&entry)))
	twice()
	measure(square{3})
	measure(&square{3})
	measure(named{square{2}})
	measure(&named{square{2}})
	each([]int{1}, func(one int) int { return inlined("closure") + one })
	each([]string{"a"}, func(one string) int { return small(one) })
	(&pair[string, float64]{"k", 1}).show()
	recover1()
	divide(len(strings.Repeat("x", 0)))
	deep(40)
	sort.Sort(byLength{"a", "bb"})
	method := square.area
	method(square{1})
	bound := named{square{1}}.area
	bound()
	done := make(chan bool)
	go func() {
		inlined("goroutine")
		done <- true
	}()
	<-done
	strings.Map(func(r rune) rune {
		inlined("map")
		return r
	}, "a")
}
