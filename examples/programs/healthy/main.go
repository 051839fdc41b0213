// A cache of 64 items whose items are replaced, and work whose buffers die: what one collection frees the next cycle uses again.
package main

import "runtime"

type item struct {
	key  int
	data []byte
}

var cache [64]*item

//go:noinline
func fill(key int) *item { return &item{key, make([]byte, 1500)} }

//go:noinline
func work(n int) int {
	sum := 0
	for _, one := range make([]byte, 4000) {
		sum += int(one) + n
	}
	return sum + len(make([]byte, n%500+8))
}

var total int

func main() {
	for cycle := 0; cycle < 12; cycle++ {
		for i := 0; i < 100; i++ {
			cache[i%64] = fill(i)
			total += work(i)
		}
		runtime.GC()
	}
}
