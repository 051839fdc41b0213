// Batches of buffers, each batch larger buffers than the one before, of which one of 16 is kept. Each kept buffer holds a span, and
// between them no run of pages is long enough for a large object.
package main

import "runtime"

var kept [][]byte

//go:noinline
func batch(size, count int) [][]byte {
	all := make([][]byte, count)
	for i := range all {
		all[i] = make([]byte, size)
	}
	return all
}

//go:noinline
func large() []byte { return make([]byte, 1_000_000) }

func main() {
	for cycle := 0; cycle < 8; cycle++ {
		all := batch(1000+500*cycle, 300)
		for i := 0; i < len(all); i += 16 {
			kept = append(kept, all[i])
		}
		all = nil
		_ = large()
		runtime.GC()
	}
}
