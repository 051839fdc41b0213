// A server that remembers one request of four for ever: the map only grows.
package main

import "runtime"

type request struct {
	id   int
	body []byte
}

var seen = map[int]*request{}

//go:noinline
func remember(r *request) { seen[r.id] = r }

//go:noinline
func serve(id int) *request {
	return &request{id: id, body: make([]byte, 2000)}
}

func main() {
	id := 0
	for cycle := 0; cycle < 12; cycle++ {
		for i := 0; i < 100; i++ {
			r := serve(id)
			if id%4 == 0 {
				remember(r)
			}
			id++
		}
		runtime.GC()
	}
}
