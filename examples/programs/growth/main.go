// Serves requests, with a cache that forgets the oldest answer; with the word `leak` it forgets none. `test.sh` holds a run of many requests
// against one of few.
package main

import (
	"os"
	"runtime"
	"strconv"
)

const most = 100

type answer struct {
	id   int
	body []byte
}

var cache = map[int]*answer{}

//go:noinline
func serve(id int) *answer {
	return &answer{id: id, body: make([]byte, 1000)}
}

func main() {
	requests, err := strconv.Atoi(os.Args[1])
	if err != nil {
		panic(err)
	}
	forgets := len(os.Args) < 3 || os.Args[2] != "leak"
	for id := 0; id < requests; id++ {
		cache[id] = serve(id)
		if forgets {
			delete(cache, id-most)
		}
		if id%100 == 99 {
			runtime.GC()
		}
	}
	runtime.GC()
}
