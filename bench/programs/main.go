// What the benchmark of the recorder runs: `small N` allocates N small objects and does nothing else, on four goroutines; `server N` is an HTTP
// server that answers N requests of eight clients of its own.
package main

import (
	"encoding/json"
	"fmt"
	"io"
	"net/http"
	"net/http/httptest"
	"os"
	"strconv"
	"sync"
)

type node struct {
	next  *node
	value int
}

func chain(count int) *node {
	var first *node
	for i := 0; i < count; i++ {
		first = &node{first, i}
	}
	return first
}

type session struct {
	User  string
	Pages []string
}

func answer(w http.ResponseWriter, r *http.Request) {
	json.NewEncoder(w).Encode(&session{"user-" + r.URL.Query().Get("id"), []string{r.URL.Path}})
}

func ask(url string, count int) {
	for i := 0; i < count; i++ {
		answer, err := http.Get(fmt.Sprint(url, "/page?id=", i))
		if err != nil {
			panic(err)
		}
		io.Copy(io.Discard, answer.Body)
		answer.Body.Close()
	}
}

// each runs work on so many goroutines.
func each(goroutines int, work func()) {
	var done sync.WaitGroup
	for i := 0; i < goroutines; i++ {
		done.Add(1)
		go func() {
			defer done.Done()
			work()
		}()
	}
	done.Wait()
}

func main() {
	count, err := strconv.Atoi(os.Args[2])
	if err != nil {
		panic(err)
	}
	if os.Args[1] == "small" {
		each(4, func() {
			for i := 0; i < count/4/1000; i++ {
				chain(1000)
			}
		})
		return
	}
	http.DefaultTransport.(*http.Transport).MaxIdleConnsPerHost = 8
	server := httptest.NewServer(http.HandlerFunc(answer))
	each(8, func() { ask(server.URL, count/8) })
}
