// An HTTP server that answers requests of its own, and keeps the session of one in four for ever. With -profile it writes its heap
// profile of every object, as of a collection behind the last request.
package main

import (
	"encoding/json"
	"flag"
	"fmt"
	"io"
	"net/http"
	"net/http/httptest"
	"os"
	"runtime"
	"runtime/pprof"
	"sync"
)

type session struct {
	User  string
	Pages []string
}

var (
	lock     sync.Mutex
	sessions = map[int]*session{}
)

func remember(id int, path string) *session {
	s := &session{User: fmt.Sprintf("user-%d", id), Pages: []string{path}}
	if id%4 == 0 {
		lock.Lock()
		sessions[id] = s
		lock.Unlock()
	}
	return s
}

func handle(w http.ResponseWriter, r *http.Request) {
	var id int
	fmt.Sscan(r.URL.Query().Get("id"), &id)
	json.NewEncoder(w).Encode(remember(id, r.URL.Path))
}

func get(url string) error {
	answer, err := http.Get(url)
	if err != nil {
		return err
	}
	defer answer.Body.Close()
	_, err = io.Copy(io.Discard, answer.Body)
	return err
}

func main() {
	requests := flag.Int("requests", 2000, "how many")
	profile := flag.String("profile", "", "a file for the heap profile")
	flag.Parse()
	if *profile != "" {
		runtime.MemProfileRate = 1
	}
	server := httptest.NewServer(http.HandlerFunc(handle))
	for id := 0; id < *requests; id++ {
		if err := get(fmt.Sprintf("%s/page?id=%d", server.URL, id)); err != nil {
			fmt.Fprintln(os.Stderr, err)
			os.Exit(1)
		}
	}
	runtime.GC()
	if *profile != "" {
		file, err := os.Create(*profile)
		if err == nil {
			err = pprof.Lookup("heap").WriteTo(file, 0)
		}
		if err != nil {
			fmt.Fprintln(os.Stderr, err)
			os.Exit(1)
		}
	}
	fmt.Println("sessions", len(sessions))
}
