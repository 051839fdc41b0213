// Withc calls a C function, which calls back.
package main

/*
#include <stdlib.h>
extern int goCallback(int);
static int call(int count) { int sum = 0; for (int i = 0; i < count; i++) sum += goCallback(i); return sum; }
*/
import "C"

import (
	"fmt"
	"runtime"
)

var kept []*[10]int

//export goCallback
func goCallback(number C.int) C.int {
	kept = append(kept, &[10]int{int(number)})
	return number
}

func main() {
	fmt.Println(C.call(500))
	runtime.GC()
	fmt.Println(len(kept))
}
