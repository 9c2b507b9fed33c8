// Prints each name from outside as a path below /srv/files, or why there is none.
package main

// #cgo LDFLAGS: -losbytes
// #include <osbytes.h>
import "C"

import (
	"fmt"
	"os"
	"unsafe"
)

func main() {
	const base = "/srv/files"
	for _, name := range os.Args[1:] {
		from, at, path, n := []byte(base), []byte(name+"\x00"), make([]byte, 4096), C.size_t(0)
		status := C.osb_path_join_checked(C.OSB_UNIX, (*C.char)(unsafe.Pointer(&from[0])), C.size_t(len(from)),
			(*C.char)(unsafe.Pointer(&at[0])), C.size_t(len(name)), (*C.char)(unsafe.Pointer(&path[0])), C.size_t(len(path)), &n, nil)
		if status == C.OSB_OK {
			fmt.Printf("%s\n", path[:n])
		} else {
			fmt.Printf("%s: %s\n", name, C.GoString(C.osb_status_text(status)))
		}
	}
}
