// inventory FILE..: of each DER certificate, on a line, its subject, its DNS names, the second after which it isn't valid, and its key.
// PKG_CONFIG_PATH=$PWD/build/lib/pkgconfig CGO_LDFLAGS=-Wl,-rpath,$PWD/build/lib go build -o inventory examples/go/inventory.go
package main

// #cgo pkg-config: rushtrivet
// #include "rushtrivet.h"
// #include <stdlib.h>
//
// // What holds a valid value before a call: its windows point to octets of C, as those of an answer do.
// static rtv_certificate no_certificate(void) { rtv_certificate it = RTV_CERTIFICATE_INIT; return it; }
import "C"

import (
	"bufio"
	"bytes"
	"fmt"
	"os"
	"time"
	"unsafe"
)

// ---- what the program needs of the library

// A buffer is a copy of octets in memory of C: windows into it may stand in memory of Go, and the other way round cgo forbids it.
// (From Go 1.21 on a runtime.Pinner does without the copy.)
type buffer struct {
	at     *C.uint8_t
	length C.size_t
}

func newBuffer(octets []byte) buffer {
	return buffer{(*C.uint8_t)(C.CBytes(octets)), C.size_t(len(octets))}
}

// No window into it may be used afterwards.
func (it buffer) free() { C.free(unsafe.Pointer(it.at)) }

// A copy of the octets of a window, which outlives the buffer.
func octets(window C.rtv_bytes) []byte {
	return C.GoBytes(unsafe.Pointer(window.at), C.int(window.length))
}

// A status that isn't RTV_OK, and the octet at which the buffer is refused.
type refused struct {
	status C.rtv_status
	at     C.size_t
}

func (it *refused) Error() string {
	word, _ := text(func(text *C.uint8_t, room C.size_t, length *C.size_t) C.rtv_status {
		*length = C.rtv_word(it.status, text, room)
		return C.RTV_OK
	})
	return fmt.Sprintf("refused at octet %d: %s", it.at, word)
}

// The whole text that the call writes, without the NUL behind it.
func text(call func(text *C.uint8_t, room C.size_t, length *C.size_t) C.rtv_status) ([]byte, C.rtv_status) {
	for room, length := C.size_t(128), C.size_t(0); ; room = length + 1 {
		text := make([]byte, room)
		if status := call((*C.uint8_t)(unsafe.Pointer(&text[0])), room, &length); status != C.RTV_OK {
			return nil, status
		}
		if length < room {
			return text[:length], C.RTV_OK
		}
	}
}

func nameText(name C.rtv_bytes) []byte {
	told, _ := text(func(text *C.uint8_t, room C.size_t, length *C.size_t) C.rtv_status {
		var at C.size_t
		return C.rtv_name_text(name.at, name.length, text, room, length, &at)
	})
	return told
}

func oidText(oid C.rtv_bytes) []byte {
	told, _ := text(func(text *C.uint8_t, room C.size_t, length *C.size_t) C.rtv_status {
		return C.rtv_oid_text(oid.at, oid.length, text, room, length)
	})
	return told
}

// The certificate, and all its extensions: once more where there was no room for them.
func readCertificate(der buffer) (C.rtv_certificate, []C.rtv_extension, error) {
	for room, it := C.size_t(16), C.no_certificate(); ; room = it.extension_count {
		rows, at := make([]C.rtv_extension, room), C.size_t(0)
		C.rtv_init_extensions(&rows[0], room)
		status := C.rtv_read_certificate(der.at, der.length, false, false, &it, &rows[0], room, &at)
		if status != C.RTV_OK {
			return it, nil, &refused{status, at}
		}
		if it.extension_count <= room {
			return it, rows[:it.extension_count], nil
		}
	}
}

func readGeneralNames(value C.rtv_bytes) ([]C.rtv_general_name, error) {
	for room, count := C.size_t(16), C.size_t(0); ; room = count {
		rows, at := make([]C.rtv_general_name, room), C.size_t(0)
		C.rtv_init_general_names(&rows[0], room)
		if status := C.rtv_read_general_names(value.at, value.length, &rows[0], room, &count, &at); status != C.RTV_OK {
			return nil, &refused{status, at}
		}
		if count <= room {
			return rows[:count], nil
		}
	}
}

// ---- the program

var alternativeNames = []byte{0x55, 0x1d, 0x11} // 2.5.29.17

func putHosts(out *bufio.Writer, value C.rtv_bytes) {
	names, err := readGeneralNames(value)
	if err != nil {
		return
	}
	for _, name := range names {
		if name.tag == 2 && name.readable == 1 {
			out.WriteString(" DNS:")
			out.Write(octets(name.value))
		}
	}
}

// Names are written as the octets that they are: they may hold anything.
func inventory(out *bufio.Writer, octetsOfFile []byte) error {
	der := newBuffer(octetsOfFile)
	defer der.free()
	certificate, extensions, err := readCertificate(der)
	if err != nil {
		fmt.Fprintln(out, err)
		return err
	}
	out.Write(nameText(certificate.subject))
	for _, extension := range extensions {
		if bytes.Equal(octets(extension.oid), alternativeNames) {
			putHosts(out, extension.value)
		}
	}
	end := time.Unix(int64(certificate.not_after), 0).UTC().Format("2006-01-02T15:04:05Z")
	fmt.Fprintf(out, " until %s, %s of %d bits\n", end, oidText(certificate.key_algorithm), certificate.key_size)
	return nil
}

func main() {
	out, code := bufio.NewWriter(os.Stdout), 0
	for _, file := range os.Args[1:] {
		der, err := os.ReadFile(file)
		if err != nil {
			fmt.Fprintln(os.Stderr, err)
			code = 2
			break
		}
		if inventory(out, der) != nil {
			code = 1
		}
	}
	if err := out.Flush(); err != nil {
		fmt.Fprintln(os.Stderr, err)
		code = 2
	}
	os.Exit(code)
}
