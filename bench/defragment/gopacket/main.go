// Measures how long gopacket takes to make IPv4 packets whole. The file has each fragment's length in four bytes, in network
// byte order, and its bytes. Prints how many packets became whole, and the least time of 20 runs.
package main

import (
	"encoding/binary"
	"fmt"
	"os"
	"time"

	"github.com/google/gopacket"
	"github.com/google/gopacket/ip4defrag"
	"github.com/google/gopacket/layers"
)

func read(path string) [][]byte {
	bytes, err := os.ReadFile(path)
	if err != nil {
		panic(err)
	}
	var fragments [][]byte
	for len(bytes) > 0 {
		end := 4 + binary.BigEndian.Uint32(bytes)
		fragments = append(fragments, bytes[4:end])
		bytes = bytes[end:]
	}
	return fragments
}

// Returns how many packets became whole.
func defragment(defragmenter *ip4defrag.IPv4Defragmenter, fragments [][]byte) int {
	whole := 0
	now := time.Now()
	for _, bytes := range fragments {
		packet := new(layers.IPv4)
		if err := packet.DecodeFromBytes(bytes, gopacket.NilDecodeFeedback); err != nil {
			panic(err)
		}
		found, err := defragmenter.DefragIPv4WithTimestamp(packet, now)
		if err != nil {
			panic(err)
		}
		if found != nil {
			whole++
		}
	}
	return whole
}

func main() {
	fragments := read(os.Args[1])
	defragmenter := ip4defrag.NewIPv4Defragmenter()
	found, least := 0, time.Hour
	for run := 0; run < 20; run++ {
		start := time.Now()
		found = defragment(defragmenter, fragments)
		if spent := time.Since(start); spent < least {
			least = spent
		}
	}
	each := float64(least.Nanoseconds()) / float64(len(fragments))
	fmt.Printf("gopacket's IPv4   %7.1f ns a fragment, %d packets whole\n", each, found)
}
