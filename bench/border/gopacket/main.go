// Measures how long gopacket takes to find the fragment headers of packets. The file has each packet's length in four
// bytes, in network byte order, and its bytes. Prints how many packets have one, and the least time of 40 runs.
package main

import (
	"encoding/binary"
	"fmt"
	"os"
	"time"

	"github.com/google/gopacket"
	"github.com/google/gopacket/layers"
)

func read(path string) [][]byte {
	bytes, err := os.ReadFile(path)
	if err != nil {
		panic(err)
	}
	var packets [][]byte
	for len(bytes) > 0 {
		end := 4 + binary.BigEndian.Uint32(bytes)
		packets = append(packets, bytes[4:end])
		bytes = bytes[end:]
	}
	return packets
}

func hasFragmentHeader(bytes []byte) bool {
	options := gopacket.DecodeOptions{Lazy: true, NoCopy: true}
	packet := gopacket.NewPacket(bytes, layers.LayerTypeIPv6, options)
	return packet.Layer(layers.LayerTypeIPv6Fragment) != nil
}

func main() {
	packets := read(os.Args[1])
	found, least := 0, time.Hour
	for run := 0; run < 40; run++ {
		found = 0
		start := time.Now()
		for _, packet := range packets {
			if hasFragmentHeader(packet) {
				found++
			}
		}
		least = min(least, time.Since(start))
	}
	each := float64(least.Nanoseconds()) / float64(len(packets))
	fmt.Printf("gopacket: %.1f ns per packet, %d of %d have a fragment header\n", each, found, len(packets))
}

func min(a, b time.Duration) time.Duration {
	if a < b {
		return a
	}
	return b
}
