package main

import "math/bits"

// Takes what was decoded, value by value: as a checksum in which the order, each length and each byte
// count, or as the sum of all numbers and lengths, and of the first byte at each place.
type consumer struct {
	isChecksum bool
	value      uint64
}

// The mark of a missing value.
const missing = ^uint64(0)

func (c *consumer) number(number uint64) {
	if c.isChecksum {
		c.mix(number)
	} else {
		c.value += number
	}
}

func (c *consumer) bytes(bytes []byte) {
	if c.isChecksum {
		c.mixBytes(bytes)
	} else if len(bytes) > 0 {
		c.value += uint64(len(bytes)) + uint64(bytes[0])
	}
}

func (c *consumer) text(text string) {
	if c.isChecksum {
		c.mixBytes([]byte(text))
	} else if len(text) > 0 {
		c.value += uint64(len(text)) + uint64(text[0])
	}
}

// pgproto3 has the empty text for a field that is missing.
func (c *consumer) field(text string) {
	if text == "" {
		c.number(missing)
	} else {
		c.text(text)
	}
}

//go:noinline
func (c *consumer) mix(number uint64) {
	c.value = (bits.RotateLeft64(c.value, 5) ^ number) * 0x9E3779B97F4A7C15
}

//go:noinline
func (c *consumer) mixBytes(bytes []byte) {
	c.mix(uint64(len(bytes)))
	for _, b := range bytes {
		c.mix(uint64(b))
	}
}
