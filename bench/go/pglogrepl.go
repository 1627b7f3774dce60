package main

import (
	"encoding/binary"
	"errors"
)

// An Insert as pglogrepl, by the author of pgproto3, has it: each column has a copy of its value.
type insertMessage struct {
	relationID uint32
	columns    []*tupleColumn
}

type tupleColumn struct {
	dataType uint8
	length   uint32
	data     []byte
}

var (
	errShort = errors.New("the message is too short")
	errOther = errors.New("another letter")
	errLong  = errors.New("bytes after the message")
)

func (m *insertMessage) Decode(src []byte) error {
	if len(src) < 8 {
		return errShort
	}
	if src[0] != 'I' || src[5] != 'N' {
		return errOther
	}
	m.relationID = binary.BigEndian.Uint32(src[1:])
	count, low := int(binary.BigEndian.Uint16(src[6:])), 8
	m.columns = make([]*tupleColumn, 0, count)
	for i := 0; i < count; i++ {
		column := new(tupleColumn)
		used, err := column.decode(src[low:])
		if err != nil {
			return err
		}
		low += used
		m.columns = append(m.columns, column)
	}
	if low != len(src) {
		return errLong
	}
	return nil
}

func (c *tupleColumn) decode(src []byte) (int, error) {
	if len(src) < 1 {
		return 0, errShort
	}
	c.dataType = src[0]
	switch c.dataType {
	case 'n', 'u':
		return 1, nil
	case 't', 'b':
	default:
		return 0, errOther
	}
	if len(src) < 5 {
		return 0, errShort
	}
	c.length = binary.BigEndian.Uint32(src[1:])
	end := 5 + int(c.length)
	if len(src) < end {
		return 0, errShort
	}
	c.data = make([]byte, c.length)
	copy(c.data, src[5:end])
	return end, nil
}
