package main

import (
	"encoding/binary"
	"strconv"

	"github.com/jackc/pgproto3/v2"
)

var types = []uint32{25, 23, 20, 16, 1043, 1184, 701, 2950}

// The rest of a script: the messages to encode, each a letter and its fields.
type script []byte

func (rest *script) take(count int) []byte {
	front := (*rest)[:count:count]
	*rest = (*rest)[count:]
	return front
}

func (rest *script) byte() byte { return rest.take(1)[0] }

func (rest *script) number() int { return int(binary.BigEndian.Uint32(rest.take(4))) }

func (rest *script) bytes() []byte { return rest.take(rest.number()) }

// A format code, repeated.
func (rest *script) formats() []int16 {
	code := int16(rest.byte())
	codes := make([]int16, rest.byte())
	for i := range codes {
		codes[i] = code
	}
	return codes
}

func name(prefix string, number int) string {
	if number == 0 {
		return ""
	}
	return prefix + strconv.Itoa(number)
}

func (rest *script) message() pgproto3.FrontendMessage {
	switch rest.byte() {
	case 'B':
		return rest.bind()
	case 'E':
		portal := name("sqlx_p_", rest.number())
		return &pgproto3.Execute{Portal: portal, MaxRows: uint32(rest.number())}
	case 'S':
		return &pgproto3.Sync{}
	case 'P':
		statement, query := name("sqlx_s_", rest.number()), string(rest.bytes())
		return &pgproto3.Parse{Name: statement, Query: query, ParameterOIDs: types[:rest.byte()]}
	case 'D':
		if rest.byte() == 0 {
			return &pgproto3.Describe{ObjectType: 'P', Name: name("sqlx_p_", rest.number())}
		}
		return &pgproto3.Describe{ObjectType: 'S', Name: name("sqlx_s_", rest.number())}
	case 'Q':
		return &pgproto3.Query{String: string(rest.bytes())}
	default:
		return &pgproto3.CopyData{Data: rest.bytes()}
	}
}

func (rest *script) bind() *pgproto3.Bind {
	bind := &pgproto3.Bind{}
	bind.DestinationPortal = name("sqlx_p_", rest.number())
	bind.PreparedStatement = name("sqlx_s_", rest.number())
	bind.ParameterFormatCodes = rest.formats()
	bind.Parameters = make([][]byte, binary.BigEndian.Uint16(rest.take(2)))
	params := script(rest.bytes())
	for i := range bind.Parameters {
		if length := int32(params.number()); length >= 0 {
			bind.Parameters[i] = params.take(int(length))
		}
	}
	bind.ResultFormatCodes = rest.formats()
	return bind
}

// Parses the script once, and encodes its messages one by one.
func encodePrepared(input []byte, times int) []byte {
	var messages []pgproto3.FrontendMessage
	for rest := script(input); len(rest) > 0; {
		messages = append(messages, rest.message())
	}
	var buf []byte
	for i := 0; i < times; i++ {
		buf = buf[:0]
		for _, message := range messages {
			buf = message.Encode(buf)
		}
	}
	return buf
}

// Parses the script in each pass, and encodes each message as it is parsed.
func encodeScript(input []byte, times int) []byte {
	var buf []byte
	for i := 0; i < times; i++ {
		buf = buf[:0]
		for rest := script(input); len(rest) > 0; {
			buf = rest.message().Encode(buf)
		}
	}
	return buf
}
