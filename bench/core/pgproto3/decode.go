package main

import (
	"bytes"
	"errors"
	"io"
	"strconv"

	"github.com/jackc/pgproto3/v2"
)

// A stream that comes in pieces, so often.
type pieces struct {
	stream []byte
	piece  int
	times  int
	at     int
}

func (p *pieces) Read(into []byte) (int, error) {
	if p.at == len(p.stream) {
		p.times, p.at = p.times-1, 0
	}
	if p.times == 0 {
		return 0, io.EOF
	}
	end := p.at + p.piece
	if end > len(p.stream) {
		end = len(p.stream)
	}
	count := copy(into, p.stream[p.at:end])
	p.at += count
	return count, nil
}

var errOther = errors.New("not offered")

// Decodes the stream so often, and gives the consumer what the other sides give theirs. There is one
// frontend for all, as a connection has one.
func decode(how string, stream []byte, piece, times int, to *consumer) error {
	if how == "stream" {
		piece = len(stream)
	} else if how != "pieces" {
		return errOther
	}
	reader := pgproto3.NewChunkReader(&pieces{stream: stream, piece: piece, times: times})
	frontend := pgproto3.NewFrontend(reader, nil)
	for {
		message, err := frontend.Receive()
		if errors.Is(err, io.ErrUnexpectedEOF) {
			return nil
		}
		if err == nil {
			err = give(message, to)
		}
		if err != nil {
			return err
		}
	}
}

func give(message pgproto3.BackendMessage, to *consumer) error {
	switch message := message.(type) {
	case *pgproto3.DataRow:
		giveRow(message, to)
	case *pgproto3.RowDescription:
		giveColumns(message, to)
	case *pgproto3.CommandComplete:
		to.number('C')
		to.number(rowsAffected(message.CommandTag))
	case *pgproto3.ReadyForQuery:
		to.number('Z')
		to.number(uint64(message.TxStatus))
	case *pgproto3.ErrorResponse:
		giveError(message, to)
	case *pgproto3.ParameterStatus:
		to.number('S')
		to.text(message.Name)
		to.text(message.Value)
	default:
		return errOther
	}
	return nil
}

func giveRow(row *pgproto3.DataRow, to *consumer) {
	to.number('D')
	to.number(uint64(len(row.Values)))
	for _, cell := range row.Values {
		if cell == nil {
			to.number(missing)
		} else {
			to.bytes(cell)
		}
	}
}

func giveColumns(description *pgproto3.RowDescription, to *consumer) {
	to.number('T')
	for i := range description.Fields {
		field := &description.Fields[i]
		to.bytes(field.Name)
		to.number(uint64(field.TableOID))
		to.number(uint64(field.TableAttributeNumber))
		to.number(uint64(field.DataTypeOID))
		to.number(uint64(uint16(field.DataTypeSize)))
		to.number(uint64(uint32(field.TypeModifier)))
		to.number(uint64(uint16(field.Format)))
	}
	to.number(uint64(len(description.Fields)))
}

func giveError(error *pgproto3.ErrorResponse, to *consumer) {
	to.number('E')
	to.number(severity(error.SeverityUnlocalized))
	to.text(error.Code)
	to.text(error.Message)
	to.field(error.Detail)
	to.field(error.Hint)
	to.number(0)
	to.number(uint64(error.Position))
	to.field(error.Where)
	to.field(error.SchemaName)
	to.field(error.TableName)
	to.field(error.ColumnName)
	to.field(error.DataTypeName)
	to.field(error.ConstraintName)
	to.field(error.File)
	to.number(uint64(error.Line))
	to.field(error.Routine)
}

func severity(word string) uint64 {
	for i, other := range []string{"PANIC", "FATAL", "ERROR"} {
		if word == other {
			return uint64(i)
		}
	}
	return missing
}

func rowsAffected(tag []byte) uint64 {
	count, err := strconv.ParseUint(string(tag[bytes.LastIndexByte(tag, ' ')+1:]), 10, 64)
	if err != nil {
		return 0
	}
	return count
}
