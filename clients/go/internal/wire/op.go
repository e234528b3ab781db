// Package wire has the datagrams of docs/WIRE.md and the frames of docs/FORMATS.md. Nothing here sends or waits.
package wire

import (
	"encoding/binary"
	"fmt"
	"strings"
)

// The limits of the fields.
const (
	MaxCount  = 1 << 48 // of numbers and fences
	MaxClient = 256
	MaxNode   = 1 << 31
	MaxPort   = 65535
	maxName   = 32
	maxShares = 8
)

// raised is the version of the table that knows shared names and breaking.
const raised = 2

// A Word says what a request asks, as `locks ask` spells it.
type Word string

// The words of requests.
const (
	Acquire Word = "acquire"
	Release Word = "release"
	Ask     Word = "ask"
	Check   Word = "check"
	Share   Word = "share"
	Break   Word = "break"
	Join    Word = "join"
	Leave   Word = "leave"
	Raise   Word = "raise"
)

// bodies has the first byte of each body of the lock table.
var bodies = map[Word]byte{Acquire: 1, Release: 2, Ask: 3, Check: 4, Share: 5, Break: 6}

// The first bytes of an op.
const (
	opTable = 0
	opJoin  = 1
	opLeave = 2
	opRaise = 3
)

// An Op is what a request asks. Two that ask the same are equal.
type Op struct {
	Word  Word
	Name  string // of a lock; empty for Join, Leave and Raise
	Fence uint64 // of Release, Check and Break
	Node  uint32 // of Join and Leave
	Port  uint16 // of Join
}

// String spells the op as `locks ask` takes it.
func (o Op) String() string {
	switch {
	case o.Word == Raise:
		return fmt.Sprintf("raise %d", raised)
	case o.Word == Join:
		return fmt.Sprintf("join %d %d", o.Node, o.Port)
	case o.Word == Leave:
		return fmt.Sprintf("leave %d", o.Node)
	case o.hasFence():
		return fmt.Sprintf("%s %s %d", o.Word, o.Name, o.Fence)
	}
	return fmt.Sprintf("%s %s", o.Word, o.Name)
}

// IsGranting reports whether the op asks for a lock.
func (o Op) IsGranting() bool {
	return o.Word == Acquire || o.Word == Share
}

// IsHarmless reports whether the op changes nothing, so that a request without an answer can be dropped.
func (o Op) IsHarmless() bool {
	return o.Word == Ask || o.Word == Check
}

func (o Op) hasFence() bool {
	return o.Word == Release || o.Word == Check || o.Word == Break
}

// Valid returns an *Invalid where a field is out of its range.
func (o Op) Valid() error {
	switch o.Word {
	case Join:
		if o.Port == 0 {
			return &Invalid{What: "port", Value: "0", Range: "1 to 65535"}
		}
		return validNode(o.Node)
	case Leave:
		return validNode(o.Node)
	case Raise:
		return nil
	}
	if !isName(o.Name) {
		return &Invalid{What: "name", Value: fmt.Sprintf("%q", o.Name), Range: "1 to 32 of a-z 0-9 - . /"}
	}
	if o.hasFence() && (o.Fence < 1 || o.Fence > MaxCount) {
		return &Invalid{What: "fence", Value: fmt.Sprint(o.Fence), Range: "1 to 2^48"}
	}
	return nil
}

func validNode(node uint32) error {
	if node < 1 || node > MaxNode {
		return &Invalid{What: "node", Value: fmt.Sprint(node), Range: "1 to 2^31"}
	}
	return nil
}

func isName(name string) bool {
	isOther := func(letter rune) bool {
		return !strings.ContainsRune("abcdefghijklmnopqrstuvwxyz0123456789-./", letter)
	}
	return 1 <= len(name) && len(name) <= maxName && strings.IndexFunc(name, isOther) < 0
}

// appendTo appends the bytes of a valid op.
func (o Op) appendTo(data []byte) []byte {
	switch o.Word {
	case Join:
		data = binary.BigEndian.AppendUint32(append(data, opJoin), o.Node)
		return binary.BigEndian.AppendUint16(data, o.Port)
	case Leave:
		return binary.BigEndian.AppendUint32(append(data, opLeave), o.Node)
	case Raise:
		return append(data, opRaise, raised)
	}
	body := append([]byte{bodies[o.Word], byte(len(o.Name))}, o.Name...)
	if o.hasFence() {
		body = binary.BigEndian.AppendUint64(body, o.Fence)
	}
	return append(append(data, opTable, byte(len(body))), body...)
}

// Invalid says that an argument is out of its range. Nothing was sent.
type Invalid struct {
	What  string // such as "name"
	Value string
	Range string // what it must be
}

// Error describes the failure and its remedy.
func (e *Invalid) Error() string {
	return fmt.Sprintf("invalid %s %s: must be %s", e.What, e.Value, e.Range)
}
