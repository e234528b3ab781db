package wire

import "encoding/binary"

const (
	magic     = 0x4c4b
	version   = 1
	headBytes = 26 // of a datagram up to its number
)

// A Kind says what a datagram is.
type Kind byte

// The kinds that clients send and receive.
const (
	KindRequest   Kind = 9
	KindAnswer    Kind = 10
	KindElsewhere Kind = 11
	KindPassed    Kind = 12
)

// A Label says whose request it is. A reply repeats it.
type Label struct {
	Cluster uint64
	Client  uint16
	Number  uint64
}

// Request returns the datagram that asks a valid op.
func (l Label) Request(op Op) []byte {
	data := binary.BigEndian.AppendUint16(nil, magic)
	data = append(data, version, byte(KindRequest))
	data = binary.BigEndian.AppendUint64(data, l.Cluster)
	data = binary.BigEndian.AppendUint32(data, 0)
	data = binary.BigEndian.AppendUint16(data, l.Client)
	data = binary.BigEndian.AppendUint64(data, l.Number)
	return op.appendTo(data)
}

// A Reply is what a node replies to a request.
type Reply struct {
	Kind   Kind
	Answer Answer // of KindAnswer
	Node   uint32 // of KindElsewhere: it is believed to lead
	Port   uint16 // of KindElsewhere: where that node listens
	Last   uint64 // of KindPassed: the greater number that was executed
}

// Reply reads a datagram. It reports false for all that is no reply to this request.
func (l Label) Reply(data []byte) (Reply, bool) {
	if len(data) < headBytes || !l.isOf(data) {
		return Reply{}, false
	}
	reply, isRead := Reply{Kind: Kind(data[3])}, false
	switch rest := data[headBytes:]; reply.Kind {
	case KindAnswer:
		reply.Answer, isRead = readAnswer(rest)
	case KindElsewhere:
		isRead = reply.readElsewhere(rest)
	case KindPassed:
		isRead = reply.readPassed(rest, l.Number)
	}
	return reply, isRead
}

// isOf reports whether a node sent the datagram to this request.
func (l Label) isOf(data []byte) bool {
	sender := binary.BigEndian.Uint32(data[12:])
	return binary.BigEndian.Uint16(data) == magic && data[2] == version &&
		binary.BigEndian.Uint64(data[4:]) == l.Cluster &&
		1 <= sender && sender <= MaxNode &&
		binary.BigEndian.Uint16(data[16:]) == l.Client &&
		binary.BigEndian.Uint64(data[18:]) == l.Number
}

func (r *Reply) readElsewhere(rest []byte) bool {
	if len(rest) != 6 {
		return false
	}
	r.Node, r.Port = binary.BigEndian.Uint32(rest), binary.BigEndian.Uint16(rest[4:])
	return 1 <= r.Node && r.Node <= MaxNode && r.Port >= 1
}

func (r *Reply) readPassed(rest []byte, number uint64) bool {
	if len(rest) != 8 {
		return false
	}
	r.Last = binary.BigEndian.Uint64(rest)
	return number < r.Last && r.Last <= MaxCount
}
