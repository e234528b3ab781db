package wire

import (
	"bytes"
	"encoding/binary"
)

// watchBytes is the length of a watch and of a notice.
const watchBytes = 71

// What a watch and a notice begin with.
var watchHead, noticeHead = []byte("LW\x01\x09"), []byte("LW\x01\x0a")

// The modes in which a lock is waited for.
const (
	exclusively = 1
	shared      = 2
)

// A Ticket names one watch of a client that waits for a lock. The notices that answer it repeat the ticket.
type Ticket struct {
	Cluster  uint64
	Client   uint16
	Number   uint64 // rises with each watch of the client for the name
	Fence    uint64 // of the Busy that the watch follows
	IsShared bool
	Name     string
}

// Watch returns the datagram that asks a node to send a notice when the lock is free. It lives for that many periods; 0
// withdraws it.
func (t Ticket) Watch(periods byte) []byte {
	data := binary.BigEndian.AppendUint64(append([]byte(nil), watchHead...), t.Cluster)
	data = binary.BigEndian.AppendUint32(data, 0)
	data = append(data, t.fields()...)
	return append(data, periods, 0, 0)
}

// fields returns what a notice repeats of a watch, from the client to the name.
func (t Ticket) fields() []byte {
	data := binary.BigEndian.AppendUint16(nil, t.Client)
	data = binary.BigEndian.AppendUint64(data, t.Number)
	data = binary.BigEndian.AppendUint64(data, t.Fence)
	mode := byte(exclusively)
	if t.IsShared {
		mode = shared
	}
	data = append(data, mode, byte(len(t.Name)))
	return append(append(data, t.Name...), make([]byte, maxName-len(t.Name))...)
}

// News is what a node says of a lock in a notice.
type News byte

// The news.
const (
	NewsFree    News = 1
	NewsHeld    News = 2
	NewsNotHere News = 3 // nothing: the node does not lead, or is behind the watch
)

// A Notice is what a node answers to a watch, and what it sends when the lock is free.
type Notice struct {
	Node  uint32
	News  News
	Place uint16 // in the queue of the node, from 1; 0 if the client does not wait there
}

// Notice reads a datagram. It reports false for all that is no notice to this watch.
func (t Ticket) Notice(data []byte) (Notice, bool) {
	if !isNotice(data) || binary.BigEndian.Uint64(data[4:]) != t.Cluster || !bytes.Equal(data[16:68], t.fields()) {
		return Notice{}, false
	}
	notice := Notice{binary.BigEndian.Uint32(data[12:]), News(data[68]), binary.BigEndian.Uint16(data[69:])}
	isValid := 1 <= notice.Node && notice.Node <= MaxNode && NewsFree <= notice.News && notice.News <= NewsNotHere
	return notice, isValid
}

func isNotice(data []byte) bool {
	return len(data) == watchBytes && bytes.Equal(data[:len(noticeHead)], noticeHead)
}

// NoticeName returns the name in what may be a notice, bare or sealed, before any seal is checked. It reports false for
// all other datagrams.
func NoticeName(payload []byte) (string, bool) {
	if bytes.HasPrefix(payload, replyHead) && len(payload) == frameHead+tagBytes+watchBytes {
		payload = payload[frameHead+tagBytes:]
	}
	if !isNotice(payload) || payload[35] > maxName {
		return "", false
	}
	return string(payload[36 : 36+int(payload[35])]), true
}
