package locks

import (
	"context"
	"encoding/binary"
	"encoding/hex"
	"fmt"
	"net"
	"net/netip"
	"strings"
	"sync"
	"testing"
	"time"
)

// What a node is told to reply to a request for the lock `db`.
const (
	granted  = "01 0000000000000001"
	released = "03"
	notHeld  = "04"
	free     = "05 0000000000000000"
	busy     = "02 0008 0000000000000003"
	ownBusy  = "02 0007 0000000000000003"
	stale    = "08"
	shared   = "0c 0000000000000003"
	joined   = "20"
)

// silent is no reply.
const silent = ""

// sharedBy is the state of a name that so many share at fence 3.
func sharedBy(count int) string { return fmt.Sprintf("0d %02x 0000000000000003", count) }

// A heard request.
type heard struct {
	number uint64
	op     string // such as "acquire db"
	bytes  string
}

// A node replies to each new number what its rows say, and to a number that it has heard before the same again.
type node struct {
	t          *testing.T
	connection *net.UDPConn
	lock       sync.Mutex
	rows       []string
	given      map[uint64]string
	heard      []heard
	came       chan heard       // each request that comes
	watches    chan heardWatch  // each watch that comes
	says       func(heardWatch) // what to do at a watch; nil for a node that knows none
	key        []byte           // of the client, if the node seals
}

var words = map[byte]string{1: "acquire", 2: "release", 3: "ask", 4: "check", 5: "share", 6: "break"}

// fakeNode starts a node. A row is the tag and the fields of an answer, `passed LAST`, or silent.
func fakeNode(t *testing.T, rows ...string) *node {
	t.Helper()
	connection, err := net.ListenUDP("udp4", &net.UDPAddr{IP: net.IPv4(127, 0, 0, 1)})
	if err != nil {
		t.Fatal(err)
	}
	return nodeAt(t, connection, nil, rows...)
}

// sealedNode starts a node that opens what the client with that key has sealed, and seals what it replies.
func sealedNode(t *testing.T, key []byte, rows ...string) *node {
	t.Helper()
	connection, err := net.ListenUDP("udp4", &net.UDPAddr{IP: net.IPv4(127, 0, 0, 1)})
	if err != nil {
		t.Fatal(err)
	}
	return nodeAt(t, connection, key, rows...)
}

// nodeAt starts a node at that socket, with the key of the client, if it has one.
func nodeAt(t *testing.T, connection *net.UDPConn, key []byte, rows ...string) *node {
	t.Helper()
	made := &node{
		t: t, connection: connection, key: key, rows: rows, given: map[uint64]string{}, came: make(chan heard, 1000),
		watches: make(chan heardWatch, 1000),
	}
	t.Cleanup(func() { connection.Close() })
	go made.serve()
	return made
}

func (n *node) port() uint16 { return uint16(n.connection.LocalAddr().(*net.UDPAddr).Port) }

func (n *node) serve() {
	buffer := make([]byte, 150)
	for {
		length, from, err := n.connection.ReadFromUDPAddrPort(buffer)
		if err != nil {
			return
		}
		data := n.opened(buffer[:length])
		if watch, isOne := readWatch(data, from); isOne {
			n.hearWatch(watch)
			continue
		}
		it := read(data)
		if row := n.row(it); row != silent {
			n.send(replyTo(it.number, row), from)
		}
		n.came <- it
	}
}

// row returns what a request is replied.
func (n *node) row(it heard) string {
	n.lock.Lock()
	defer n.lock.Unlock()
	n.heard = append(n.heard, it)
	row, isKnown := n.given[it.number]
	if !isKnown && len(n.rows) > 0 {
		row, n.rows = n.rows[0], n.rows[1:]
		n.given[it.number] = row
	}
	return row
}

// reply changes what a number is replied from now on.
func (n *node) reply(number uint64, row string) {
	n.lock.Lock()
	defer n.lock.Unlock()
	n.given[number] = row
}

// then adds rows.
func (n *node) then(rows ...string) {
	n.lock.Lock()
	defer n.lock.Unlock()
	n.rows = append(n.rows, rows...)
}

// ops returns what was asked under each number, in order, once each.
func (n *node) ops() []string {
	n.lock.Lock()
	defer n.lock.Unlock()
	var ops []string
	last := uint64(0)
	for _, it := range n.heard {
		if it.number != last {
			ops = append(ops, it.op)
		}
		last = it.number
	}
	return ops
}

// await waits until a request comes under that number.
func (n *node) await(number uint64) heard {
	n.t.Helper()
	end := time.After(20 * time.Second)
	for {
		select {
		case it := <-n.came:
			if it.number == number {
				return it
			}
		case <-end:
			n.t.Fatalf("number %d did not come; heard %v", number, n.ops())
		}
	}
}

// read reads a request without a seal.
func read(data []byte) heard {
	it := heard{number: binary.BigEndian.Uint64(data[18:]), bytes: hex.EncodeToString(data)}
	if data[26] != 0 {
		it.op = fmt.Sprintf("op %d", data[26])
		return it
	}
	length := int(data[29])
	it.op = words[data[28]] + " " + string(data[30:30+length])
	if rest := data[30+length:]; len(rest) == 8 {
		it.op += fmt.Sprintf(" %d", binary.BigEndian.Uint64(rest))
	}
	return it
}

// replyTo returns the reply of node 1 to client 7 of cluster 5.
func replyTo(number uint64, row string) []byte {
	kind := "0a"
	var last uint64
	if _, err := fmt.Sscanf(row, "passed %d", &last); err == nil {
		kind, row = "0c", fmt.Sprintf("%016x", last)
	}
	return unhex(fmt.Sprintf("4c4b01%s 0000000000000005 00000001 0007 %016x %s", kind, number, row))
}

func unhex(text string) []byte {
	data, err := hex.DecodeString(strings.ReplaceAll(text, " ", ""))
	if err != nil {
		panic(err)
	}
	return data
}

// clientOf returns client 7 of cluster 5, whose requests are numbered from 1. It asks these nodes.
func clientOf(t *testing.T, change func(*Config), nodes ...*node) *Client {
	t.Helper()
	config := Config{Cluster: 5, Client: 7, First: 1, Patience: 30 * time.Second}
	for _, it := range nodes {
		config.Nodes = append(config.Nodes, netip.AddrPortFrom(loopback, it.port()))
	}
	if change != nil {
		change(&config)
	}
	client, err := Open(config)
	if err != nil {
		t.Fatal(err)
	}
	t.Cleanup(func() { client.Close() })
	return client
}

// within returns a context that ends after five minutes: a call that takes longer hangs.
func within(t *testing.T) context.Context {
	ctx, cancel := context.WithTimeout(context.Background(), 5*time.Minute)
	t.Cleanup(cancel)
	return ctx
}

// wantOps compares what a node was asked.
func wantOps(t *testing.T, n *node, wanted ...string) {
	t.Helper()
	if got := n.ops(); fmt.Sprint(got) != fmt.Sprint(wanted) {
		t.Errorf("asked %q, wanted %q", got, wanted)
	}
}
