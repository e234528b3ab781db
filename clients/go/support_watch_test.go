package locks

import (
	"bytes"
	"crypto/hmac"
	"crypto/sha256"
	"encoding/binary"
	"fmt"
	"net/netip"
	"testing"
	"time"
)

// A heardWatch is a watch that came to a node.
type heardWatch struct {
	client   uint16
	number   uint64
	fence    uint64
	isShared bool
	name     string
	periods  byte
	from     netip.AddrPort
	data     []byte
}

// What a notice says.
const (
	saysFree    = 1
	saysHeld    = 2
	saysNotHere = 3
)

// polling makes a client send no watches while it waits.
func polling(c *Config) { c.NoNotices = true }

// readWatch reads a watch without a seal.
func readWatch(data []byte, from netip.AddrPort) (heardWatch, bool) {
	if len(data) != 71 || string(data[:4]) != "LW\x01\x09" {
		return heardWatch{}, false
	}
	return heardWatch{
		client: binary.BigEndian.Uint16(data[16:]), number: binary.BigEndian.Uint64(data[18:]),
		fence: binary.BigEndian.Uint64(data[26:]), isShared: data[34] == 2, name: string(data[36 : 36+data[35]]),
		periods: data[68], from: from, data: append([]byte(nil), data...),
	}, true
}

// noticeTo returns what node 1 says to a watch.
func noticeTo(watch heardWatch, says byte, place uint16) []byte {
	data := append([]byte(nil), watch.data...)
	data[3], data[15], data[68] = 10, 1, says
	binary.BigEndian.PutUint16(data[69:], place)
	return data
}

// hearWatch counts a watch, and answers it if the node knows what that is.
func (n *node) hearWatch(watch heardWatch) {
	n.lock.Lock()
	says := n.says
	n.lock.Unlock()
	if says != nil {
		says(watch)
	}
	n.watches <- watch
}

// whenWatched makes the node do something at each watch.
func (n *node) whenWatched(says func(heardWatch)) *node {
	n.lock.Lock()
	defer n.lock.Unlock()
	n.says = says
	return n
}

// tell sends a notice.
func (n *node) tell(watch heardWatch, says byte, place uint16) {
	n.send(noticeTo(watch, says, place), watch.from)
}

// queued answers each watch as a node does that leads while another client holds the lock.
func (n *node) queued() *node {
	return n.whenWatched(func(watch heardWatch) {
		if watch.periods > 0 {
			n.tell(watch, saysHeld, 1)
		} else {
			n.tell(watch, saysHeld, 0)
		}
	})
}

// awaitWatch waits until a watch comes, or a withdrawal.
func (n *node) awaitWatch(isWithdrawal bool) heardWatch {
	n.t.Helper()
	end := time.After(20 * time.Second)
	for {
		select {
		case watch := <-n.watches:
			if isWithdrawal == (watch.periods == 0) {
				return watch
			}
		case <-end:
			n.t.Fatalf("no watch came; heard %v", n.ops())
		}
	}
}

// only replaces the rows that no request has used yet.
func (n *node) only(rows ...string) {
	n.lock.Lock()
	defer n.lock.Unlock()
	n.rows = rows
}

// inQueue lets a client wait for `db` until it has a place in the queue of this node. It returns the last watch, and
// how the wait ends.
func (n *node) inQueue(client *Client) (last heardWatch, ended chan error) {
	n.t.Helper()
	n.then(free)
	for range make([]bool, 1000) {
		n.then(busy)
	}
	n.queued()
	_, ended = locking(n.t, client, "db")
	for end := time.Now().Add(20 * time.Second); !client.isQueued("db"); time.Sleep(time.Millisecond) {
		if time.Now().After(end) {
			n.t.Fatalf("not in the queue; heard %v", n.ops())
		}
	}
	for {
		select {
		case last = <-n.watches:
		case <-time.After(100 * time.Millisecond):
			return last, ended
		}
	}
}

// free grants the lock from now on, and says so to the last watch and to each further one.
func (n *node) free(last heardWatch) {
	n.only(granted)
	n.whenWatched(func(watch heardWatch) { n.tell(watch, saysFree, 1) })
	n.tell(last, saysFree, 1)
}

// isQueued reports whether a goroutine waits for a name, and has a place in the queue of a node.
func (c *Client) isQueued(name string) bool {
	c.lock.Lock()
	defer c.lock.Unlock()
	it := c.waits[name]
	return it != nil && it.waiter.IsQueued(time.Now())
}

// wantNoWithdrawal says whether a wait was withdrawn until now.
func (n *node) wantNoWithdrawal(t *testing.T) {
	t.Helper()
	for end := time.After(50 * time.Millisecond); ; {
		select {
		case watch := <-n.watches:
			if watch.periods == 0 {
				t.Errorf("withdrawn: %+v", watch)
			}
		case <-end:
			return
		}
	}
}

// wantNoWatch says which watches came until now.
func (n *node) wantNoWatch(t *testing.T) {
	t.Helper()
	select {
	case watch := <-n.watches:
		t.Errorf("watched: %+v", watch)
	case <-time.After(50 * time.Millisecond):
	}
}

func (n *node) send(data []byte, to netip.AddrPort) {
	n.connection.WriteToUDPAddrPort(n.sealed(data), to)
}

// sealed returns the frame of a reply to client 7 of cluster 5, by docs/FORMATS.md.
func (n *node) sealed(data []byte) []byte {
	if n.key == nil {
		return data
	}
	mac := hmac.New(sha256.New, n.key)
	fmt.Fprintf(mac, "locks v1 replies%s%s%s%s", pad(8, 5), pad(32, 0), pad(4, 7), data)
	return append(mac.Sum([]byte("LS\x01\x03")), data...)
}

// opened returns the datagram in a frame of client 7. A request without a seal is a fault of the test.
func (n *node) opened(data []byte) []byte {
	if n.key == nil {
		return data
	}
	if !bytes.HasPrefix(data, []byte("LS\x01\x02")) {
		n.t.Errorf("not sealed: %x", data)
		return data
	}
	return data[36:]
}

// pad returns a number of so many bytes.
func pad(length int, value byte) []byte {
	data := make([]byte, length)
	data[length-1] = value
	return data
}
