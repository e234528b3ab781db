package locks

import (
	"fmt"
	"math/rand"
	"net"
	"net/netip"
	"strings"
	"sync"
	"testing"
	"time"
)

// period is that of the clock of a node.
const period = 100 * time.Millisecond

// A queueNode is a node alone, which has the lock `db` and the queue of those who wait for it.
type queueNode struct {
	t          *testing.T
	connection *net.UDPConn
	loss       float64 // of the datagrams of each direction

	lock     sync.Mutex
	holder   uint16
	fence    uint64
	answers  map[uint16]heard // the last request of each client, and its answer in place of the op
	queue    []*queued
	grants   []uint16
	acquires int
	watches  int
}

// A queued client waits.
type queued struct {
	watch heardWatch
	told  uint64 // the fence at which it was told that the lock is free
	at    time.Time
}

func startQueue(t *testing.T, loss float64) *queueNode {
	t.Helper()
	connection, err := net.ListenUDP("udp4", &net.UDPAddr{IP: net.IPv4(127, 0, 0, 1)})
	if err != nil {
		t.Fatal(err)
	}
	made := &queueNode{t: t, connection: connection, loss: loss, answers: map[uint16]heard{}}
	ended := make(chan struct{})
	t.Cleanup(func() { close(ended); connection.Close() })
	go made.serve()
	go func() {
		for ticker := time.NewTicker(period); ; {
			select {
			case <-ticker.C:
				made.lock.Lock()
				made.tell()
				made.lock.Unlock()
			case <-ended:
				ticker.Stop()
				return
			}
		}
	}()
	return made
}

// client returns a client that asks this node.
func (q *queueNode) client(number uint16) *Client {
	q.t.Helper()
	port := uint16(q.connection.LocalAddr().(*net.UDPAddr).Port)
	client, err := Open(Config{Cluster: 5, Client: number, First: 1, Nodes: Loopback(port), Patience: time.Minute})
	if err != nil {
		q.t.Fatal(err)
	}
	q.t.Cleanup(func() { client.Close() })
	return client
}

func (q *queueNode) serve() {
	buffer := make([]byte, 150)
	for {
		length, from, err := q.connection.ReadFromUDPAddrPort(buffer)
		if err != nil {
			return
		}
		if rand.Float64() < q.loss {
			continue
		}
		q.lock.Lock()
		if watch, isOne := readWatch(buffer[:length], from); isOne {
			q.hear(watch)
		} else {
			q.answer(uint16(buffer[16])<<8|uint16(buffer[17]), read(buffer[:length]), from)
		}
		q.lock.Unlock()
	}
}

func (q *queueNode) send(data []byte, to netip.AddrPort) {
	if rand.Float64() >= q.loss {
		q.connection.WriteToUDPAddrPort(data, to)
	}
}

// answer executes a request, unless it was.
func (q *queueNode) answer(client uint16, it heard, from netip.AddrPort) {
	last := q.answers[client]
	if it.number > last.number {
		last = heard{number: it.number, op: q.execute(client, strings.Fields(it.op)[0])}
		q.answers[client] = last
	}
	if it.number == last.number {
		data := replyTo(it.number, last.op)
		data[16], data[17] = byte(client>>8), byte(client)
		q.send(data, from)
	}
	q.tell()
}

func (q *queueNode) execute(client uint16, word string) string {
	switch {
	case word == "ask" && q.holder != 0:
		return fmt.Sprintf("06 %04x %016x", q.holder, q.fence)
	case word == "ask":
		return fmt.Sprintf("05 %016x", q.fence)
	case word == "release" && q.holder == client:
		q.holder = 0
		return released
	case word == "release":
		return notHeld
	}
	q.acquires++
	if q.holder != 0 {
		return fmt.Sprintf("02 %04x %016x", q.holder, q.fence)
	}
	q.holder, q.fence, q.grants = client, q.fence+1, append(q.grants, client)
	q.remove(client)
	return fmt.Sprintf("01 %016x", q.fence)
}

func (q *queueNode) place(client uint16) int {
	for at, it := range q.queue {
		if it.watch.client == client {
			return at + 1
		}
	}
	return 0
}

func (q *queueNode) remove(client uint16) {
	if at := q.place(client); at > 0 {
		q.queue = append(q.queue[:at-1], q.queue[at:]...)
	}
}

// hear keeps or renews a watch, and answers it.
func (q *queueNode) hear(watch heardWatch) {
	q.watches++
	place := q.place(watch.client)
	switch {
	case place > 0 && watch.number <= q.queue[place-1].watch.number:
		return
	case watch.periods == 0:
		q.remove(watch.client)
	case place > 0:
		q.queue[place-1].watch, q.queue[place-1].at = watch, time.Now()
	case q.holder != 0 && q.holder != watch.client, q.holder == 0 && len(q.queue) > 0:
		q.queue = append(q.queue, &queued{watch: watch, at: time.Now()})
	}
	says := byte(saysFree)
	if q.holder != 0 {
		says = saysHeld
	}
	q.send(noticeTo(watch, says, uint16(q.place(watch.client))), watch.from)
}

// tell tells the next one that the lock is free, if it is: one for each release, and one each period.
func (q *queueNode) tell() {
	for at := len(q.queue) - 1; at >= 0; at-- {
		if time.Since(q.queue[at].at) > 20*period {
			q.remove(q.queue[at].watch.client)
		}
	}
	if q.holder != 0 {
		return
	}
	for at, it := range q.queue {
		if it.told == q.fence+1 {
			continue
		}
		it.told = q.fence + 1
		q.send(noticeTo(it.watch, saysFree, uint16(at+1)), it.watch.from)
		return
	}
}
