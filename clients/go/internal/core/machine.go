// Package core is the protocol of one client as a pure state machine: a driver gives it the time and the datagrams that
// came, and it returns the datagrams that are to be sent. It has no socket and no clock.
package core

import (
	"net/netip"
	"time"

	"locks/internal/wire"
)

// maxFollowed is how many Elsewheres are followed between two sends: a cluster has no more members. Further ones are
// dropped, and the wait goes on.
const maxFollowed = 7

// firstName is asked for before a request that names no lock.
const firstName = "first"

// A Datagram is a payload, and the address that it goes to or came from.
type Datagram struct {
	Payload []byte
	Address netip.AddrPort
}

// Numbers give each request its number.
type Numbers interface {
	// Take returns the next number, which is kept already. Only what frees a lock takes the last that are kept.
	Take(isFreeing bool) (uint64, error)
}

// An Outcome is how a request ended.
type Outcome struct {
	Op      wire.Op
	Number  uint64
	IsFirst bool        // it was the Ask before the caller's request, which was not sent
	Answer  wire.Answer // of no text where Last is set
	Last    uint64      // the greater number that was executed
}

// IsPassed reports whether a request with a greater number was executed before.
func (o *Outcome) IsPassed() bool {
	return o.Last > 0
}

// IsOther reports whether the answer was kept for an earlier request under the same number.
func (o *Outcome) IsOther() bool {
	return !o.IsPassed() && !o.Answer.Fits(o.Op.Word)
}

// A request has no outcome yet.
type request struct {
	op       wire.Op
	label    wire.Label
	asked    map[netip.AddrPort]bool
	to       netip.AddrPort
	due      time.Time // when it is sent again
	step     int
	followed int
}

// A Machine is one client. At most one of its requests has no outcome.
type Machine struct {
	seals   wire.Seals
	nodes   []netip.AddrPort
	hosts   map[uint32]netip.Addr
	numbers Numbers
	random  func() float64

	turn   int
	leader netip.AddrPort // the node that answered last
	// The next number may have been used before, if the state file was restored. A node then returns the answer that it
	// kept, whatever is asked. So an Ask is sent first, whose answer gives nobody a lock.
	isFresh bool
	open    *request
	next    *wire.Op // follows the Ask that is open

	Unopened int // payloads that no key opened, since the request was started
	Strange  int // payloads from addresses that were not asked, since then
}

// New returns a client that asks these nodes, at least one. Hosts say where nodes live that other nodes name; one that
// is not there is asked at the address of the node that named it.
func New(seals wire.Seals, nodes []netip.AddrPort, hosts map[uint32]netip.Addr, numbers Numbers,
	random func() float64) *Machine {
	return &Machine{seals: seals, nodes: nodes, hosts: hosts, numbers: numbers, random: random, isFresh: true}
}

// SetNodes changes the nodes that are asked.
func (m *Machine) SetNodes(nodes []netip.AddrPort) {
	m.nodes, m.turn, m.leader = nodes, 0, netip.AddrPort{}
}

// SetKeys changes the keys. An open request is sealed anew when it is sent again.
func (m *Machine) SetKeys(keys wire.Keys) {
	m.seals.Keys = keys
}

// SetFresh makes the next request begin with an Ask, since its number may have been used.
func (m *Machine) SetFresh() {
	m.isFresh = true
}

// Leader returns the address from which the last answer came, if no node was silent since.
func (m *Machine) Leader() (netip.AddrPort, bool) {
	return m.leader, m.leader.IsValid()
}

// Open returns the caller's request that has no outcome, and whether it was sent: before the answer to the first Ask it
// was not.
func (m *Machine) Open() (op wire.Op, isOpen, isSent bool) {
	switch {
	case m.open == nil:
		return wire.Op{}, false, false
	case m.next != nil:
		return *m.next, true, false
	}
	return m.open.op, true, true
}

// Number returns the number of the open request.
func (m *Machine) Number() uint64 {
	return m.open.label.Number
}

// Drop forgets the open request. If it was sent it takes effect before the next one, or never.
func (m *Machine) Drop() {
	m.open, m.next = nil, nil
}

// Begin opens a request for a valid op. None may be open.
func (m *Machine) Begin(op wire.Op) error {
	if !m.isFresh {
		return m.begin(op, op.Word == wire.Release)
	}
	first := wire.Op{Word: wire.Ask, Name: op.Name}
	if op.Name == "" {
		first.Name = firstName
	}
	if err := m.begin(first, op.Word == wire.Release); err != nil {
		return err
	}
	m.next = &op
	return nil
}

func (m *Machine) begin(op wire.Op, isFreeing bool) error {
	number, err := m.numbers.Take(isFreeing)
	if err != nil {
		return err
	}
	label := wire.Label{Cluster: m.seals.Cluster, Client: m.seals.Client, Number: number}
	m.open = &request{op: op, label: label, asked: map[netip.AddrPort]bool{}}
	return nil
}

// Start sends the open request, for the first time or again.
func (m *Machine) Start(now time.Time) []Datagram {
	m.Unopened, m.Strange = 0, 0
	m.open.step = 0
	to := m.leader
	if !to.IsValid() {
		to = m.nodes[m.turn]
	}
	return m.sendTo(to, now)
}

// sendTo sends the open request to the next node, and waits for its answer.
func (m *Machine) sendTo(to netip.AddrPort, now time.Time) []Datagram {
	open := m.open
	open.due = now.Add(scattered(steps[least(open.step, len(steps)-1)], m.random))
	open.step++
	open.followed = 0
	open.to = to
	return m.send(to)
}

func (m *Machine) send(to netip.AddrPort) []Datagram {
	m.open.asked[to] = true
	return []Datagram{{m.seals.Seal(m.open.label.Request(m.open.op)), to}}
}

// Due returns when Tick has something to send.
func (m *Machine) Due() time.Time {
	return m.open.due
}

// Tick sends the open request to the next node if it is due.
func (m *Machine) Tick(now time.Time) []Datagram {
	if m.open == nil || now.Before(m.open.due) {
		return nil
	}
	m.leader = netip.AddrPort{}
	for range m.nodes {
		m.turn = (m.turn + 1) % len(m.nodes)
		if m.nodes[m.turn] != m.open.to {
			break
		}
	}
	return m.sendTo(m.nodes[m.turn], now)
}

// Hear takes a datagram that came. It returns what is to be sent, and the outcome of the open request if it has one
// now. An error of the numbers ends the request that was to follow an Ask.
func (m *Machine) Hear(now time.Time, came Datagram) ([]Datagram, *Outcome, error) {
	reply, isOne := m.read(came)
	if !isOne {
		return nil, nil, nil
	}
	switch reply.Kind {
	case wire.KindElsewhere:
		return m.follow(reply, came.Address), nil, nil
	case wire.KindPassed:
		m.isFresh = true
		return nil, m.end(Outcome{Last: reply.Last}), nil
	}
	if m.open.asked[came.Address] {
		m.leader = came.Address
	}
	return m.answered(now, reply.Answer)
}

// read returns the reply to the open request that a datagram is. Without a key anybody can send one, so it is only
// taken from an address that was asked. With a key the seal decides.
func (m *Machine) read(came Datagram) (wire.Reply, bool) {
	if m.open == nil {
		return wire.Reply{}, false
	}
	if m.seals.Keys.IsEmpty() && !m.open.asked[came.Address] {
		m.Strange++
		return wire.Reply{}, false
	}
	datagram, isOpen := m.seals.Open(came.Payload)
	if !isOpen {
		m.Unopened++
		return wire.Reply{}, false
	}
	return m.open.label.Reply(datagram)
}

// follow sends the open request to the node that an Elsewhere names.
func (m *Machine) follow(reply wire.Reply, teller netip.AddrPort) []Datagram {
	if m.open.followed >= maxFollowed || !m.open.asked[teller] {
		return nil
	}
	m.open.followed++
	host, isKnown := m.hosts[reply.Node]
	if !isKnown {
		host = teller.Addr()
	}
	return m.send(netip.AddrPortFrom(host, reply.Port))
}

// Lead sends the open request to a node that says that it leads, which counts as an Elsewhere.
func (m *Machine) Lead(node netip.AddrPort) []Datagram {
	if m.open == nil || m.open.to == node || m.open.followed >= maxFollowed {
		return nil
	}
	m.open.followed++
	return m.send(node)
}

// answered ends the open request, or begins the one that follows it.
func (m *Machine) answered(now time.Time, answer wire.Answer) ([]Datagram, *Outcome, error) {
	if !answer.Fits(m.open.op.Word) {
		m.isFresh = true
		return nil, m.end(Outcome{Answer: answer}), nil
	}
	if m.next == nil {
		return nil, m.end(Outcome{Answer: answer}), nil
	}
	m.isFresh = false
	next := *m.next
	m.Drop()
	if err := m.begin(next, next.Word == wire.Release); err != nil {
		return nil, nil, err
	}
	return m.Start(now), nil, nil
}

// end closes the open request with its outcome.
func (m *Machine) end(outcome Outcome) *Outcome {
	outcome.Op, outcome.Number, outcome.IsFirst = m.open.op, m.open.label.Number, m.next != nil
	m.Drop()
	return &outcome
}
