package core

import (
	"encoding/hex"
	"errors"
	"fmt"
	"math/rand"
	"net/netip"
	"strings"
	"testing"
	"time"

	"locks/internal/wire"
)

var (
	one, two, three = address(7001), address(7002), address(7003)
	start           = time.Unix(1_000_000, 0)
	acquire         = wire.Op{Word: wire.Acquire, Name: "db"}
)

func address(port uint16) netip.AddrPort {
	return netip.AddrPortFrom(netip.MustParseAddr("127.0.0.1"), port)
}

// counter gives numbers from 1 on, up to a last one.
type counter struct{ last, end uint64 }

func (c *counter) Take(bool) (uint64, error) {
	if c.last == c.end {
		return 0, errors.New("no number")
	}
	c.last++
	return c.last, nil
}

// half makes each wait as long as its step.
func half() float64 { return 0.5 }

func machine() *Machine {
	nodes := []netip.AddrPort{one, two, three}
	return New(wire.Seals{Cluster: 5, Client: 7}, nodes, nil, &counter{end: 1000}, half)
}

// begun returns a machine whose first Ask was answered, with an op begun under number 2 and sent to node 1.
func begun(t *testing.T, op wire.Op) *Machine {
	t.Helper()
	m := machine()
	begin(t, m, op)
	m.Start(start)
	sends, outcome, err := m.Hear(start, reply(1, "0a", "05 0000000000000000", one))
	if len(sends) != 1 || outcome != nil || err != nil {
		t.Fatalf("got %v, %v, %v", sends, outcome, err)
	}
	return m
}

func begin(t *testing.T, m *Machine, op wire.Op) {
	t.Helper()
	if err := m.Begin(op); err != nil {
		t.Fatal(err)
	}
}

// reply is a datagram of node 1 to client 7 of cluster 5.
func reply(number uint64, kind, fields string, from netip.AddrPort) Datagram {
	text := fmt.Sprintf("4c4b01%s 0000000000000005 00000001 0007 %016x %s", kind, number, fields)
	data, err := hex.DecodeString(strings.ReplaceAll(text, " ", ""))
	if err != nil {
		panic(err)
	}
	return Datagram{data, from}
}

func granted(number uint64, from netip.AddrPort) Datagram {
	return reply(number, "0a", "01 0000000000000003", from)
}

func elsewhere(number uint64, port uint16, from netip.AddrPort) Datagram {
	return reply(number, "0b", fmt.Sprintf("00000002 %04x", port), from)
}

// wantSent compares what is sent with the number, the words and the address of one request.
func wantSent(t *testing.T, sends []Datagram, number uint64, op wire.Op, to netip.AddrPort) {
	t.Helper()
	wanted := wire.Label{Cluster: 5, Client: 7, Number: number}.Request(op)
	if len(sends) != 1 || string(sends[0].Payload) != string(wanted) || sends[0].Address != to {
		t.Errorf("sent %v, wanted number %d, %s, to %v", sends, number, op, to)
	}
}

func TestARunBeginsWithOneAsk(t *testing.T) {
	m := machine()
	begin(t, m, acquire)
	wantSent(t, m.Start(start), 1, wire.Op{Word: wire.Ask, Name: "db"}, one)
	if _, isOpen, isSent := m.Open(); !isOpen || isSent {
		t.Error("the acquire was sent")
	}
	sends, _, _ := m.Hear(start, reply(1, "0a", "05 0000000000000000", one))
	wantSent(t, sends, 2, acquire, one)
	_, outcome, _ := m.Hear(start, granted(2, one))
	if outcome == nil || outcome.Answer.Fence != 3 || outcome.IsFirst || outcome.Number != 2 {
		t.Fatalf("got %+v", outcome)
	}
	begin(t, m, acquire)
	wantSent(t, m.Start(start), 3, acquire, one)
}

func TestAKeptAnswerToAnEarlierRequestIsNotBelieved(t *testing.T) {
	m := machine()
	for number := uint64(1); number <= 2; number++ {
		begin(t, m, acquire)
		m.Start(start)
		sends, outcome, err := m.Hear(start, granted(number, one))
		if sends != nil || err != nil || outcome == nil || !outcome.IsOther() || !outcome.IsFirst {
			t.Fatalf("got %v, %+v, %v", sends, outcome, err)
		}
	}
}

func TestARequestAfterPassedBeginsWithAnAskAgain(t *testing.T) {
	m := begun(t, acquire)
	_, outcome, _ := m.Hear(start, reply(2, "0c", "0000000000000009", one))
	if outcome == nil || !outcome.IsPassed() || outcome.Last != 9 || outcome.IsFirst {
		t.Fatalf("got %+v", outcome)
	}
	begin(t, m, wire.Op{Word: wire.Raise})
	wantSent(t, m.Start(start), 3, wire.Op{Word: wire.Ask, Name: "first"}, one)
}

func TestTheSameBytesGoToOneNodeAfterTheOther(t *testing.T) {
	m, now := begun(t, acquire), start
	for at, to := range []netip.AddrPort{two, three, one, two} {
		wait := m.Due().Sub(now)
		if wait != steps[least(at, 3)] {
			t.Errorf("waits %v", wait)
		}
		if sends := m.Tick(now); sends != nil {
			t.Errorf("sent early: %v", sends)
		}
		now = m.Due()
		wantSent(t, m.Tick(now), 2, acquire, to)
	}
	_, outcome, _ := m.Hear(now, granted(2, three))
	if leader, isKnown := m.Leader(); outcome == nil || !isKnown || leader != three {
		t.Errorf("got %+v, leader %v", outcome, leader)
	}
}

func TestSevenElsewheresAreFollowedAndTheEighthIsDropped(t *testing.T) {
	m := begun(t, acquire)
	due := m.Due()
	for port := uint16(8001); port <= 8007; port++ {
		sends, _, _ := m.Hear(start, elsewhere(2, port, one))
		wantSent(t, sends, 2, acquire, address(port))
	}
	if sends, outcome, _ := m.Hear(start, elsewhere(2, 8008, one)); sends != nil || outcome != nil || m.Due() != due {
		t.Errorf("got %v, %v", sends, outcome)
	}
	m.Tick(due)
	sends, _, _ := m.Hear(due, elsewhere(2, 8009, one))
	wantSent(t, sends, 2, acquire, address(8009))
}

func TestARequestGoesToANodeThatSaysThatItLeads(t *testing.T) {
	m := machine()
	if sends := m.Lead(two); sends != nil {
		t.Errorf("sent %v without a request", sends)
	}
	m = begun(t, acquire)
	if sends := m.Lead(one); sends != nil {
		t.Errorf("sent twice: %v", sends)
	}
	for range make([]bool, maxFollowed) {
		wantSent(t, m.Lead(three), 2, acquire, three)
	}
	if sends := m.Lead(three); sends != nil {
		t.Errorf("sent without an end: %v", sends)
	}
	if _, outcome, _ := m.Hear(start, granted(2, three)); outcome == nil {
		t.Error("its answer was dropped")
	}
}

func TestAnElsewhereLeadsToTheHostOrToItsTeller(t *testing.T) {
	m := begun(t, acquire)
	m.hosts = map[uint32]netip.Addr{2: netip.MustParseAddr("127.0.0.9")}
	sends, _, _ := m.Hear(start, elsewhere(2, 7002, one))
	wantSent(t, sends, 2, acquire, netip.MustParseAddrPort("127.0.0.9:7002"))
}

func TestWithoutAKeyAReplyIsTakenFromAnAskedAddressAlone(t *testing.T) {
	m := begun(t, acquire)
	for _, forged := range []Datagram{granted(2, address(6666)), elsewhere(2, 6666, address(6666)), granted(2, two)} {
		if sends, outcome, _ := m.Hear(start, forged); sends != nil || outcome != nil {
			t.Errorf("took %v", forged)
		}
	}
	if m.Strange != 3 {
		t.Errorf("counted %d", m.Strange)
	}
	if _, outcome, _ := m.Hear(start, granted(2, one)); outcome == nil {
		t.Error("the true one was dropped")
	}
}

func TestALateReplyOfAnEarlierNodeIsTaken(t *testing.T) {
	m := begun(t, acquire)
	m.Tick(m.Due())
	if _, outcome, _ := m.Hear(start, granted(2, one)); outcome == nil {
		t.Error("dropped")
	}
}

func TestRepliesOfAnEarlierRequestAndDoubledOnesAreDropped(t *testing.T) {
	m := begun(t, acquire)
	if sends, outcome, _ := m.Hear(start, reply(1, "0a", "05 0000000000000000", one)); sends != nil || outcome != nil {
		t.Errorf("took the doubled answer to the Ask: %v, %v", sends, outcome)
	}
	if _, outcome, _ := m.Hear(start, granted(2, one)); outcome == nil {
		t.Fatal("dropped")
	}
	if sends, outcome, err := m.Hear(start, granted(2, one)); sends != nil || outcome != nil || err != nil {
		t.Errorf("took the doubled answer: %v, %v, %v", sends, outcome, err)
	}
}

func TestWithAKeyTheSealDecides(t *testing.T) {
	keys, err := wire.ParseKeys(strings.Repeat("11", 32))
	if err != nil {
		t.Fatal(err)
	}
	m := begun(t, acquire)
	m.SetKeys(keys)
	if _, outcome, _ := m.Hear(start, granted(2, one)); outcome != nil || m.Unopened != 1 {
		t.Error("took a bare reply")
	}
	// A frame of a reply differs from one of a request by its head and its label, so none can be made here but by hand.
	if sends := m.Start(start); len(sends) != 1 || string(sends[0].Payload[:4]) != "LS\x01\x02" {
		t.Errorf("sent %v", sends)
	}
}

func TestNumbersThatEndAreTold(t *testing.T) {
	m := machine()
	m.numbers = &counter{end: 1}
	begin(t, m, acquire)
	m.Start(start)
	_, outcome, err := m.Hear(start, reply(1, "0a", "05 0000000000000000", one))
	if _, isOpen, _ := m.Open(); outcome != nil || err == nil || isOpen {
		t.Errorf("got %v, %v", outcome, err)
	}
}

func TestAnyBytesAreHeardWithoutHarm(t *testing.T) {
	m, random := begun(t, acquire), rand.New(rand.NewSource(1))
	for turn := 0; turn < 20_000; turn++ {
		came := granted(2, one)
		if turn%2 == 0 {
			came = elsewhere(2, 7002, one)
		}
		at := random.Intn(len(came.Payload))
		came.Payload[at] ^= byte(1 + random.Intn(255))
		came.Payload = came.Payload[:random.Intn(len(came.Payload)+1)]
		if _, outcome, err := m.Hear(start, came); err != nil || outcome != nil && outcome.Answer.Text == "" {
			t.Fatalf("%x: got %+v, %v", came.Payload, outcome, err)
		}
		if _, isOpen, _ := m.Open(); !isOpen {
			m = begun(t, acquire)
		}
	}
}

func TestPollsGrowWhileOneHolderStays(t *testing.T) {
	waits := Polls{Random: half}
	for _, wanted := range polls {
		if wait := waits.After(3); wait != wanted {
			t.Errorf("got %v, wanted %v", wait, wanted)
		}
	}
	for range make([]bool, 29) {
		if wait := waits.After(3); wait != polls[4] {
			t.Errorf("got %v", wait)
		}
	}
	if wait := waits.After(3); wait != longPoll {
		t.Errorf("got %v", wait)
	}
	if wait := waits.After(4); wait != polls[0] {
		t.Errorf("got %v", wait)
	}
	waits.Random = func() float64 { return 1 }
	if wait := waits.After(5); wait != polls[0]*5/4 {
		t.Errorf("got %v", wait)
	}
}
