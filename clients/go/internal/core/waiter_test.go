package core

import (
	"fmt"
	"math/rand"
	"net/netip"
	"strings"
	"testing"
	"time"

	"locks/internal/wire"
)

// waiter returns a wait of client 7 for `db` at three nodes, whose watches are numbered from 1.
func waiter() *Waiter {
	last := uint64(0)
	number := func() uint64 {
		last++
		return last
	}
	w := NewWaiter(wire.Seals{Cluster: 5, Client: 7}, acquire, number, half)
	w.SetNodes([]netip.AddrPort{one, two, three})
	return w
}

func hear(w *Waiter, came Datagram) bool {
	isOne, _ := w.Hear(came, start)
	return isOne
}

// ticket is that of the watch of this number.
func ticket(number, fence uint64) wire.Ticket {
	return wire.Ticket{Cluster: 5, Client: 7, Number: number, Fence: fence, Name: "db"}
}

// notice is what node 1 says to a watch: the news, and the place in the queue.
func notice(to wire.Ticket, says wire.News, place byte, from netip.AddrPort) Datagram {
	data := to.Watch(byte(says))
	data[3], data[15], data[70] = 10, 1, place
	return Datagram{data, from}
}

// wantWatches compares what is sent with one watch to each of these nodes.
func wantWatches(t *testing.T, sends []Datagram, watch wire.Ticket, periods byte, nodes ...netip.AddrPort) {
	t.Helper()
	var got, wanted []string
	for _, it := range sends {
		got = append(got, fmt.Sprintf("%x to %v", it.Payload, it.Address))
	}
	for _, node := range nodes {
		wanted = append(wanted, fmt.Sprintf("%x to %v", watch.Watch(periods), node))
	}
	if strings.Join(got, "\n") != strings.Join(wanted, "\n") {
		t.Errorf("sent\n%s\nwanted\n%s", strings.Join(got, "\n"), strings.Join(wanted, "\n"))
	}
}

// after returns the time so many milliseconds after the start.
func after(milliseconds int) time.Time {
	return start.Add(time.Duration(milliseconds) * time.Millisecond)
}

func wantAsksAt(t *testing.T, w *Waiter, milliseconds int) {
	t.Helper()
	if got := w.AsksAt(); !got.Equal(after(milliseconds)) {
		t.Errorf("asks after %v, wanted %d ms", got.Sub(start), milliseconds)
	}
}

func TestEachNodeIsWatchedAfterTheFirstBusyAndEach800Milliseconds(t *testing.T) {
	w := waiter()
	if sends := w.Tick(start); sends != nil {
		t.Errorf("sent %v", sends)
	}
	wantWatches(t, w.Busy(start, 3), ticket(1, 3), 20, one, two, three)
	for number := uint64(2); number < 20; number++ {
		at := after(int(number-1) * 800)
		if sends := w.Tick(at.Add(-time.Millisecond)); sends != nil {
			t.Errorf("sent early: %v", sends)
		}
		wantWatches(t, w.Tick(at), ticket(number, 3), 20, one, two, three)
		for _, node := range []netip.AddrPort{one, two, three} {
			w.Hear(notice(ticket(number, 3), wire.NewsNotHere, 1, node), at)
		}
	}
}

func TestALockIsAskedForAtOnceAfterANotice(t *testing.T) {
	w := waiter()
	w.Busy(start, 3)
	if w.Ask(after(10)) {
		t.Error("asks without a notice")
	}
	if !hear(w, notice(ticket(1, 3), wire.NewsFree, 1, two)) || !w.Ask(after(10)) {
		t.Error("does not ask")
	}
}

func TestOneNoticeOfEachWatchIsFollowed(t *testing.T) {
	w := waiter()
	w.Busy(start, 3)
	free := notice(ticket(1, 3), wire.NewsFree, 1, two)
	hear(w, free)
	w.Ask(after(10))
	hear(w, free) // doubled
	wantWatches(t, w.Busy(after(20), 3), ticket(2, 3), 20, one, two, three)
	if hear(w, free) || w.Ask(after(30)) { // late
		t.Error("took a notice to an earlier watch")
	}
}

func TestAWaiterThatComesTooLateWatchesAgainAtOnce(t *testing.T) {
	w := waiter()
	w.Busy(start, 3)
	hear(w, notice(ticket(1, 3), wire.NewsFree, 1, two))
	w.Ask(after(10))
	wantWatches(t, w.Busy(after(11), 4), ticket(2, 4), 20, one, two, three)
	hear(w, notice(ticket(2, 4), wire.NewsFree, 1, two))
	if !w.Ask(after(12)) {
		t.Error("does not ask")
	}
}

func TestALockThatIsFreeForOthersIsAskedForWhenItsTurnHasCome(t *testing.T) {
	w := waiter()
	w.Busy(start, 3)
	free := notice(ticket(1, 3), wire.NewsFree, 2, two)
	if !hear(w, free) || !w.IsQueued(after(1000)) || w.Ask(after(1000)) {
		t.Error("asks at the answer to its watch")
	}
	if !hear(w, free) || !w.Ask(after(1000)) {
		t.Error("does not ask")
	}
}

func TestANodeThatIsWrongAboutAHeldLockIsFollowedTwice(t *testing.T) {
	w, asked := waiter(), 0
	w.Busy(start, 3)
	for at := 0; at < 10_000; at++ { // each millisecond a notice, and an answer Busy to each request
		w.Hear(notice(w.ticket, wire.NewsFree, 1, two), after(at))
		if w.Ask(after(at)) {
			asked++
			w.Busy(after(at), 3)
		}
		w.Tick(after(at))
	}
	if asked > 20 { // the two, and polls
		t.Errorf("asked %d times in ten seconds", asked)
	}
	w.Busy(after(10_000), 4)
	hear(w, notice(w.ticket, wire.NewsFree, 1, two))
	if !w.Ask(after(10_001)) {
		t.Error("does not ask at another fence")
	}
}

// asked returns after how many milliseconds a wait asks, each time in vain, until one of these. Node two gives this
// notice to each watch that is sent before another one.
func asked(says wire.News, place byte, silentAt, end int) []int {
	w, now, asked := waiter(), start, []int(nil)
	w.Busy(now, 3)
	for now.Before(after(end)) {
		if now.Before(after(silentAt)) {
			w.Hear(notice(w.ticket, says, place, two), now)
		}
		now = w.AsksAt()
		if renews, _ := w.RenewsAt(); renews.Before(now) {
			now = renews
		}
		if w.Ask(now) {
			asked = append(asked, int(now.Sub(start).Milliseconds()))
			w.Busy(now, 3)
		}
		w.Tick(now)
	}
	return asked
}

func TestInTheQueueOfANodeALockIsAskedForOnceAMinute(t *testing.T) {
	for _, place := range []byte{1, 200} {
		if got := fmt.Sprint(asked(wire.NewsHeld, place, 200_000, 200_000)); got != "[60000 120000 180000]" {
			t.Errorf("place %d: asked after %s", place, got)
		}
	}
}

func TestWithoutAPlaceALockIsAskedForAtIntervals(t *testing.T) {
	for _, row := range []struct {
		says  wire.News
		place byte
	}{{wire.NewsHeld, 0}, {wire.NewsNotHere, 1}, {wire.NewsNotHere, 0}} { // a full queue, and nodes that do not lead
		if got := fmt.Sprint(asked(row.says, row.place, 3000, 3000)); got != "[50 150 350 750 1550 2350 3150]" {
			t.Errorf("%v, place %d: asked after %s", row.says, row.place, got)
		}
	}
}

func TestAPlaceThatNoNoticeKeepsIsBelievedFor1700Milliseconds(t *testing.T) {
	got := fmt.Sprint(asked(wire.NewsHeld, 1, 8000, 10_000)) // the last notice comes after 7200
	if got != "[8900 9000 9200 9600 10400]" {
		t.Errorf("asked after %s", got)
	}
}

func TestAnAnswerThatALockIsFreeForOthersCountsAsFreeAtTheSamePlace(t *testing.T) {
	type answer struct {
		says  wire.News
		place byte
	}
	free, fewer, held := answer{wire.NewsFree, 3}, answer{wire.NewsFree, 2}, answer{wire.NewsHeld, 3}
	for _, row := range []struct {
		answers []answer
		asks    string // by which of them
	}{
		{[]answer{free, free, free, free}, "[1 3]"}, {[]answer{free, fewer, fewer}, "[2]"},
		{[]answer{free, held, free, free}, "[3]"},
	} {
		w, asks := waiter(), []int(nil)
		w.Busy(start, 3)
		for at, it := range row.answers {
			now := after(800 * at)
			w.Hear(notice(w.ticket, it.says, it.place, two), now)
			if w.Ask(now) {
				asks = append(asks, at)
				w.Busy(now, 3)
			}
			w.Tick(now.Add(renewal))
		}
		if got := fmt.Sprint(asks); got != row.asks {
			t.Errorf("%v: asks at %s, wanted %s", row.answers, got, row.asks)
		}
	}
}

func TestANodeThatLeavesTwoRenewalsUnansweredIsGone(t *testing.T) {
	w := waiter()
	w.Busy(start, 3)
	w.Hear(notice(ticket(1, 3), wire.NewsHeld, 1, two), start)
	hear := func(number uint64, says wire.News) {
		now := after(int(number-1) * 800)
		w.Hear(notice(ticket(number, 3), wire.NewsNotHere, 1, one), now)
		w.Hear(notice(ticket(number, 3), says, 1, three), now)
	}
	for number := uint64(2); number <= 3; number++ {
		hear(number-1, wire.NewsNotHere)
		wantWatches(t, w.Tick(after(int(number-1)*800)), ticket(number, 3), 20, one, two, three)
		wantAsksAt(t, w, 1700)
	}
	hear(3, wire.NewsNotHere)
	wantWatches(t, w.Tick(after(2400)), ticket(4, 3), 20, one, three)
	for number := uint64(5); number <= 8; number++ {
		hear(number-1, wire.NewsHeld) // another one leads
		wantAsksAt(t, w, int(number-2)*800+1700)
		nodes := []netip.AddrPort{one, three}
		if number == tryEach {
			nodes = []netip.AddrPort{one, two, three}
		}
		wantWatches(t, w.Tick(after(int(number-1)*800)), ticket(number, 3), 20, nodes...)
	}
}

func TestWatchesThatFollowEachOtherQuicklyLeaveNoNodeBehind(t *testing.T) {
	w := waiter()
	for at := 0; at < 10; at++ { // the lock goes from hand to hand before a node has answered
		wantWatches(t, w.Busy(after(at), uint64(3+at)), ticket(uint64(at+1), uint64(3+at)), 20, one, two, three)
	}
}

func TestOldNodesAreAskedAsTheyWereBefore(t *testing.T) {
	w, polls, now := waiter(), Polls{Random: half}, start
	watches := len(w.Busy(now, 3))
	for turn := 0; turn < 60; turn++ {
		end := now.Add(polls.After(3))
		for renews, _ := w.RenewsAt(); renews.Before(end); renews, _ = w.RenewsAt() {
			now = renews
			watches += len(w.Tick(now))
		}
		if now = w.AsksAt(); !now.Equal(end) || !w.Ask(now) {
			t.Fatalf("turn %d: asks after %v, wanted %v", turn, now.Sub(start), end.Sub(start))
		}
		watches += len(w.Busy(now, 3))
	}
	// Each eighth of them, after the first five.
	if seconds := now.Sub(start).Seconds(); float64(watches) > 15+3*seconds/0.8/tryEach*1.3 {
		t.Errorf("%d watches in %v s", watches, seconds)
	}
}

func TestANoticeIsTakenFromAWatchedAddressAlone(t *testing.T) {
	w := waiter()
	if hear(w, notice(ticket(0, 0), wire.NewsFree, 1, one)) {
		t.Error("took one before a watch")
	}
	w.Busy(start, 3)
	for _, forged := range []Datagram{
		notice(ticket(1, 3), wire.NewsFree, 1, address(6666)),
		notice(ticket(2, 3), wire.NewsFree, 1, one), notice(ticket(1, 4), wire.NewsFree, 1, one),
	} {
		if hear(w, forged) || w.Ask(after(1)) {
			t.Errorf("took %v", forged)
		}
	}
	w.SetNodes([]netip.AddrPort{one, address(7004)})
	for _, node := range []netip.AddrPort{two, address(7004)} {
		if hear(w, notice(ticket(1, 3), wire.NewsFree, 1, node)) {
			t.Errorf("took one of %v, which is not watched", node)
		}
	}
}

func TestWithAKeyTheSealOfANoticeDecides(t *testing.T) {
	keys, err := wire.ParseKeys(strings.Repeat("11", 32))
	if err != nil {
		t.Fatal(err)
	}
	w := waiter()
	w.SetKeys(keys)
	if sends := w.Busy(start, 3); len(sends) != 3 || string(sends[0].Payload[:4]) != "LS\x01\x02" {
		t.Errorf("sent %v", sends)
	}
	if hear(w, notice(ticket(1, 3), wire.NewsFree, 1, one)) {
		t.Error("took a bare notice")
	}
}

func TestAWaitThatEndsIsWithdrawn(t *testing.T) {
	w := waiter()
	if sends := w.Withdraw(); sends != nil {
		t.Errorf("sent %v", sends)
	}
	w.Busy(start, 3)
	w.SetNodes([]netip.AddrPort{one, three, address(7004)})
	wantWatches(t, w.Withdraw(), ticket(2, 3), 0, one, three)
	if sends := w.Withdraw(); sends != nil || w.Tick(after(9000)) != nil {
		t.Errorf("sent %v", sends)
	}
	if hear(w, notice(ticket(2, 3), wire.NewsFree, 0, one)) {
		t.Error("took the notice to a withdrawal")
	}
}

func TestWhoReleasedTheLockWatchesBeforeItAsks(t *testing.T) {
	w := waiter()
	wantWatches(t, w.Watch(start, 3), ticket(1, 3), 20, one, two, three)
	wantAsksAt(t, w, 50)
	hear(w, notice(ticket(1, 3), wire.NewsFree, 0, two))
	if !w.Ask(after(1)) {
		t.Error("does not ask for a free lock")
	}
	wantWatches(t, w.Busy(after(2), 4), ticket(2, 4), 20, one, two, three)
}

func TestASharerSaysSo(t *testing.T) {
	share := wire.Op{Word: wire.Share, Name: "db"}
	w := NewWaiter(wire.Seals{Cluster: 5, Client: 7}, share, func() uint64 { return 1 }, half)
	w.SetNodes([]netip.AddrPort{one})
	wanted := ticket(1, 3)
	wanted.IsShared = true
	wantWatches(t, w.Busy(start, 3), wanted, 20, one)
}

func TestAnyBytesOfNoticesAreHeardWithoutHarm(t *testing.T) {
	random := rand.New(rand.NewSource(1))
	for turn := 0; turn < 20_000; turn++ {
		w := waiter()
		w.Busy(start, 3)
		came := notice(ticket(1, 3), wire.News(1+random.Intn(3)), byte(random.Intn(3)), one)
		at := random.Intn(len(came.Payload))
		came.Payload[at] ^= byte(1 + random.Intn(255))
		came.Payload = came.Payload[:len(came.Payload)-random.Intn(2)]
		isTaken := hear(w, came)
		// Only the node, the news and the place may be other ones.
		if isTaken && at < 12 || isTaken && at >= 16 && at < 68 {
			t.Fatalf("took %x", came.Payload)
		}
		if asks := w.AsksAt(); asks.Before(start) || asks.After(start.Add(belief)) {
			t.Fatalf("%x: asks at %v", came.Payload, asks)
		}
	}
}
