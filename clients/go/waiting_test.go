package locks

import (
	"bytes"
	"context"
	"errors"
	"net"
	"strings"
	"testing"
	"time"
)

// soon is less than the pause of a client that has a place in a queue.
const soon = 2 * time.Second

// wantSoon fails if a wait does not end well, or by a poll.
func wantSoon(t *testing.T, ended chan error) {
	t.Helper()
	select {
	case err := <-ended:
		if err != nil {
			t.Error(err)
		}
	case <-time.After(soon):
		t.Error("does not ask")
	}
}

// wantNoRequest fails if a node is asked for a while.
func wantNoRequest(t *testing.T, n *node) {
	t.Helper()
	before := len(n.ops())
	time.Sleep(300 * time.Millisecond)
	if after := n.ops(); len(after) != before {
		t.Errorf("asked %v", after[before:])
	}
}

func TestALockIsTakenAtOnceWhenANoticeComes(t *testing.T) {
	n := fakeNode(t)
	watch, ended := n.inQueue(clientOf(t, nil, n))
	n.free(watch)
	wantSoon(t, ended)
	n.wantNoWithdrawal(t) // the grant ends the watch
}

func TestAWatchHasTheFenceOfTheBusyAndRises(t *testing.T) {
	n := fakeNode(t, free, busy, "02 0008 0000000000000004", granted).queued()
	client := clientOf(t, nil, n)
	go client.Lock(within(t), "db")
	first := n.awaitWatch(false)
	if first.client != 7 || first.fence != 3 || first.name != "db" || first.periods != 20 || first.isShared {
		t.Errorf("got %+v", first)
	}
	n.tell(first, saysFree, 1)
	second := n.awaitWatch(false)
	if second.fence != 4 || second.number <= first.number {
		t.Errorf("got %+v after %+v", second, first)
	}
	renewed := n.awaitWatch(false)
	if renewed.fence != 4 || renewed.number <= second.number {
		t.Errorf("got %+v after %+v", renewed, second)
	}
}

func TestEachNodeIsWatched(t *testing.T) {
	one, two := fakeNode(t, free, busy), fakeNode(t)
	client := clientOf(t, nil, one, two)
	go client.Lock(within(t), "db")
	first, second := one.awaitWatch(false), two.awaitWatch(false)
	if !bytes.Equal(first.data, second.data) {
		t.Errorf("got %x and %x", first.data, second.data)
	}
}

func TestARequestGoesToTheNodeThatToldTheClient(t *testing.T) {
	one, two := fakeNode(t, free, busy), fakeNode(t, granted)
	// One after the other they would be asked for more than three seconds.
	client := clientOf(t, nil, one, fakeNode(t), fakeNode(t), fakeNode(t), two)
	two.queued()
	_, ended := locking(t, client, "db")
	two.tell(two.awaitWatch(false), saysFree, 1)
	wantSoon(t, ended)
	wantOps(t, two, "acquire db")
}

func TestAWatchIsRenewedWhileARequestHasNoAnswer(t *testing.T) {
	n := fakeNode(t, free, busy, silent).queued()
	client := clientOf(t, nil, n)
	go client.Lock(within(t), "db")
	first := n.awaitWatch(false)
	n.tell(first, saysFree, 1)
	n.await(3)
	last := first.number
	for range make([]bool, 3) {
		watch := n.awaitWatch(false)
		if watch.number <= last {
			t.Errorf("got number %d after %d", watch.number, last)
		}
		last = watch.number
	}
}

func TestAnOldNodeThatAnswersNoWatchIsPolled(t *testing.T) {
	n := fakeNode(t, free, busy, busy, busy, granted)
	mustLock(t, clientOf(t, nil, n), "db")
	wantOps(t, n, "ask db", "acquire db", "acquire db", "acquire db", "acquire db")
}

func TestANodeWithAFullQueueIsPolled(t *testing.T) {
	n, begun := fakeNode(t, free, busy, busy, busy, granted), time.Now()
	n.whenWatched(func(watch heardWatch) { n.tell(watch, saysHeld, 0) })
	mustLock(t, clientOf(t, nil, n), "db")
	if took := time.Since(begun); took > 3*soon {
		t.Errorf("took %v", took)
	}
	wantOps(t, n, "ask db", "acquire db", "acquire db", "acquire db", "acquire db")
}

func TestAClientThatHearsNoMoreOfItsPlaceAsks(t *testing.T) {
	n := fakeNode(t)
	_, ended := n.inQueue(clientOf(t, nil, n))
	n.whenWatched(nil)
	n.only(granted)
	select {
	case err := <-ended:
		if err != nil {
			t.Error(err)
		}
	case <-time.After(20 * time.Second):
		t.Error("does not ask")
	}
}

func TestADoubledNoticeIsFollowedOnce(t *testing.T) {
	n := fakeNode(t, free, busy, busy, granted).queued()
	client := clientOf(t, nil, n)
	waited := make(chan error)
	go func() {
		_, err := client.Lock(within(t), "db")
		waited <- err
	}()
	first := n.awaitWatch(false)
	for range make([]bool, 5) {
		n.tell(first, saysFree, 1)
	}
	n.await(3)
	second := n.awaitWatch(false)
	n.tell(first, saysFree, 1) // and a late one
	select {
	case err := <-waited:
		t.Errorf("followed twice: %v", err)
	case <-time.After(100 * time.Millisecond):
	}
	n.tell(second, saysFree, 1)
	if err := <-waited; err != nil {
		t.Error(err)
	}
	wantOps(t, n, "ask db", "acquire db", "acquire db", "acquire db")
}

func TestAForgedNoticeIsNotFollowed(t *testing.T) {
	n := fakeNode(t)
	watch, _ := n.inQueue(clientOf(t, nil, n))
	forger, err := net.ListenUDP("udp4", &net.UDPAddr{IP: net.IPv4(127, 0, 0, 1)})
	if err != nil {
		t.Fatal(err)
	}
	defer forger.Close()
	forger.WriteToUDPAddrPort(noticeTo(watch, saysFree, 1), watch.from)
	watch.data[25] += 100 // a number that was not sent
	n.tell(watch, saysFree, 1)
	wantNoRequest(t, n)
}

func TestSealedNoticesAreFollowedAndBareOnesNot(t *testing.T) {
	text := strings.Repeat("11", 32)
	keys, err := ParseKeys(text)
	if err != nil {
		t.Fatal(err)
	}
	n := sealedNode(t, unhex(text))
	watch, ended := n.inQueue(clientOf(t, func(c *Config) { c.Keys = keys }, n))
	n.connection.WriteToUDPAddrPort(noticeTo(watch, saysFree, 1), watch.from)
	wantNoRequest(t, n)
	n.free(watch)
	wantSoon(t, ended)
}

func TestAWaitThatIsCancelledIsWithdrawn(t *testing.T) {
	n := fakeNode(t, free, busy).queued()
	client := clientOf(t, nil, n)
	cancel, ended := locking(t, client, "db")
	watch := n.awaitWatch(false)
	cancel()
	withdrawal := n.awaitWatch(true)
	if withdrawal.number <= watch.number || withdrawal.name != "db" || withdrawal.from != watch.from {
		t.Errorf("got %+v after %+v", withdrawal, watch)
	}
	var held *Busy
	if err := <-ended; !errors.As(err, &held) || !errors.Is(err, context.Canceled) {
		t.Errorf("got %v", err)
	}
	n.tell(withdrawal, saysFree, 1) // nobody waits for it
	wantOps(t, n, "ask db", "acquire db")
}

func TestCloseWithdrawsAWait(t *testing.T) {
	n := fakeNode(t, free, busy).queued()
	client := clientOf(t, nil, n)
	_, ended := locking(t, client, "db")
	n.awaitWatch(false)
	if err := client.Close(); err != nil {
		t.Error(err)
	}
	n.awaitWatch(true)
	if err := <-ended; !errors.Is(err, ErrClosed) {
		t.Errorf("got %v", err)
	}
}

func TestOneGoroutineOfAClientWatchesAName(t *testing.T) {
	n := fakeNode(t)
	client := clientOf(t, nil, n)
	n.inQueue(client)
	count := uint64(len(n.ops()))
	cancelSecond, second := locking(t, client, "db")
	n.await(count + 2) // its second request, so the first was answered
	cancelSecond()
	<-second
	n.wantNoWithdrawal(t)
}

func TestWhoReleasedALockLetsOthersHaveIt(t *testing.T) {
	n := fakeNode(t, free, granted, released, granted)
	asked := make(chan int, 10)
	n.whenWatched(func(watch heardWatch) {
		asked <- len(n.ops())
		n.tell(watch, saysFree, 0)
	})
	client := clientOf(t, nil, n)
	mustRelease(t, mustLock(t, client, "db"))
	mustLock(t, client, "db")
	if watch := n.awaitWatch(false); watch.fence != 1 {
		t.Errorf("got %+v", watch)
	}
	if count := <-asked; count != 3 {
		t.Errorf("watched after %d requests", count)
	}
	wantOps(t, n, "ask db", "acquire db", "release db 1", "acquire db")
}

func TestOldNodesAreWatchedBeforeARequestOnce(t *testing.T) {
	n := fakeNode(t, free, granted, released, granted, released, granted)
	client := clientOf(t, nil, n)
	mustRelease(t, mustLock(t, client, "db"))
	mustRelease(t, mustLock(t, client, "db"))
	n.awaitWatch(false)
	mustLock(t, client, "db")
	n.wantNoWatch(t)
}

func TestAClientWithoutNoticesSendsRequestsAlone(t *testing.T) {
	n := fakeNode(t, free, granted, released, busy, busy, busy, "01 0000000000000004").queued()
	client := clientOf(t, polling, n)
	mustRelease(t, mustLock(t, client, "db"))
	mustLock(t, client, "db") // waits, and its release was a moment ago
	n.wantNoWatch(t)
	client.lock.Lock()
	defer client.lock.Unlock()
	if client.isUnheard {
		t.Error("let others go first")
	}
	wantOps(t, n, "ask db", "acquire db", "release db 1", "acquire db", "acquire db", "acquire db", "acquire db")
}

func TestAWaitWithoutNoticesIsNotWithdrawn(t *testing.T) {
	n := fakeNode(t, free, busy, busy, busy, busy, busy).queued()
	client := clientOf(t, polling, n)
	cancel, ended := locking(t, client, "db")
	n.await(3)
	cancel()
	<-ended
	_, ended = locking(t, client, "db")
	n.await(4)
	client.Close() // its request may have no answer yet
	<-ended
	n.wantNoWatch(t)
}

func TestAWaitGoesOnAtOtherNodes(t *testing.T) {
	one, two := fakeNode(t, free, busy).queued(), fakeNode(t)
	client := clientOf(t, nil, one)
	cancel, ended := locking(t, client, "db")
	first := one.awaitWatch(false)
	for range make([]bool, 100) {
		two.then(busy)
	}
	if err := client.SetNodes(within(t), Loopback(two.port())...); err != nil {
		t.Fatal(err)
	}
	if watch := two.queued().awaitWatch(false); watch.number <= first.number || watch.from == first.from {
		t.Errorf("got %+v after %+v", watch, first)
	}
	cancel()
	<-ended
	two.awaitWatch(true)
}

// waiters lets so many clients hold the lock `db` so many times each, at a node that may lose datagrams.
func waiters(t *testing.T, count uint16, times int, loss float64) *queueNode {
	q, seen := startQueue(t, loss), &witness{}
	var clients []*Client
	for number := uint16(1); number <= count; number++ {
		clients = append(clients, q.client(number))
	}
	begun := time.Now()
	holdInTurn(t, seen, times, clients...)
	q.lock.Lock()
	defer q.lock.Unlock()
	t.Logf("%d holds in %v, %d acquires, %d watches; granted to %v", seen.count, time.Since(begun), q.acquires, q.watches,
		q.grants)
	if seen.count != int(count)*times || len(q.grants) != seen.count || q.holder != 0 {
		t.Errorf("%d holds, %d grants, holder %d", seen.count, len(q.grants), q.holder)
	}
	if q.place(0); len(q.queue) != 0 {
		t.Errorf("%d wait still", len(q.queue))
	}
	return q
}

func TestWaitersHaveALockInTurn(t *testing.T) {
	q := waiters(t, 6, 10, 0)
	// Polls of all of them would be several for each grant.
	if q.acquires > 3*len(q.grants) {
		t.Errorf("%d acquires for %d grants", q.acquires, len(q.grants))
	}
}

func TestWaitersAllHaveALockThoughDatagramsAreLost(t *testing.T) {
	waiters(t, 4, 3, 0.2)
}
