package locks

import (
	"context"
	"errors"
	"fmt"
	"net"
	"net/netip"
	"os"
	"path/filepath"
	"strings"
	"testing"
	"time"
)

func TestALockIsHeldAndReleased(t *testing.T) {
	n := fakeNode(t, free, granted, released, granted)
	client, ctx := clientOf(t, nil, n), within(t)
	guard, err := client.Lock(ctx, "db")
	if err != nil || guard.Fence() != 1 || guard.Name() != "db" {
		t.Fatalf("got %v, %v", guard, err)
	}
	if holds := client.Holds(); len(holds) != 1 || holds[0] != (Hold{"db", 1}) {
		t.Errorf("holds %v", holds)
	}
	for range []int{1, 2} {
		if err := guard.Release(ctx); err != nil {
			t.Error(err)
		}
	}
	if err := client.Close(); err != nil {
		t.Error(err)
	}
	wantOps(t, n, "ask db", "acquire db", "release db 1")
}

func TestARestoredStateFileGivesNoLock(t *testing.T) {
	n := fakeNode(t, granted, free, granted)
	client, ctx := clientOf(t, nil, n), within(t)
	_, err := client.Lock(ctx, "db")
	var other *OtherAnswer
	if !errors.As(err, &other) || errors.Is(err, ErrMayHold) || !strings.Contains(err.Error(), "SkipTo") {
		t.Fatalf("got %v", err)
	}
	if holds := client.Holds(); holds != nil {
		t.Errorf("holds %v", holds)
	}
	if guard, err := client.Lock(ctx, "db"); err != nil || guard.Fence() != 1 {
		t.Errorf("got %v", err)
	}
	wantOps(t, n, "ask db", "ask db", "acquire db")
}

func TestPassedDuringAnAcquireIsToldAsNoAnswerIs(t *testing.T) {
	n := fakeNode(t, free, "passed 9", "passed 9", "passed 9")
	client, ctx := clientOf(t, nil, n), within(t)
	_, err := client.Lock(ctx, "db")
	var passed *Passed
	if !errors.As(err, &passed) || passed.Last != 9 || !errors.Is(err, ErrMayHold) {
		t.Fatalf("got %v", err)
	}
	for _, word := range []string{"may hold db", "SkipTo", "1000009", "client 7"} {
		if !strings.Contains(err.Error(), word) {
			t.Errorf("%q is not in %q", word, err)
		}
	}
	// The next one is passed at its first Ask, so it was not sent.
	if _, err := client.Lock(ctx, "other"); !errors.As(err, &passed) || errors.Is(err, ErrMayHold) {
		t.Errorf("got %v", err)
	}
	var held *StillHeld
	if err := client.Close(); !errors.As(err, &held) || fmt.Sprint(held.Holds) != "[{db 0}]" {
		t.Errorf("got %v", err)
	}
}

func TestWhatMayBeHeldIsNamedUntilItIsKnown(t *testing.T) {
	n := fakeNode(t, free, "passed 9")
	client, ctx := clientOf(t, nil, n), within(t)
	if _, err := client.Lock(ctx, "db"); !errors.Is(err, ErrMayHold) {
		t.Fatalf("got %v", err)
	}
	if err := client.SkipTo(ctx, 100); err != nil {
		t.Fatal(err)
	}
	n.then("06 0007 0000000000000003", ownBusy)
	var busy *Busy
	if _, err := client.Lock(ctx, "db"); !errors.As(err, &busy) || !busy.IsOwn() {
		t.Errorf("got %v", err)
	}
	n.then("06 0007 0000000000000003")
	if _, err := client.Ask(ctx, "db"); err != nil {
		t.Error(err)
	}
	if holds := client.Holds(); fmt.Sprint(holds) != "[{db 0}]" {
		t.Errorf("holds %v", holds)
	}
	n.then("05 0000000000000003")
	if _, err := client.Ask(ctx, "db"); err != nil {
		t.Error(err)
	}
	if err := client.Close(); err != nil {
		t.Error(err)
	}
}

func TestAfterTheHighestNumberAnotherClientIsAdvised(t *testing.T) {
	err := &Passed{Asked: "ask db", Client: 7, Number: 3, Last: 1 << 48}
	if text := err.Error(); !strings.Contains(text, "another client number") || strings.Contains(text, "SkipTo") {
		t.Error(text)
	}
}

func TestSkipToBeginsWithAnAskAgain(t *testing.T) {
	n := fakeNode(t, "passed 40", free, granted)
	client, ctx := clientOf(t, nil, n), within(t)
	var passed *Passed
	if _, err := client.Lock(ctx, "db"); !errors.As(err, &passed) {
		t.Fatalf("got %v", err)
	}
	if err := client.SkipTo(ctx, passed.Last+far); err != nil {
		t.Fatal(err)
	}
	if _, err := client.Lock(ctx, "db"); err != nil {
		t.Fatal(err)
	}
	n.await(1_000_041)
}

func TestALockOfAnEarlierRunIsBusyAtOnce(t *testing.T) {
	n := fakeNode(t, free, ownBusy, "06 0007 0000000000000003", released)
	client, ctx := clientOf(t, nil, n), within(t)
	_, err := client.Lock(ctx, "db")
	var busy *Busy
	if !errors.As(err, &busy) || !busy.IsOwn() || busy.IsOurs || !strings.Contains(err.Error(), "earlier run") {
		t.Fatalf("got %v", err)
	}
	guard, err := client.Adopt(ctx, "db")
	if err != nil || guard.Fence() != 3 {
		t.Fatalf("got %v", err)
	}
	if err := guard.Release(ctx); err != nil {
		t.Error(err)
	}
	wantOps(t, n, "ask db", "acquire db", "ask db", "release db 3")
}

func TestNothingOfAnotherClientIsAdopted(t *testing.T) {
	n := fakeNode(t, free, "06 0008 0000000000000003", free)
	client, ctx := clientOf(t, nil, n), within(t)
	var busy *Busy
	if _, err := client.Adopt(ctx, "db"); !errors.As(err, &busy) || busy.IsOwn() {
		t.Errorf("got %v", err)
	}
	var lost *NotHeld
	if _, err := client.Adopt(ctx, "db"); !errors.As(err, &lost) {
		t.Errorf("got %v", err)
	}
}

func TestABrokenLockIsTold(t *testing.T) {
	n := fakeNode(t, free, granted, stale)
	client, ctx := clientOf(t, nil, n), within(t)
	guard, err := client.Lock(ctx, "db")
	if err != nil {
		t.Fatal(err)
	}
	lost := make(chan *NotHeld, 2)
	guard.OnLost(ctx, func(err *NotHeld) { lost <- err })
	watched, cancel := guard.Context(ctx)
	defer cancel()
	select {
	case err := <-lost:
		if err.Name != "db" || err.Fence != 1 {
			t.Errorf("got %v", err)
		}
	case <-time.After(30 * time.Second):
		t.Fatal("not told")
	}
	<-watched.Done()
	var notHeld *NotHeld
	if err := guard.Release(ctx); !errors.As(err, &notHeld) {
		t.Errorf("got %v", err)
	}
	if err := client.Close(); err != nil {
		t.Errorf("got %v", err)
	}
}

func TestAReleaseIsNoLoss(t *testing.T) {
	n := fakeNode(t, free, granted, released)
	client, ctx := clientOf(t, nil, n), within(t)
	guard, err := client.Lock(ctx, "db")
	if err != nil {
		t.Fatal(err)
	}
	lost := make(chan *NotHeld, 1)
	guard.OnLost(ctx, func(err *NotHeld) { lost <- err })
	watched, cancel := guard.Context(ctx)
	defer cancel()
	if err := guard.Release(ctx); err != nil {
		t.Error(err)
	}
	<-watched.Done()
	select {
	case err := <-lost:
		t.Errorf("told %v", err)
	case <-time.After(200 * time.Millisecond):
	}
}

func TestCloseNamesALockThatStaysHeld(t *testing.T) {
	n := fakeNode(t, free, granted)
	client, ctx := clientOf(t, nil, n), within(t)
	guard, err := client.Lock(ctx, "db")
	if err != nil {
		t.Fatal(err)
	}
	var held *StillHeld
	if err := client.Close(); !errors.As(err, &held) || !strings.Contains(err.Error(), "db at fence 1") {
		t.Errorf("got %v", err)
	}
	var kept *NotReleased
	if err := guard.Release(ctx); !errors.Is(err, ErrClosed) || !errors.As(err, &kept) {
		t.Errorf("got %v", err)
	}
	if err := client.Close(); err != ErrClosed {
		t.Errorf("got %v", err)
	}
	if _, err := client.Ask(ctx, "db"); !errors.Is(err, ErrClosed) {
		t.Errorf("got %v", err)
	}
}

func TestCloseEndsACallThatWaits(t *testing.T) {
	n := fakeNode(t, free)
	client := clientOf(t, nil, n)
	ended := make(chan error)
	go func() {
		_, err := client.Lock(context.Background(), "db")
		ended <- err
	}()
	n.await(2)
	var held *StillHeld
	if err := client.Close(); !errors.As(err, &held) || held.Holds[0].Fence != 0 {
		t.Errorf("got %v", err)
	}
	if err := <-ended; !errors.Is(err, ErrClosed) || !errors.Is(err, ErrMayHold) {
		t.Errorf("got %v", err)
	}
}

func TestAForgedBareReplyFromAnotherPortIsRefused(t *testing.T) {
	n := fakeNode(t, free)
	client, ctx := clientOf(t, nil, n), within(t)
	forger, err := net.ListenUDP("udp4", &net.UDPAddr{IP: net.IPv4(127, 0, 0, 1)})
	if err != nil {
		t.Fatal(err)
	}
	defer forger.Close()
	to := client.socket.connection.LocalAddr().(*net.UDPAddr).AddrPort()
	granted99, isEnded := "01 0000000000000063", make(chan struct{})
	go func() {
		n.await(2)
		n.reply(2, granted) // once it is sent again, although forged replies come all the time
		for {
			select {
			case <-isEnded:
				return
			default:
				forger.WriteToUDPAddrPort(replyTo(2, granted99), to)
				time.Sleep(100 * time.Microsecond)
			}
		}
	}()
	guard, err := client.Lock(ctx, "db")
	close(isEnded)
	if err != nil || guard.Fence() != 1 {
		t.Errorf("got %v, %v", guard, err)
	}
	if leader, _ := client.machine.Leader(); leader.Port() != n.port() {
		t.Errorf("the leader is %v", leader)
	}
}

func TestANodeOfIPv6IsAsked(t *testing.T) {
	connection, err := net.ListenUDP("udp6", &net.UDPAddr{IP: net.IPv6loopback})
	if err != nil {
		t.Skip(err)
	}
	n := nodeAt(t, connection, nil, free, granted, released)
	at := netip.AddrPortFrom(netip.MustParseAddr("::1"), n.port())
	client := clientOf(t, func(c *Config) { c.Nodes = []netip.AddrPort{at} })
	mustRelease(t, mustLock(t, client, "db"))
}

func TestDoubledAndLateRepliesChangeNothing(t *testing.T) {
	n := fakeNode(t)
	client, ctx := clientOf(t, nil, n), within(t)
	to := client.socket.connection.LocalAddr().(*net.UDPAddr).AddrPort()
	go func() {
		rows := []string{free, granted, released}
		for turn := uint64(0); turn < 2; turn++ {
			for at, row := range rows {
				if turn == 1 && at == 0 {
					continue // the Ask is sent once a run
				}
				number := uint64(at) + 1 + turn*2
				n.await(number)
				for late := number; late >= 1; late-- { // the right one, and all earlier numbers once more
					n.connection.WriteToUDPAddrPort(replyTo(late, row), to)
					n.connection.WriteToUDPAddrPort(replyTo(late, row), to)
				}
			}
		}
	}()
	for range []int{1, 2} {
		guard, err := client.Lock(ctx, "db")
		if err != nil {
			t.Fatal(err)
		}
		if err := guard.Release(ctx); err != nil {
			t.Fatal(err)
		}
	}
	wantOps(t, n, "ask db", "acquire db", "release db 1", "acquire db", "release db 1")
}

func TestAStateFileIsForOneClient(t *testing.T) {
	n, path := fakeNode(t, free, granted, released), filepath.Join(t.TempDir(), "number")
	withState := func(c *Config) { c.State = path }
	client, ctx := clientOf(t, withState, n), within(t)
	_, err := Open(Config{Cluster: 5, Client: 7, First: 1, Nodes: Loopback(7001), State: path})
	var state *StateError
	if !errors.Is(err, ErrInUse) || !errors.As(err, &state) || state.Path != path {
		t.Errorf("got %v", err)
	}
	guard, err := client.Lock(ctx, "db")
	if err != nil {
		t.Fatal(err)
	}
	if err := guard.Release(ctx); err != nil {
		t.Error(err)
	}
	client.Close()
	if text, err := os.ReadFile(path); string(text) != "3\n" {
		t.Errorf("keeps %q, %v", text, err)
	}
}

func TestAnUnreachableClusterIsToldOfAndOfWhatCame(t *testing.T) {
	told := make(chan Event, 10)
	n := fakeNode(t)
	client := clientOf(t, func(c *Config) { c.Log = func(e Event) { told <- e } }, n)
	ctx, cancel := context.WithCancel(context.Background())
	defer cancel()
	ended := make(chan error)
	go func() {
		_, err := client.Lock(ctx, "db")
		ended <- err
	}()
	select {
	case event := <-told:
		if event.Kind != EventUnreachable || event.Name != "db" || event.Wait < 4*time.Second {
			t.Errorf("told %v", event)
		}
	case <-time.After(time.Minute):
		t.Error("not told")
	}
	cancel()
	if err := <-ended; !errors.Is(err, context.Canceled) || errors.Is(err, ErrMayHold) {
		t.Errorf("got %v", err)
	}
}
