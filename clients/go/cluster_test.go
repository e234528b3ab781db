package locks

import (
	"context"
	"errors"
	"fmt"
	"math/rand"
	"net/netip"
	"os"
	"path/filepath"
	"strconv"
	"strings"
	"sync"
	"syscall"
	"testing"
	"time"
)

func TestALockGoesFromHandToHand(t *testing.T) {
	nodes := startCluster(t)
	one, two, ctx := nodes.client(1), nodes.client(2), within(t)
	guard := mustLock(t, one, "db")
	var busy *Busy
	if _, err := two.TryLock(ctx, "db"); !errors.As(err, &busy) || busy.Holder != 1 || busy.Fence != guard.Fence() {
		t.Errorf("got %v", err)
	}
	wantState(t, two, "db", State{Holders: 1, Holder: 1, Fence: 1})
	if isHeld, err := guard.Check(ctx); !isHeld || err != nil {
		t.Errorf("got %v, %v", isHeld, err)
	}
	got := make(chan uint64)
	go func() {
		next, err := two.Lock(ctx, "db")
		if err != nil {
			t.Error(err)
			close(got)
			return
		}
		got <- next.Fence()
	}()
	mustRelease(t, guard)
	if fence := <-got; fence != 2 {
		t.Errorf("got fence %d", fence)
	}
	if isHeld, err := one.Check(ctx, "db", 1); isHeld || err != nil {
		t.Errorf("got %v, %v", isHeld, err)
	}
}

func TestWhoWaitsHasAPlaceInTheQueueOfTheLeader(t *testing.T) {
	nodes := startCluster(t)
	one, two := nodes.client(1), nodes.client(2)
	guard := mustLock(t, one, "db")
	_, ended := locking(t, two, "db")
	for begun := time.Now(); !two.isQueued("db"); time.Sleep(10 * time.Millisecond) {
		if time.Since(begun) > time.Minute {
			t.Fatal("no place")
		}
	}
	mustRelease(t, guard)
	if err := <-ended; err != nil {
		t.Error(err)
	}
}

func TestARaisedTableIsSharedAndBroken(t *testing.T) {
	nodes := startCluster(t)
	one, two, ctx := nodes.client(1), nodes.client(2), within(t)
	if _, err := one.LockShared(ctx, "db"); !errors.Is(err, ErrBad) {
		t.Errorf("got %v", err)
	}
	for wanted, client := range map[bool]*Client{true: one} {
		if isNew, err := client.Raise(ctx); isNew != wanted || err != nil {
			t.Fatalf("got %v, %v", isNew, err)
		}
	}
	if isNew, err := two.Raise(ctx); isNew || err != nil {
		t.Errorf("got %v, %v", isNew, err)
	}
	for _, client := range []*Client{one, two} {
		if guard, err := client.LockShared(ctx, "db"); err != nil || guard.Fence() != 1 {
			t.Fatalf("got %v", err)
		}
	}
	wantState(t, one, "db", State{Holders: 2, IsShared: true, Fence: 1})
	if isBroken, err := two.Break(ctx, "db", 1); !isBroken || err != nil {
		t.Errorf("got %v, %v", isBroken, err)
	}
	if isBroken, err := two.Break(ctx, "db", 1); isBroken || err != nil {
		t.Errorf("got %v, %v", isBroken, err)
	}
	if guard := mustLock(t, two, "db"); guard.Fence() != 2 {
		t.Errorf("got fence %d", guard.Fence())
	}
}

func TestAShareOfARunThatIsGoneIsLeftAlone(t *testing.T) {
	nodes := startCluster(t)
	first, other, ctx := nodes.client(7), nodes.client(8), within(t)
	if _, err := first.Raise(ctx); err != nil {
		t.Fatal(err)
	}
	for _, client := range []*Client{first, other} {
		if _, err := client.LockShared(ctx, "db"); err != nil {
			t.Fatal(err)
		}
	}
	var kept *StillHeld
	if err := first.Close(); !errors.As(err, &kept) {
		t.Errorf("got %v", err)
	}
	second := nodes.client(7)
	var earlier *EarlierShare
	if _, err := second.LockShared(ctx, "db"); !errors.As(err, &earlier) {
		t.Errorf("got %v", err)
	}
	wantState(t, other, "db", State{Holders: 2, IsShared: true, Fence: 1})
	guard, err := second.Adopt(ctx, "db")
	if err != nil {
		t.Fatal(err)
	}
	mustRelease(t, guard)
	wantState(t, other, "db", State{Holders: 1, IsShared: true, Fence: 1})
}

func TestAJoinFarAboveTheHostsIsTold(t *testing.T) {
	far := "join 7 7001: above twice the greatest other node of the hosts: no smaller number can join after it"
	for _, row := range []struct {
		hosts  []uint32
		wanted string
	}{{[]uint32{1, 3}, far}, {[]uint32{1, 3, 7}, far}, {[]uint32{1, 3, 4}, ""}, {nil, ""}, {[]uint32{7}, ""}} {
		n, told := fakeNode(t, free, joined), ""
		client := clientOf(t, func(config *Config) {
			config.Hosts = map[uint32]netip.Addr{}
			for _, host := range row.hosts {
				config.Hosts[host] = loopback
			}
			config.Log = func(event Event) { told += event.String() }
		}, n)
		if err := client.Join(within(t), 7, 7001); err != nil || told != row.wanted {
			t.Errorf("hosts %v: got %q, %v", row.hosts, told, err)
		}
	}
}

func TestMembersJoinAndLeave(t *testing.T) {
	nodes := startCluster(t)
	client, ctx, ports := nodes.client(1), within(t), freePorts(1)
	if err := client.Join(ctx, 3, ports[0]); !errors.Is(err, ErrUsed) {
		t.Errorf("got %v", err)
	}
	if err := client.Join(ctx, 4, ports[0]); err != nil {
		t.Error(err)
	}
	if err := client.Leave(ctx, 4); err != nil {
		t.Error(err)
	}
	if err := client.Leave(ctx, 9); !errors.Is(err, ErrNotMember) {
		t.Errorf("got %v", err)
	}
}

func TestAStateFileThatWasCopiedBackGivesNoLock(t *testing.T) {
	nodes, path, ctx := startCluster(t), filepath.Join(t.TempDir(), "number"), within(t)
	withState := func(c *Config) { c.State = path }
	first := nodes.client(7, withState)
	mustRelease(t, mustLock(t, first, "clean"))
	closeAlone(first)
	kept, err := os.ReadFile(path)
	if err != nil {
		t.Fatal(err)
	}
	second := nodes.client(7, withState, func(c *Config) { c.First = 0 })
	mustLock(t, second, "ra")
	number, err := strconv.Atoi(strings.TrimSpace(string(kept)))
	if err != nil {
		t.Fatal(err)
	}
	closeAlone(second)
	// Each number that the second run used is tried: the file is restored to just below it.
	for back := number; back <= number+2; back++ {
		if err := os.WriteFile(path, []byte(fmt.Sprintf("%d\n", back)), 0o600); err != nil {
			t.Fatal(err)
		}
		third := nodes.client(7, withState, func(c *Config) { c.First = 0 })
		guard, err := third.Lock(ctx, "rb")
		var busy *Busy
		if guard != nil {
			if isHeld, err := guard.Check(ctx); !isHeld || err != nil {
				t.Errorf("from %d: believes in a lock that nobody holds: %v", back, err)
			}
			mustRelease(t, guard)
		} else if errors.As(err, &busy) || errors.Is(err, ErrMayHold) {
			t.Errorf("from %d: got %v", back, err)
		}
		closeAlone(third)
	}
	wantState(t, nodes.client(8), "ra", State{Holders: 1, Holder: 7, Fence: 1})
}

// closeAlone closes a client while no other test starts a process: until it executes its program, a process that was
// forked shares the lock of the state file.
func closeAlone(client *Client) {
	syscall.ForkLock.RLock()
	defer syscall.ForkLock.RUnlock()
	client.Close()
}

func TestTheDeathOfEachNodeIsSurvived(t *testing.T) {
	nodes := startCluster(t)
	client := nodes.client(1)
	for fence := uint64(1); fence <= 3; fence++ {
		guard := mustLock(t, client, "db")
		if guard.Fence() != fence {
			t.Errorf("got fence %d", guard.Fence())
		}
		leader := nodes.leader(client)
		nodes.down(leader)
		mustRelease(t, guard)
		nodes.up(leader)
	}
}

func TestGoroutinesOnOneClient(t *testing.T) {
	nodes := startCluster(t)
	client, ctx := nodes.client(1), within(t)
	var waiting sync.WaitGroup
	for at := 0; at < 8; at++ {
		name := fmt.Sprintf("lock/%d", at%4)
		waiting.Add(1)
		go func() {
			defer waiting.Done()
			for turn := 0; turn < 10; turn++ {
				lockOnce(t, ctx, client, name)
			}
		}()
	}
	waiting.Wait()
	if err := client.Close(); err != nil {
		t.Error(err)
	}
	other := nodes.client(2)
	for at := 0; at < 4; at++ {
		state, err := other.Ask(ctx, fmt.Sprintf("lock/%d", at))
		if err != nil || !state.IsFree() {
			t.Errorf("lock/%d: %v, %v", at, state, err)
		}
	}
}

// lockOnce holds a lock shortly, beside checks of it, unless another goroutine of the client has it.
func lockOnce(t *testing.T, ctx context.Context, client *Client, name string) {
	guard, err := client.Lock(ctx, name)
	var busy *Busy
	if errors.As(err, &busy) && busy.IsOurs {
		return
	}
	if err != nil {
		t.Error(err)
		return
	}
	if isHeld, err := guard.Check(ctx); !isHeld || err != nil {
		t.Errorf("%s: %v, %v", name, isHeld, err)
	}
	if err := guard.Release(ctx); err != nil {
		t.Error(err)
	}
}

func TestGoroutinesThatAreCancelledLeaveNothingHeld(t *testing.T) {
	nodes := startCluster(t)
	client := nodes.client(1, func(c *Config) { c.Grace = 30 * time.Second })
	mustRelease(t, mustLock(t, client, "lock/0"))
	var waiting sync.WaitGroup
	for at := 0; at < 6; at++ {
		name := fmt.Sprintf("lock/%d", at%3)
		waiting.Add(1)
		go func() {
			defer waiting.Done()
			for turn := 0; turn < 30; turn++ {
				ctx, cancel := context.WithTimeout(context.Background(), time.Duration(rand.Intn(20_000))*time.Microsecond)
				guard, err := client.Lock(ctx, name)
				if err == nil {
					err = guard.Release(ctx)
				}
				cancel()
				var kept *NotReleased
				if errors.Is(err, ErrMayHold) || errors.As(err, &kept) {
					t.Error(err)
				}
			}
		}()
	}
	waiting.Wait()
	for at := 0; at < 3; at++ {
		if state, err := client.Ask(within(t), fmt.Sprintf("lock/%d", at)); err != nil || !state.IsFree() {
			t.Errorf("got %v, %v", state, err)
		}
	}
	if err := client.Close(); err != nil {
		t.Error(err)
	}
}

func TestCancelsAtAnyMomentLeaveNothingHeld(t *testing.T) {
	nodes := startCluster(t)
	client := nodes.client(1, func(c *Config) { c.Grace = 30 * time.Second })
	mustRelease(t, mustLock(t, client, "db"))
	begun := time.Now()
	guard := mustLock(t, client, "db")
	usual := time.Since(begun) // until a lock is granted
	mustRelease(t, guard)
	granted, cancelled := 0, 0
	for at := 0; at < 300 && time.Since(begun) < 2*time.Minute; at++ { // fewer on a busy machine
		ctx, cancel := context.WithTimeout(context.Background(), time.Duration(rand.Int63n(int64(usual))))
		guard, err := client.Lock(ctx, "db")
		if err == nil {
			granted++
			err = guard.Release(ctx)
		} else {
			cancelled++
		}
		cancel()
		if errors.Is(err, ErrMayHold) || err != nil && !errors.Is(err, context.DeadlineExceeded) {
			t.Errorf("got %v", err)
		}
		if holds := client.Holds(); holds != nil {
			t.Fatalf("holds %v", holds)
		}
	}
	t.Logf("%d granted, %d cancelled", granted, cancelled)
	state, err := nodes.client(2).Ask(within(t), "db")
	if err != nil || !state.IsFree() {
		t.Errorf("got %v, %v", state, err)
	}
}

func TestAClientWithAKeyIsAnswered(t *testing.T) {
	options, own := keyFiles(t)
	nodes := startCluster(t, options...)
	keys, err := ReadKeys(own)
	if err != nil {
		t.Fatal(err)
	}
	client := nodes.client(7, func(c *Config) { c.Keys = keys })
	mustRelease(t, mustLock(t, client, "db"))
	other, err := ParseKeys(strings.Repeat("33", 32))
	if err != nil {
		t.Fatal(err)
	}
	wrong := nodes.client(7, func(c *Config) { c.Keys, c.Patience = other, time.Second })
	if _, err := wrong.TryLock(within(t), "db"); !isUnanswered(err) {
		t.Errorf("got %v", err)
	}
	if err := wrong.SetKeys(within(t), keys); err != nil {
		t.Error(err)
	}
	wrong.patience = 30 * time.Second
	if err := wrong.SkipTo(within(t), Milliseconds()+9*far); err != nil {
		t.Error(err)
	}
	if guard, err := wrong.TryLock(within(t), "db"); err != nil || guard.Fence() != 2 {
		t.Errorf("got %v", err)
	}
}

func TestOtherNodesAreAskedFromThenOn(t *testing.T) {
	nodes := startCluster(t)
	client := nodes.client(1, func(c *Config) { c.Nodes = Loopback(freePorts(1)...) })
	if err := client.SetNodes(within(t), Loopback(nodes.ports...)...); err != nil {
		t.Fatal(err)
	}
	mustRelease(t, mustLock(t, client, "db"))
	if err := client.SetNodes(within(t), netip.MustParseAddrPort("[::1]:1"), Loopback(1)[0]); err == nil {
		t.Error("took mixed families")
	}
}
