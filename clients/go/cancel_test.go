package locks

import (
	"context"
	"errors"
	"strings"
	"testing"
	"time"
)

// locking calls Lock in a goroutine, with a context that can be cancelled.
func locking(t *testing.T, client *Client, name string) (cancel context.CancelFunc, ended chan error) {
	t.Helper()
	ctx, cancel := context.WithCancel(context.Background())
	t.Cleanup(cancel)
	ended = make(chan error, 1)
	go func() {
		_, err := client.Lock(ctx, name)
		ended <- err
	}()
	return cancel, ended
}

// shortly makes a client give locks back for a short time only.
func shortly(c *Config) { c.Grace = 50 * time.Millisecond }

// wantShort fails where that took as long as the patience of a call, and not as the grace of one that was cancelled.
func wantShort(t *testing.T, begun time.Time) {
	t.Helper()
	if took := time.Since(begun); took > 15*time.Second {
		t.Errorf("took %v", took)
	}
}

func TestAContextThatHasEndedSendsNothing(t *testing.T) {
	n := fakeNode(t)
	client := clientOf(t, nil, n)
	ctx, cancel := context.WithCancel(context.Background())
	cancel()
	_, err := client.Lock(ctx, "db")
	var unanswered *NoAnswer
	if !errors.As(err, &unanswered) || unanswered.IsSent || errors.Is(err, ErrMayHold) {
		t.Errorf("got %v", err)
	}
	if !errors.Is(err, context.Canceled) {
		t.Errorf("not by its context: %v", err)
	}
	wantOps(t, n)
}

func TestACancelDuringTheFirstAskSendsNoAcquire(t *testing.T) {
	n := fakeNode(t, silent, free, granted)
	client := clientOf(t, nil, n)
	cancel, ended := locking(t, client, "db")
	n.await(1)
	cancel()
	if err := <-ended; !errors.Is(err, context.Canceled) || errors.Is(err, ErrMayHold) {
		t.Errorf("got %v", err)
	}
	n.reply(1, free) // nobody waits for it any more
	if guard, err := client.Lock(within(t), "db"); err != nil || guard.Fence() != 1 {
		t.Errorf("got %v", err)
	}
	wantOps(t, n, "ask db", "ask db", "acquire db")
}

func TestACancelDuringTheAcquireWithdrawsIt(t *testing.T) {
	for row, wanted := range map[string][]string{
		granted: {"ask db", "acquire db", "release db 1"},
		busy:    {"ask db", "acquire db"},
	} {
		n := fakeNode(t, free, silent, released)
		client := clientOf(t, func(c *Config) { c.Grace = 20 * time.Second }, n)
		cancel, ended := locking(t, client, "db")
		n.await(2)
		n.reply(2, row)
		cancel()
		err := <-ended
		var unanswered *NoAnswer
		if !errors.As(err, &unanswered) || !unanswered.IsWithdrawn || errors.Is(err, ErrMayHold) {
			t.Errorf("got %v", err)
		}
		if holds := client.Holds(); holds != nil {
			t.Errorf("holds %v", holds)
		}
		wantOps(t, n, wanted...)
	}
}

func TestACancelledAcquireWithoutAnAnswerIsSettledByTheNextCall(t *testing.T) {
	n := fakeNode(t, free, silent)
	client := clientOf(t, shortly, n)
	cancel, ended := locking(t, client, "db")
	n.await(2)
	begun := time.Now()
	cancel()
	err := <-ended
	if !errors.Is(err, ErrMayHold) || !errors.Is(err, context.Canceled) {
		t.Fatalf("got %v", err)
	}
	wantShort(t, begun)
	if !strings.Contains(err.Error(), "db may be held") {
		t.Errorf("got %v", err)
	}
	n.reply(2, granted)
	n.then(released, "05 0000000000000001")
	state, err := client.Ask(within(t), "db")
	if err != nil || !state.IsFree() {
		t.Errorf("got %v, %v", state, err)
	}
	wantOps(t, n, "ask db", "acquire db", "release db 1", "ask db")
	if err := client.Close(); err != nil {
		t.Error(err)
	}
}

func TestAWithdrawalWhoseReleaseHasNoAnswerIsSettledByTheNextCall(t *testing.T) {
	n := fakeNode(t, free, silent, silent)
	client := clientOf(t, func(c *Config) { c.Grace = time.Second }, n)
	cancel, ended := locking(t, client, "db")
	n.await(2)
	n.reply(2, granted)
	cancel()
	n.await(3)
	if err := <-ended; !errors.Is(err, ErrMayHold) {
		t.Errorf("got %v", err)
	}
	if holds := client.Holds(); len(holds) != 1 || holds[0] != (Hold{"db", 1}) {
		t.Errorf("holds %v", holds)
	}
	n.reply(3, released)
	n.then(granted)
	if _, err := client.Lock(within(t), "db"); err != nil {
		t.Error(err)
	}
	wantOps(t, n, "ask db", "acquire db", "release db 1", "acquire db")
}

func TestAWithdrawalThatIsPassedSaysThatTheLockMayBeHeld(t *testing.T) {
	n := fakeNode(t, free, silent)
	client := clientOf(t, func(c *Config) { c.Grace = 20 * time.Second }, n)
	cancel, ended := locking(t, client, "db")
	n.await(2)
	n.reply(2, "passed 9")
	cancel()
	err := <-ended
	var unanswered *NoAnswer
	if !errors.As(err, &unanswered) || unanswered.IsWithdrawn || !errors.Is(err, ErrMayHold) {
		t.Errorf("got %v", err)
	}
	if holds := client.Holds(); len(holds) != 1 || holds[0] != (Hold{Name: "db"}) {
		t.Errorf("holds %v", holds)
	}
}

func TestALoopOverNoAnswerGoesOn(t *testing.T) {
	n := fakeNode(t, free, free, silent)
	client := clientOf(t, shortly, n)
	if _, err := client.Ask(within(t), "db"); err != nil {
		t.Fatal(err)
	}
	client.patience = 100 * time.Millisecond
	for range []int{1, 2, 3} {
		if _, err := client.TryLock(within(t), "db"); !isUnanswered(err) {
			t.Fatalf("got %v", err)
		}
	}
	n.reply(3, granted)
	n.then(released, granted)
	guard, err := client.Lock(within(t), "db")
	if err != nil || guard.Fence() != 1 {
		t.Fatalf("got %v", err)
	}
	wantOps(t, n, "ask db", "ask db", "acquire db", "release db 1", "acquire db")
}

func TestCloseNamesAnAcquireThatWasNotSettled(t *testing.T) {
	n := fakeNode(t, free, silent)
	client := clientOf(t, shortly, n)
	cancel, ended := locking(t, client, "db")
	n.await(2)
	cancel()
	<-ended
	var held *StillHeld
	if err := client.Close(); !errors.As(err, &held) || !strings.Contains(err.Error(), "perhaps db") {
		t.Errorf("got %v", err)
	}
}

func TestACancelledShareOfAnEarlierRunIsLeftAlone(t *testing.T) {
	n := fakeNode(t, free, sharedBy(1), silent)
	client := clientOf(t, shortly, n)
	ctx, cancel := context.WithCancel(context.Background())
	ended := make(chan error)
	go func() {
		_, err := client.LockShared(ctx, "db")
		ended <- err
	}()
	n.await(3)
	cancel()
	if err := <-ended; !errors.Is(err, ErrMayHold) {
		t.Errorf("got %v", err)
	}
	n.reply(3, shared)
	n.then(sharedBy(1), sharedBy(1))
	if _, err := client.Ask(within(t), "db"); err != nil {
		t.Error(err)
	}
	wantOps(t, n, "ask db", "ask db", "share db", "ask db", "ask db")
}

func TestACancelWhileAnotherHoldsTheLockTellsTheHolder(t *testing.T) {
	n := fakeNode(t, free)
	n.then(busy, busy, busy, busy, busy, busy, busy, busy)
	client := clientOf(t, nil, n)
	ctx, cancel := context.WithCancel(context.Background())
	client.log = func(event Event) {
		if event.Kind == EventWaiting {
			cancel()
		}
	}
	_, err := client.Lock(ctx, "db")
	var held *Busy
	if !errors.As(err, &held) || held.Holder != 8 || held.Fence != 3 || !errors.Is(err, context.Canceled) {
		t.Errorf("got %v", err)
	}
	wantOps(t, n, "ask db", "acquire db")
}

// guarded returns a guard of `db`, whose release is to be number 3.
func guarded(t *testing.T, client *Client) *Guard {
	t.Helper()
	guard, err := client.Lock(within(t), "db")
	if err != nil {
		t.Fatal(err)
	}
	return guard
}

func TestAReleaseUnderACancelledContextReleases(t *testing.T) {
	n := fakeNode(t, free, granted, released)
	client := clientOf(t, nil, n)
	guard := guarded(t, client)
	ctx, cancel := context.WithCancel(context.Background())
	cancel()
	if err := guard.Release(ctx); err != nil {
		t.Error(err)
	}
	wantOps(t, n, "ask db", "acquire db", "release db 1")
}

func TestAReleaseThatIsCancelledIsRepeatedByTheSameBytes(t *testing.T) {
	n := fakeNode(t, free, granted, silent)
	client := clientOf(t, shortly, n)
	guard := guarded(t, client)
	ctx, cancel := context.WithCancel(context.Background())
	ended := make(chan error)
	go func() { ended <- guard.Release(ctx) }()
	first, begun := n.await(3), time.Now()
	cancel()
	err := <-ended
	wantShort(t, begun)
	var kept *NotReleased
	if !errors.As(err, &kept) || kept.Name != "db" || kept.Fence != 1 || !errors.Is(err, context.Canceled) {
		t.Errorf("got %v", err)
	}
	if holds := client.Holds(); len(holds) != 1 {
		t.Errorf("holds %v", holds)
	}
	n.reply(3, released)
	if err := guard.Release(within(t)); err != nil {
		t.Error(err)
	}
	if second := n.await(3); second != first {
		t.Errorf("sent %v, then %v", first, second)
	}
	if err := client.Close(); err != nil {
		t.Error(err)
	}
}

func TestAReleaseThatIsCancelledIsSettledByTheNextCall(t *testing.T) {
	n := fakeNode(t, free, granted, silent)
	client := clientOf(t, shortly, n)
	guard := guarded(t, client)
	ctx, cancel := context.WithCancel(context.Background())
	cancel()
	if err := guard.Release(ctx); err == nil {
		t.Error("released without an answer")
	}
	n.reply(3, released)
	n.then(granted)
	again, err := client.Lock(within(t), "db")
	if err != nil {
		t.Fatal(err)
	}
	if err := guard.Release(within(t)); err != nil {
		t.Errorf("the guard of the earlier grant: %v", err)
	}
	if holds := client.Holds(); len(holds) != 1 || again.hold.isEnded() {
		t.Errorf("holds %v", holds)
	}
	wantOps(t, n, "ask db", "acquire db", "release db 1", "acquire db")
}

func TestACallThatIsBehindAnotherSaysSo(t *testing.T) {
	n := fakeNode(t, free, granted, silent)
	client := clientOf(t, shortly, n)
	guard := guarded(t, client)
	ctx, cancel := context.WithCancel(context.Background())
	cancel()
	guard.Release(ctx)
	ctx, cancel = context.WithTimeout(context.Background(), 50*time.Millisecond)
	defer cancel()
	_, err := client.Check(ctx, "other", 1)
	var unanswered *NoAnswer
	if !errors.As(err, &unanswered) || unanswered.IsSent || unanswered.Earlier != "release db 1" {
		t.Errorf("got %v", err)
	}
}

func TestSeveralNamesAreTakenInOrderAllOrNone(t *testing.T) {
	n := fakeNode(t, free, granted, "01 0000000000000004", released, released)
	client, ctx := clientOf(t, nil, n), within(t)
	guards, err := client.LockAll(ctx, "db/2", "db/1")
	if err != nil || guards.Fence("db/1") != 1 || guards.Fence("db/2") != 4 || guards.Fence("db") != 0 {
		t.Fatalf("got %v, %v", guards, err)
	}
	if err := guards.Release(ctx); err != nil {
		t.Error(err)
	}
	wantOps(t, n, "ask db/1", "acquire db/1", "acquire db/2", "release db/2 4", "release db/1 1")
}

func TestWhereOneOfSeveralIsNotGrantedNoneIsKept(t *testing.T) {
	n := fakeNode(t, free, granted, ownBusy, released)
	client, ctx := clientOf(t, nil, n), within(t)
	guards, err := client.LockAll(ctx, "b", "a")
	var held *Busy
	if guards != nil || !errors.As(err, &held) || held.Name != "b" || client.Holds() != nil {
		t.Errorf("got %v, %v", guards, err)
	}
	wantOps(t, n, "ask a", "acquire a", "acquire b", "release a 1")
	if _, err := client.LockAll(ctx, "c", "c"); err == nil {
		t.Error("took a name twice")
	}
}

func TestWhereOneOfSeveralCannotBeReleasedBothErrorsAreTold(t *testing.T) {
	n := fakeNode(t, free, granted, ownBusy, silent)
	client := clientOf(t, func(c *Config) { c.Patience = time.Second }, n)
	_, err := client.LockAll(within(t), "b", "a")
	var held *Busy
	var kept *NotReleased
	if !errors.As(err, &held) || !errors.As(err, &kept) || kept.Name != "a" || !errors.Is(err, ErrMayHold) {
		t.Errorf("got %v", err)
	}
}
