package locks

import (
	"context"
	"errors"
	"testing"
)

func TestASecondGuardOfOneNameIsRefused(t *testing.T) {
	n := fakeNode(t, free, free, shared)
	client, ctx := clientOf(t, nil, n), within(t)
	if _, err := client.LockShared(ctx, "db"); err != nil {
		t.Fatal(err)
	}
	for range make([]bool, 20) {
		n.then(sharedBy(1)) // to a request that should not come
	}
	for _, lock := range []func(context.Context, string) (*Guard, error){
		client.LockShared, client.TryLockShared, client.Lock, client.Adopt,
	} {
		var busy *Busy
		if _, err := lock(ctx, "db"); !errors.As(err, &busy) || !busy.IsOurs {
			t.Errorf("got %v", err)
		}
	}
	wantOps(t, n, "ask db", "ask db", "share db")
}

func TestAShareOfAnEarlierRunIsToldAndLeftAlone(t *testing.T) {
	n := fakeNode(t, free, sharedBy(2), shared, sharedBy(2), sharedBy(2), shared, released)
	client, ctx := clientOf(t, nil, n), within(t)
	_, err := client.LockShared(ctx, "db")
	var earlier *EarlierShare
	if !errors.As(err, &earlier) || earlier.Fence != 3 || client.Holds() != nil {
		t.Fatalf("got %v, holds %v", err, client.Holds())
	}
	guard, err := client.Adopt(ctx, "db")
	if err != nil || guard.Fence() != 3 {
		t.Fatalf("got %v", err)
	}
	if err := guard.Release(ctx); err != nil {
		t.Error(err)
	}
	wantOps(t, n, "ask db", "ask db", "share db", "ask db", "ask db", "share db", "release db 3")
}

func TestAShareThatJoinsOthersIsThatOfThisRun(t *testing.T) {
	n := fakeNode(t, free, sharedBy(2), shared, sharedBy(3), released, sharedBy(2), shared)
	client, ctx := clientOf(t, nil, n), within(t)
	guard, err := client.LockShared(ctx, "db")
	if err != nil {
		t.Fatal(err)
	}
	if err := guard.Release(ctx); err != nil {
		t.Error(err)
	}
	// This run has given it back at that fence, so there is no earlier share to look for.
	if _, err := client.LockShared(ctx, "db"); err != nil {
		t.Error(err)
	}
	wantOps(t, n, "ask db", "ask db", "share db", "ask db", "release db 3", "ask db", "share db")
}
