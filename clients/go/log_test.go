package locks

import (
	"context"
	"errors"
	"fmt"
	"os"
	"path/filepath"
	"testing"
	"time"
)

// asking makes the Log of a client do something and ask who holds a lock, at each event of that kind. It returns what
// came of it.
func asking(client *Client, kind EventKind, before func()) chan error {
	asked := make(chan error, 10)
	client.log = func(event Event) {
		if event.Kind == kind {
			before()
			_, err := client.Ask(context.Background(), "log")
			asked <- err
		}
	}
	return asked
}

// wantAnswers waits until so many calls from a Log were answered.
func wantAnswers(t *testing.T, asked chan error, count int) {
	t.Helper()
	end := time.After(20 * time.Second) // less than a call waits for its turn
	for at := 0; at < count; at++ {
		select {
		case err := <-asked:
			if err != nil {
				t.Errorf("got %v", err)
			}
		case <-end:
			t.Fatal("a call from Log does not end")
		}
	}
}

// settling returns a client whose acquire of `db` was cancelled, and is to be granted and released by the next call.
func settling(t *testing.T, change func(*Config)) (*Client, *node) {
	t.Helper()
	n := fakeNode(t, free, silent)
	client := clientOf(t, change, n)
	client.grace = 50 * time.Millisecond
	cancel, ended := locking(t, client, "db")
	n.await(2)
	cancel()
	<-ended
	n.reply(2, granted)
	n.then(released, free, free, free)
	return client, n
}

func TestLogMayCallTheClientWhereARequestIsSettled(t *testing.T) {
	client, n := settling(t, nil)
	asked := asking(client, EventSettled, func() {})
	ended := make(chan error, 1)
	go func() {
		_, err := client.Ask(context.Background(), "db")
		ended <- err
	}()
	wantAnswers(t, asked, 2) // of the acquire, and of its release
	if err := <-ended; err != nil {
		t.Error(err)
	}
	wantOps(t, n, "ask db", "acquire db", "release db 1", "ask db", "ask log", "ask log")
}

func TestLogMayCloseTheClient(t *testing.T) {
	client, n := settling(t, nil)
	closed := make(chan error, 10)
	client.log = func(Event) { closed <- client.Close() }
	if _, err := client.Ask(within(t), "db"); err != nil {
		t.Error(err)
	}
	if first, second := <-closed, <-closed; first != nil || second != ErrClosed {
		t.Errorf("got %v, then %v", first, second)
	}
	wantOps(t, n, "ask db", "acquire db", "release db 1", "ask db")
}

func TestLogMayCallTheClientWhileNoNodeAnswers(t *testing.T) {
	n := fakeNode(t, free, silent, free, free, free) // more than one event comes on a busy machine
	client := clientOf(t, nil, n)
	asked := asking(client, EventUnreachable, func() { n.reply(2, granted) })
	_, ended := locking(t, client, "db")
	wantAnswers(t, asked, 1)
	if err := <-ended; err != nil {
		t.Error(err)
	}
}

func TestLogMayCallTheClientWhereALockIsWaitedForOrKept(t *testing.T) {
	n := fakeNode(t, free, busy, free, granted, silent, free)
	client := clientOf(t, shortly, n)
	asked := asking(client, EventWaiting, func() {})
	guard := guarded(t, client)
	wantAnswers(t, asked, 1)
	asked = asking(client, EventNotReleased, func() { n.reply(5, released) })
	ctx, cancel := context.WithCancel(context.Background())
	cancel()
	var kept *NotReleased
	if err := guard.Release(ctx); !errors.As(err, &kept) {
		t.Errorf("got %v", err)
	}
	wantAnswers(t, asked, 1)
	wantOps(t, n, "ask db", "acquire db", "ask log", "acquire db", "release db 1", "ask log")
}

func TestLogMayCallTheClientAtItsClose(t *testing.T) {
	path, told := filepath.Join(t.TempDir(), "number"), make(chan string, 1)
	// Where this fails, no call of the client ends any more, so no cleanup closes it.
	client, err := Open(Config{
		Cluster: 5, Client: 7, First: 1, State: path, Nodes: Loopback(fakeNode(t, free, free).port()),
	})
	if err != nil {
		t.Fatal(err)
	}
	client.log = func(event Event) {
		_, err := client.Ask(context.Background(), "log")
		told <- fmt.Sprint(event.Kind == EventNotKept, errors.Is(err, ErrClosed), client.Close() == ErrClosed)
	}
	if _, err := client.Ask(within(t), "db"); err != nil {
		t.Fatal(err)
	}
	if err := os.WriteFile(path, []byte("5000000\n"), 0o600); err != nil {
		t.Fatal(err)
	}
	closed := make(chan error, 1)
	go func() { closed <- client.Close() }()
	select {
	case err := <-closed:
		if said := <-told; err != nil || said != "true true true" {
			t.Errorf("got %v, %v", err, said)
		}
	case <-time.After(20 * time.Second):
		t.Fatal("Close does not end")
	}
}
