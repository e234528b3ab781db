package locks

import (
	"bufio"
	"context"
	"errors"
	"fmt"
	"os"
	"strings"
	"syscall"
	"testing"
	"time"
)

// quick is an election whose leader may be silent for two seconds, which a loaded machine seldom takes.
func quick(client *Client) *Election {
	return &Election{Client: client, Name: "leader", Beat: 200 * time.Millisecond, Dead: 2 * time.Second}
}

func TestALeaderResignsAndAnotherOneLeads(t *testing.T) {
	nodes := startCluster(t)
	one, two, ctx := nodes.client(1), nodes.client(2), within(t)
	if _, err := one.Raise(ctx); err != nil {
		t.Fatal(err)
	}
	failure := errors.New("enough")
	leads := make(chan uint64, 2)
	work := func(ctx context.Context, fence uint64) error {
		leads <- fence
		return failure
	}
	for at, client := range []*Client{one, two} {
		if err := quick(client).Lead(ctx, work); err != failure {
			t.Errorf("got %v", err)
		}
		if fence := <-leads; fence != uint64(at)+1 {
			t.Errorf("leads since fence %d", fence)
		}
	}
	if state, err := quick(one).Leader(ctx); err != nil || !state.IsFree() {
		t.Errorf("got %v, %v", state, err)
	}
	for _, client := range []*Client{one, two} {
		if err := client.Close(); err != nil {
			t.Error(err)
		}
	}
}

func TestALeaderThatLivesIsLeftAlone(t *testing.T) {
	nodes := startCluster(t)
	one, two, ctx := nodes.client(1), nodes.client(2), within(t)
	if _, err := one.Raise(ctx); err != nil {
		t.Fatal(err)
	}
	short, cancel := context.WithTimeout(ctx, 4*time.Second)
	defer cancel()
	err := quick(one).Lead(ctx, func(ctx context.Context, fence uint64) error {
		_, err := quick(two).Campaign(short)
		if !errors.Is(err, context.DeadlineExceeded) {
			t.Errorf("got %v", err)
		}
		return ctx.Err()
	})
	if err != nil {
		t.Errorf("got %v", err)
	}
}

func TestATableThatIsNotRaisedIsTold(t *testing.T) {
	nodes := startCluster(t)
	one, two, ctx := nodes.client(1), nodes.client(2), within(t)
	mustLock(t, one, "leader")
	election := quick(two)
	election.Beat, election.Dead = time.Millisecond, time.Millisecond
	if _, err := election.Campaign(ctx); !errors.Is(err, ErrBad) || !strings.Contains(err.Error(), "Raise") {
		t.Errorf("got %v", err)
	}
	var busy *Busy
	if _, err := quick(one).Campaign(ctx); !errors.As(err, &busy) || !busy.IsOurs {
		t.Errorf("got %v", err)
	}
}

// runLeader is a process that says since which fence it leads, and when it is deposed.
func runLeader(client *Client) {
	err := quick(client).Lead(context.Background(), func(ctx context.Context, fence uint64) error {
		fmt.Println(fence)
		<-ctx.Done()
		return nil
	})
	fmt.Println(err)
}

func TestALeaderThatIsKilledOrStoppedIsSucceeded(t *testing.T) {
	nodes := startCluster(t)
	two, ctx := nodes.client(2), within(t)
	if _, err := two.Raise(ctx); err != nil {
		t.Fatal(err)
	}
	for at, signal := range []os.Signal{syscall.SIGKILL, syscall.SIGSTOP} {
		process, _, output := nodes.start(leaderMode)
		lines := bufio.NewReader(output)
		wantLine(t, lines, fmt.Sprintln(2*at+1))
		process.Process.Signal(signal)
		err := quick(two).Lead(ctx, func(_ context.Context, fence uint64) error {
			if fence != uint64(2*at+2) {
				t.Errorf("leads since fence %d", fence)
			}
			process.Process.Signal(syscall.SIGCONT)
			if signal == syscall.SIGSTOP {
				wantLine(t, lines, fmt.Sprintf("leader is not held at fence %d", 2*at+1))
			}
			return nil
		})
		if err != nil {
			t.Errorf("got %v", err)
		}
	}
}
