package locks

import (
	"context"
	"errors"
	"fmt"
	"net"
	"runtime"
	"strings"
	"sync"
	"testing"
	"time"
)

// A step of a request at a node.
type step string

const (
	requestLost step = "the request is lost"
	replyLost   step = "the reply is lost"
	replied     step = "it is replied"
)

// An honest node executes the requests of one client for one lock, and keeps the last answer.
type honest struct {
	connection *net.UDPConn
	lock       sync.Mutex
	isHeld     bool
	fence      uint64
	last       uint64
	answer     string
	// at is called at each step of a request, and reports whether it is lost there.
	at func(word string, step step) bool
}

func honestNode(t *testing.T) (*honest, *node) {
	t.Helper()
	connection, err := net.ListenUDP("udp4", &net.UDPAddr{IP: net.IPv4(127, 0, 0, 1)})
	if err != nil {
		t.Fatal(err)
	}
	t.Cleanup(func() { connection.Close() })
	made := &honest{connection: connection, at: func(string, step) bool { return false }}
	go made.serve()
	return made, &node{connection: connection}
}

func (h *honest) serve() {
	buffer := make([]byte, 100)
	for {
		length, from, err := h.connection.ReadFromUDPAddrPort(buffer)
		if err != nil {
			return
		}
		if _, isOne := readWatch(buffer[:length], from); isOne {
			continue
		}
		it := read(buffer[:length])
		word := strings.Fields(it.op)[0]
		h.lock.Lock()
		if !h.at(word, requestLost) {
			row := h.execute(it.number, word)
			if !h.at(word, replyLost) {
				h.connection.WriteToUDPAddrPort(replyTo(it.number, row), from)
				h.at(word, replied)
			}
		}
		h.lock.Unlock()
	}
}

func (h *honest) execute(number uint64, word string) string {
	switch {
	case number < h.last:
		return fmt.Sprintf("passed %d", h.last)
	case number > h.last:
		h.last, h.answer = number, h.answerTo(word)
	}
	return h.answer
}

func (h *honest) answerTo(word string) string {
	switch {
	case word == "acquire" && h.isHeld:
		return fmt.Sprintf("02 0007 %016x", h.fence)
	case word == "acquire":
		h.isHeld, h.fence = true, h.fence+1
		return fmt.Sprintf("01 %016x", h.fence)
	case word == "release" && h.isHeld:
		h.isHeld = false
		return released
	case word == "release":
		return notHeld
	case h.isHeld:
		return fmt.Sprintf("06 0007 %016x", h.fence)
	}
	return fmt.Sprintf("05 %016x", h.fence)
}

// disturb makes a request of that word lose a step: once, or until it is healed. It calls cancel there.
func (h *honest) disturb(word string, at step, isOnce bool, cancel func()) {
	h.lock.Lock()
	defer h.lock.Unlock()
	h.at = func(itsWord string, its step) bool {
		if itsWord != word || its != at {
			return false
		}
		cancel()
		if isOnce {
			h.at = func(string, step) bool { return false }
		}
		return true
	}
}

// heal makes it lose nothing more, and reports whether the lock is held.
func (h *honest) heal() bool {
	h.lock.Lock()
	defer h.lock.Unlock()
	h.at = func(string, step) bool { return false }
	return h.isHeld
}

func TestACancelAtEachStepLeavesNothingHeldUntold(t *testing.T) {
	before, count := runtime.NumGoroutine(), 0
	for _, word := range []string{"ask", "acquire", "release"} {
		for _, at := range []step{requestLost, replyLost, replied} {
			for _, isOnce := range []bool{true, false} {
				count++
				t.Run(fmt.Sprintf("%s: %s, once %v", word, at, isOnce), func(t *testing.T) {
					cancelAt(t, word, at, isOnce)
				})
			}
		}
	}
	t.Logf("%d cancels", count)
	for end := time.Now().Add(10 * time.Second); runtime.NumGoroutine() > before; time.Sleep(10 * time.Millisecond) {
		if time.Now().After(end) {
			t.Fatalf("%d goroutines are left, there were %d", runtime.NumGoroutine(), before)
		}
	}
}

func cancelAt(t *testing.T, word string, at step, isOnce bool) {
	h, n := honestNode(t)
	client := clientOf(t, func(c *Config) {
		c.Grace = 30 * time.Second
		if !isOnce {
			c.Grace = 50 * time.Millisecond
		}
	}, n)
	ctx, cancel := context.WithCancel(context.Background())
	defer cancel()
	h.disturb(word, at, isOnce, cancel)
	guard, err := client.Lock(ctx, "db")
	if err == nil {
		err = guard.Release(ctx)
	}
	isHeld := h.heal()
	var kept *NotReleased
	isTold := errors.Is(err, ErrMayHold) || errors.As(err, &kept)
	if isHeld && (!isTold || client.Holds() == nil && !client.isOpen()) {
		t.Errorf("held untold: %v", err)
	}
	if isOnce && isTold {
		t.Errorf("not settled within its grace: %v", err)
	}
	if guard != nil && err != nil {
		if err := guard.Release(within(t)); err != nil {
			t.Error(err)
		}
	}
	if state, err := client.Ask(within(t), "db"); err != nil || !state.IsFree() || h.heal() {
		t.Errorf("got %v, %v", state, err)
	}
	if err := client.Close(); err != nil {
		t.Error(err)
	}
	h.connection.Close()
}

// isOpen reports whether a request for a lock waits to be settled.
func (c *Client) isOpen() bool {
	op, isOpen, _ := c.machine.Open()
	return isOpen && op.IsGranting()
}
