package core

import (
	"net/netip"
	"time"

	"locks/internal/wire"
)

const (
	// watchPeriods is how long a watch lives at a node, in periods of the node's clock: two seconds.
	watchPeriods = 20
	// renewal is how often a watch is sent again.
	renewal = 800 * time.Millisecond
	// belief is how long a node is believed to keep a place for the client: until two watches have no answer.
	belief = 1700 * time.Millisecond
	// answerTime is how long a node may take to answer a watch.
	answerTime = renewal / 2
	// mostSilent is how many watches in a row a node may leave unanswered. After that it is gone.
	mostSilent = 2
	// tryEach is which of the watches go to a node that is gone, in case it comes back.
	tryEach = 8
	// mostMisled is how often in a row a notice may bring a request forward in vain at one fence.
	mostMisled = 2
)

// A post is a node to which watches are sent.
type post struct {
	address   netip.AddrPort
	isAsked   bool      // a watch was sent to it
	isOpen    bool      // it has not answered the last one
	silent    int       // watches that it did not answer, since its last notice
	keptUntil time.Time // until then it keeps a place for the client, as its last notice said
	early     uint16    // the place with which its last answer to a watch said that the lock is free for others, or 0
}

func (p *post) isGone() bool { return p.silent >= mostSilent }

// hear takes a notice of the node. It reports whether that says that the lock is free for the client.
func (p *post) hear(notice wire.Notice, now time.Time) bool {
	isEarly := p.isOpen && p.isEarly(notice)
	p.silent, p.isOpen, p.keptUntil = 0, false, time.Time{}
	if notice.News != wire.NewsNotHere && notice.Place > 0 {
		p.keptUntil = now.Add(belief)
	}
	return notice.News == wire.NewsFree && !isEarly
}

// isEarly reports whether an answer to a watch says that the lock is free for those who came before the client. To the
// client the lock is then held: the node says later that its turn has come. If the node gives this answer again at the
// same place, what it has said since is lost, and those who came before leave the lock free.
func (p *post) isEarly(notice wire.Notice) bool {
	place := uint16(0)
	if notice.News == wire.NewsFree && notice.Place > 1 {
		place = notice.Place
	}
	isAgain := place == p.early
	p.early = place
	if isAgain {
		p.early = 0
	}
	return place > 0 && !isAgain
}

// A Waiter is one wait for a lock that another client holds. It sends watches to the nodes, and says when to ask again:
// at once after a notice that the lock is free, otherwise after the wait of Polls, or after a minute while the client
// has a place in the queue of a node.
//
// A notice brings a request forward, or puts it off. So whatever is lost, late or forged costs time alone.
type Waiter struct {
	seals  wire.Seals
	ticket wire.Ticket   // of the last watch
	number func() uint64 // of the next watch
	posts  []post
	polls  Polls

	watches       int
	watchedAt     time.Time // when the last watch was sent
	busyAt        time.Time
	poll          time.Duration // from busyAt to the next request
	pollWithPlace time.Duration // the same with a place in a queue
	isFree        bool          // a notice to the last watch said so, and no request has followed it
	isTold        bool          // the last request followed such a notice
	misled        int           // requests in a row that followed one in vain, at this fence
}

// NewWaiter returns a wait for the lock that op asks for. Each number that it takes is greater than all that the client
// took before.
func NewWaiter(seals wire.Seals, op wire.Op, number func() uint64, random func() float64) *Waiter {
	ticket := wire.Ticket{Cluster: seals.Cluster, Client: seals.Client, IsShared: op.Word == wire.Share, Name: op.Name}
	return &Waiter{seals: seals, ticket: ticket, number: number, polls: Polls{Random: random}}
}

// SetKeys changes the keys from the next watch on.
func (w *Waiter) SetKeys(keys wire.Keys) {
	w.seals.Keys = keys
}

// SetNodes changes the nodes to which watches are sent.
func (w *Waiter) SetNodes(nodes []netip.AddrPort) {
	posts := make([]post, len(nodes))
	for at, address := range nodes {
		posts[at].address = address
		if known := w.post(address); known != nil {
			posts[at] = *known
		}
	}
	w.posts = posts
}

func (w *Waiter) post(address netip.AddrPort) *post {
	for at := range w.posts {
		if w.posts[at].address == address {
			return &w.posts[at]
		}
	}
	return nil
}

// Watch begins the wait with a watch, before any request. The client released the lock at that fence a moment ago, and
// leaves it to those who wait.
func (w *Waiter) Watch(now time.Time, fence uint64) []Datagram {
	w.wait(now, fence)
	return w.watch(now)
}

// Busy goes on with the wait after a request was answered Busy at that fence: it sends a new watch. Where notices were
// wrong about one fence time and again, no more of them are followed until the fence changes.
func (w *Waiter) Busy(now time.Time, fence uint64) []Datagram {
	switch {
	case fence != w.ticket.Fence:
		w.misled = 0
	case w.isTold:
		w.misled++
	}
	w.isTold = false
	w.wait(now, fence)
	return w.watch(now)
}

func (w *Waiter) wait(now time.Time, fence uint64) {
	w.ticket.Fence, w.busyAt = fence, now
	w.poll, w.pollWithPlace = w.polls.After(fence), scattered(withPlace, w.polls.Random)
}

// watch sends the next watch to each node.
func (w *Waiter) watch(now time.Time) []Datagram {
	isLate := w.watches > 0 && now.Sub(w.watchedAt) >= answerTime
	w.ticket.Number, w.isFree, w.watchedAt = w.number(), false, now
	w.watches++
	payload := w.seals.Seal(w.ticket.Watch(watchPeriods))
	var sends []Datagram
	for at := range w.posts {
		it := &w.posts[at]
		if it.isOpen && isLate {
			it.silent++
		}
		it.isOpen = false
		if !it.isGone() || w.watches%tryEach == 0 {
			it.isAsked, it.isOpen = true, true
			sends = append(sends, Datagram{payload, it.address})
		}
	}
	return sends
}

// RenewsAt returns when Tick has a watch to send. It reports false before the first watch, and after the last.
func (w *Waiter) RenewsAt() (time.Time, bool) {
	return w.watchedAt.Add(renewal), w.watches > 0
}

// Tick renews the watch if that is due.
func (w *Waiter) Tick(now time.Time) []Datagram {
	if due, isOne := w.RenewsAt(); !isOne || now.Before(due) {
		return nil
	}
	return w.watch(now)
}

// Hear takes a datagram that came. It reports whether that is a notice to the last watch, and whether the node leads.
// Without a key anybody can send one, so it is only taken from an address to which the watch was sent. With a key the
// seal decides.
func (w *Waiter) Hear(came Datagram, now time.Time) (isOne, leads bool) {
	it := w.post(came.Address)
	if w.watches == 0 || w.seals.Keys.IsEmpty() && (it == nil || !it.isAsked) {
		return false, false
	}
	datagram, isOpen := w.seals.Open(came.Payload)
	if !isOpen {
		return false, false
	}
	notice, isOne := w.ticket.Notice(datagram)
	if !isOne {
		return false, false
	}
	leads = notice.News != wire.NewsNotHere
	isFree := notice.News == wire.NewsFree
	if it != nil {
		isFree = it.hear(notice, now)
	}
	if isFree && !w.isTold && !w.isMisled() {
		w.isFree = true
	}
	return true, leads && it != nil
}

func (w *Waiter) isMisled() bool { return w.misled >= mostMisled }

// keptUntil returns until when a node keeps a place for the client, as far as notices are followed; the zero time if
// none does.
func (w *Waiter) keptUntil() time.Time {
	var until time.Time
	if w.isMisled() {
		return until
	}
	for _, it := range w.posts {
		if it.keptUntil.After(until) {
			until = it.keptUntil
		}
	}
	return until
}

// IsQueued reports whether the client has a place in the queue of a node that leads, as far as it knows.
func (w *Waiter) IsQueued(now time.Time) bool { return now.Before(w.keptUntil()) }

// Pause returns after how long it asks, after a Busy that came now, if nodes go on as they do.
func (w *Waiter) Pause(now time.Time) time.Duration {
	if w.IsQueued(now) {
		return w.pollWithPlace
	}
	return w.poll
}

// AsksAt returns when the lock is to be asked for again, unless a notice comes before. As long as a node keeps a place,
// each of its notices puts that off, up to the poll with a place.
func (w *Waiter) AsksAt() time.Time {
	if w.isFree {
		return w.busyAt
	}
	asks, kept := w.busyAt.Add(w.poll), w.keptUntil()
	if last := w.busyAt.Add(w.pollWithPlace); kept.After(last) {
		kept = last
	}
	if kept.After(asks) {
		return kept
	}
	return asks
}

// Ask reports whether the lock is to be asked for now. Then the caller does so.
func (w *Waiter) Ask(now time.Time) bool {
	if now.Before(w.AsksAt()) {
		return false
	}
	w.isTold, w.isFree = w.isFree, false
	return true
}

// Withdraw ends the wait of a client that was not granted the lock: its nodes forget it.
func (w *Waiter) Withdraw() []Datagram {
	if w.watches == 0 {
		return nil
	}
	w.ticket.Number, w.watches = w.number(), 0
	payload := w.seals.Seal(w.ticket.Watch(0))
	var sends []Datagram
	for _, it := range w.posts {
		if it.isAsked {
			sends = append(sends, Datagram{payload, it.address})
		}
	}
	return sends
}
