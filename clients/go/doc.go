// Package locks is a client of `locks`, a replicated service of named locks with fencing numbers. It follows
// docs/WIRE.md and needs the standard library alone.
//
// A Client asks under one client number, which nobody else uses. Lock returns a Guard with the fence of the grant:
//
//	client, err := locks.Open(locks.Config{
//		Cluster: 5, Client: 7, Nodes: locks.Loopback(7001, 7002, 7003),
//		State: "client7.number", First: locks.Milliseconds(),
//	})
//	..
//	defer client.Close()
//	guard, err := client.Lock(ctx, "db")
//	..
//	defer guard.Release(ctx)
//	write(guard.Fence())
//
// The fence protects the resource: pass it with each write, and let the resource reject a smaller one than it has seen.
// A lock does not expire.
//
// No answer is no refusal. If a context ends while a request for a lock has no answer, Lock withdraws the request.
// errors.Is(err, ErrMayHold) reports whether the lock may be held all the same. The next call of the client settles
// such a request first, and Close names a lock that stays held.
package locks
