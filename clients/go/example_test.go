package locks_test

import (
	"context"
	"fmt"
	"log"
	"time"

	"locks"
)

func Example() {
	client, err := locks.Open(locks.Config{
		Cluster: 5, Client: 7, Nodes: locks.Loopback(7001, 7002, 7003),
		State: "client7.number", First: locks.Milliseconds(),
		Log: func(event locks.Event) { log.Print(event) },
	})
	if err != nil {
		log.Fatal(err)
	}
	defer func() {
		if err := client.Close(); err != nil {
			log.Print(err) // names a lock that stays held
		}
	}()
	ctx, cancel := context.WithTimeout(context.Background(), time.Minute)
	defer cancel()
	guard, err := client.Lock(ctx, "db")
	if err != nil {
		log.Print(err)
		return
	}
	fmt.Println("writes with fence", guard.Fence())
	if err := guard.Release(ctx); err != nil {
		log.Print(err)
	}
}

func ExampleElection() {
	client, err := locks.Open(locks.Config{
		Cluster: 5, Client: 7, Nodes: locks.Loopback(7001, 7002, 7003), First: locks.Milliseconds(),
	})
	if err != nil {
		log.Fatal(err)
	}
	defer client.Close()
	election := locks.Election{Client: client, Name: "leader"}
	for {
		err := election.Lead(context.Background(), func(ctx context.Context, fence uint64) error {
			fmt.Println("leads since fence", fence)
			for ctx.Err() == nil { // until another client has taken over
				// one step of the work, whose writes carry the fence
				time.Sleep(100 * time.Millisecond)
			}
			return nil
		})
		log.Print(err)
		time.Sleep(time.Second) // then takes part again
	}
}

func ExampleClient_LockAll() {
	client, err := locks.Open(locks.Config{
		Cluster: 5, Client: 7, Nodes: locks.Loopback(7001, 7002, 7003), First: locks.Milliseconds(),
	})
	if err != nil {
		log.Fatal(err)
	}
	defer client.Close()
	ctx := context.Background()
	guards, err := client.LockAll(ctx, "account/2", "account/1")
	if err != nil {
		log.Print(err)
		return
	}
	fmt.Println("fences", guards.Fence("account/1"), guards.Fence("account/2"))
	if err := guards.Release(ctx); err != nil {
		log.Print(err)
	}
}

func ExampleGuard_Context() {
	client, err := locks.Open(locks.Config{
		Cluster: 5, Client: 7, Nodes: locks.Loopback(7001, 7002, 7003), First: locks.Milliseconds(),
	})
	if err != nil {
		log.Fatal(err)
	}
	defer client.Close()
	guard, err := client.Lock(context.Background(), "db")
	if err != nil {
		log.Print(err)
		return
	}
	defer guard.Release(context.Background())
	ctx, cancel := guard.Context(context.Background())
	defer cancel()
	<-ctx.Done() // in place of work: the lock was broken
}
