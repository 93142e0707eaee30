// The steps of run_drivers by the Go driver: steps URI COLLECTION
package main

import (
	"context"
	"fmt"
	"os"
	"sync"
	"time"

	"go.mongodb.org/mongo-driver/bson"
	"go.mongodb.org/mongo-driver/event"
	"go.mongodb.org/mongo-driver/mongo"
	"go.mongodb.org/mongo-driver/mongo/options"
)

var failed = 0

func step(name string, err error) {
	if err != nil {
		failed = 1
		fmt.Println(name, "FAILED", err)
	} else {
		fmt.Println(name, "ok")
	}
}

func is(found, wanted int64, err error) error {
	if err == nil && found != wanted {
		return fmt.Errorf("%d in place of %d", found, wanted)
	}
	return err
}

func found(ctx context.Context, items *mongo.Collection) error {
	all := options.Find().SetSort(bson.D{{"a", -1}}).SetLimit(7).SetBatchSize(2)
	cursor, err := items.Find(ctx, bson.D{{"a", bson.D{{"$lt", 10}}}}, all)
	if err != nil {
		return err
	}
	count := int64(0)
	for cursor.Next(ctx) {
		count++
	}
	return is(count, 7, cursor.Err())
}

// What the driver's own log says.
type journal struct {
	sync.Mutex
	connections, heartbeats int
	faults                  []string
}

func (log *journal) fault(text string, more interface{}) {
	log.Lock()
	defer log.Unlock()
	log.faults = append(log.faults, fmt.Sprint(text, " ", more))
}

func (log *journal) pool() *event.PoolMonitor {
	return &event.PoolMonitor{Event: func(e *event.PoolEvent) {
		switch {
		case e.Type == event.ConnectionCreated:
			log.Lock()
			log.connections++
			log.Unlock()
		case e.Type == event.PoolCleared, e.Type == event.GetFailed,
			e.Type == event.ConnectionClosed && e.Reason != event.ReasonPoolClosed:
			log.fault(e.Type, e.Reason)
		}
	}}
}

func (log *journal) server() *event.ServerMonitor {
	return &event.ServerMonitor{
		ServerHeartbeatSucceeded: func(e *event.ServerHeartbeatSucceededEvent) {
			log.Lock()
			log.heartbeats++
			log.Unlock()
		},
		ServerHeartbeatFailed: func(e *event.ServerHeartbeatFailedEvent) { log.fault("heartbeat failed", e.Failure) },
	}
}

func (log *journal) commands() *event.CommandMonitor {
	return &event.CommandMonitor{
		Failed: func(_ context.Context, e *event.CommandFailedEvent) { log.fault(e.CommandName, e.Failure) },
	}
}

func (log *journal) beats() int {
	log.Lock()
	defer log.Unlock()
	return log.heartbeats
}

func (log *journal) told() error {
	log.Lock()
	defer log.Unlock()
	fmt.Printf("log: %d connections, %d heartbeats\n", log.connections, log.heartbeats)
	if len(log.faults) > 0 || log.heartbeats < 2 {
		return fmt.Errorf("%v", log.faults)
	}
	return nil
}

func main() {
	ctx, cancel := context.WithTimeout(context.Background(), 40*time.Second)
	defer cancel()
	log := &journal{}
	client, err := mongo.Connect(ctx, options.Client().ApplyURI(os.Args[1]).
		SetPoolMonitor(log.pool()).SetServerMonitor(log.server()).SetMonitor(log.commands()))
	if err != nil {
		fmt.Println("connect FAILED", err)
		os.Exit(1)
	}
	items := client.Database("shop").Collection(os.Args[2])
	made := make([]interface{}, 1000)
	for i := range made {
		made[i] = bson.D{{"_id", i}, {"a", i}}
	}
	step("ping", client.Database("admin").RunCommand(ctx, bson.D{{"ping", 1}}).Err())
	_, err = items.InsertMany(ctx, made)
	step("insert", err)
	step("find", found(ctx, items))
	cursor, err := items.Find(ctx, bson.D{}, options.Find().SetBatchSize(1))
	if err == nil {
		cursor.Next(ctx)
		err = cursor.Close(ctx)
	}
	step("close_early", err)
	updated, err := items.UpdateOne(ctx, bson.D{{"_id", 2}}, bson.D{{"$set", bson.D{{"a", -1}}}})
	if err == nil {
		err = is(updated.ModifiedCount, 1, nil)
	}
	step("update", err)
	deleted, err := items.DeleteOne(ctx, bson.D{{"_id", 3}})
	if err == nil {
		err = is(deleted.DeletedCount, 1, nil)
	}
	step("delete", err)
	count, err := items.CountDocuments(ctx, bson.D{})
	step("count", is(count, 999, err))
	step("drop", items.Drop(ctx))
	time.Sleep(11 * time.Second)
	// Where the machine is busy the second heartbeat comes late.
	for tries := 0; tries < 20 && log.beats() < 2; tries++ {
		time.Sleep(time.Second)
	}
	step("ping_again", client.Database("admin").RunCommand(ctx, bson.D{{"ping", 1}}).Err())
	step("close", client.Disconnect(ctx))
	step("log", log.told())
	os.Exit(failed)
}
