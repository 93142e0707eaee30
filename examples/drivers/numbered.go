// The numbered calls of run_numbered by the Go driver, a goroutine for each client: numbered URI FIRST CLIENTS CALLS
// They are those of numbered.py.
package main

import (
	"context"
	"errors"
	"fmt"
	"os"
	"reflect"
	"strconv"
	"strings"
	"sync"
	"sync/atomic"
	"time"

	"go.mongodb.org/mongo-driver/bson"
	"go.mongodb.org/mongo-driver/mongo"
	"go.mongodb.org/mongo-driver/mongo/options"
	"go.mongodb.org/mongo-driver/mongo/writeconcern"
	"go.mongodb.org/mongo-driver/x/mongo/driver/topology"
)

const (
	most   = 10_000_000
	walked = 10
	batch  = 3
	pause  = 20 * time.Millisecond
)

var (
	ctx     = context.Background()
	errLost = errors.New("the network failed under a call")
)

type numbered struct {
	ID   int32  `bson:"_id"`
	N    int32  `bson:"n"`
	Text string `bson:"text"`
}

// A client, whose documents have numbers that are no other client's.
type client struct {
	number, calls, turn         int
	made, ended                 int64
	lost, wrong, silent, unseen int
	driver                      *mongo.Client
	items, silently             [2]*mongo.Collection
}

func isNetwork(err error) bool {
	var selection topology.ServerSelectionError
	var connection topology.ConnectionError
	return mongo.IsNetworkError(err) || mongo.IsTimeout(err) || errors.As(err, &selection) || errors.As(err, &connection)
}

// Counts a call, which begins. Its error is passed to done.
func (c *client) begin() {
	atomic.AddInt64(&c.made, 1)
}

func (c *client) done(what string, err error) error {
	if err == nil {
		return nil
	}
	if isNetwork(err) {
		c.lost++
		return errLost
	}
	return fmt.Errorf("%s: %w", what, err)
}

func same(what string, found, wanted interface{}) error {
	if reflect.DeepEqual(found, wanted) {
		return nil
	}
	return fmt.Errorf("%s gave %.300v in place of %.300v", what, found, wanted)
}

func (c *client) left() int {
	return c.calls - int(c.made)
}

func (c *client) document(times int) (numbered, int) {
	number := c.number*most + c.turn*walked
	return numbered{int32(number), int32(c.turn), strings.Repeat(strconv.Itoa(number), times)}, c.turn / 8 % 2
}

func key(id int32) bson.D {
	return bson.D{{"_id", id}}
}

func (c *client) insert(of numbered, at int) error {
	c.begin()
	made, err := c.items[at].InsertOne(ctx, of)
	if err = c.done("insert", err); err != nil {
		return err
	}
	return same("insert", made.InsertedID, of.ID)
}

func (c *client) findOne(id int32, at int) (*numbered, error) {
	c.begin()
	var found numbered
	err := c.items[at].FindOne(ctx, key(id)).Decode(&found)
	if err == mongo.ErrNoDocuments {
		return nil, nil
	}
	return &found, c.done("find", err)
}

func (c *client) find(of numbered, at int) error {
	found, err := c.findOne(of.ID, at)
	if err != nil {
		return err
	}
	return same("find", found, &of)
}

func (c *client) remove(of numbered, at int) error {
	c.begin()
	deleted, err := c.items[at].DeleteOne(ctx, key(of.ID))
	if err = c.done("delete", err); err != nil {
		return err
	}
	return same("delete", deleted.DeletedCount, int64(1))
}

func (c *client) say() error {
	c.begin()
	name := fmt.Sprintf("say%dx%d", c.number, c.made)
	err := c.driver.Database("admin").RunCommand(ctx, bson.D{{name, 1}}).Err()
	var answer mongo.CommandError
	if errors.As(err, &answer) && !isNetwork(err) {
		return same(name, answer.Message, "no such command: '"+name+"'")
	}
	if err == nil {
		return fmt.Errorf("%s gave no error", name)
	}
	return c.done(name, err)
}

func (c *client) plain() error {
	of, at := c.document(c.turn % 60)
	return first(
		func() error { return c.insert(of, at) },
		func() error { return c.find(of, at) },
		c.say,
		func() error { return c.remove(of, at) })
}

func (c *client) large() error {
	of, at := c.document(10_000)
	return first(
		func() error { return c.insert(of, at) },
		func() error { return c.find(of, at) },
		func() error { return c.remove(of, at) })
}

func (c *client) put(of numbered, at int) error {
	c.begin()
	set := bson.D{{"$set", bson.D{{"n", of.N}, {"text", of.Text}}}}
	made, err := c.items[at].UpdateOne(ctx, key(of.ID), set, options.Update().SetUpsert(true))
	if err = c.done("upsert", err); err != nil {
		return err
	}
	return same("upsert", made.UpsertedID, of.ID)
}

func (c *client) findNone(of numbered, at int) error {
	found, err := c.findOne(of.ID, at)
	if err == nil && found != nil {
		return fmt.Errorf("find in the other database gave %v", found.ID)
	}
	return err
}

func (c *client) upsert() error {
	of, at := c.document(c.turn % 60)
	return first(
		func() error { return c.put(of, at) },
		func() error { return c.find(of, at) },
		func() error { return c.findNone(of, 1-at) },
		func() error { return c.remove(of, at) })
}

// Inserts the documents of a walk, whose numbers begin with id.
func (c *client) fill(id int32, at int) error {
	var wanted, ids []interface{}
	for i := int32(0); i < walked; i++ {
		wanted = append(wanted, bson.D{{"_id", id + i}, {"n", i}})
		ids = append(ids, id+i)
	}
	c.begin()
	made, err := c.items[at].InsertMany(ctx, wanted)
	if err = c.done("insert", err); err != nil {
		return err
	}
	return same("insert", made.InsertedIDs, ids)
}

// Reads documents by a cursor of several batches.
func (c *client) read(id int32, at int, own bson.D) error {
	c.begin()
	cursor, err := c.items[at].Find(ctx, own, options.Find().SetBatchSize(batch))
	if err = c.done("walk", err); err != nil {
		return err
	}
	defer cursor.Close(ctx)
	for i := int32(0); i < walked; i++ {
		if i > 0 && i%batch == 0 {
			c.begin()
		}
		var found numbered
		if cursor.Next(ctx) {
			err = cursor.Decode(&found)
		} else if err = cursor.Err(); err == nil {
			err = fmt.Errorf("the end in place of document %d", i)
		}
		if err = c.done("walk", err); err != nil {
			return err
		}
		if err = same("walk", found, numbered{id + i, i, ""}); err != nil {
			return err
		}
	}
	if cursor.Next(ctx) {
		return errors.New("walk gave a document behind the last one")
	}
	return cursor.Err()
}

func (c *client) walk() error {
	of, at := c.document(0)
	own := bson.D{{"_id", bson.D{{"$gte", of.ID}, {"$lt", of.ID + walked}}}}
	return first(
		func() error { return c.fill(of.ID, at) },
		func() error { return c.read(of.ID, at, own) },
		func() error {
			c.begin()
			deleted, err := c.items[at].DeleteMany(ctx, own)
			if err = c.done("delete", err); err != nil {
				return err
			}
			return same("delete", deleted.DeletedCount, int64(walked))
		})
}

// Makes a write that has no answer. The next call over the same connection sees what it did.
func (c *client) writeSilently() error {
	of, at := c.document(c.turn % 60)
	if _, err := c.silently[at].InsertOne(ctx, of); err != nil && !errors.Is(err, mongo.ErrUnacknowledgedWrite) {
		if isNetwork(err) {
			return errLost
		}
		return err
	}
	c.silent++
	found, err := c.findOne(of.ID, at)
	if err == nil && found == nil {
		c.unseen++
		return nil
	}
	return first(
		func() error { return err },
		func() error { return same("find", found, &of) },
		func() error { return c.remove(of, at) })
}

// Deletes what lost calls may have left.
func (c *client) clear() error {
	for _, items := range c.items {
		c.begin()
		_, err := items.DeleteMany(ctx, bson.D{})
		if err = c.done("delete", err); err != nil {
			return err
		}
	}
	return nil
}

// Takes steps until one of them fails.
func first(steps ...func() error) error {
	for _, step := range steps {
		if err := step(); err != nil {
			return err
		}
	}
	return nil
}

func (c *client) next() error {
	turns := []struct {
		cost int
		make func() error
	}{{4, c.plain}, {4, c.upsert}, {4, c.plain}, {2, c.writeSilently}, {4, c.plain}, {4, c.upsert}, {4, c.plain}, {6, c.walk}}
	turn := turns[c.turn%8]
	if c.turn%64 == 63 {
		turn.cost, turn.make = 3, c.large
	}
	if turn.cost > c.left() {
		return c.say()
	}
	return turn.make()
}

func (c *client) makeCalls() error {
	wasLost := false
	for c.left() > 0 {
		var err error
		if wasLost && c.left() > 1 {
			err = c.clear()
		}
		if err == nil {
			err = c.next()
		}
		wasLost = err == errLost
		if wasLost {
			time.Sleep(pause)
		} else if err != nil {
			return err
		}
		c.turn++
	}
	return nil
}

func (c *client) run() {
	defer atomic.StoreInt64(&c.ended, 1)
	driver, err := mongo.Connect(ctx, options.Client().ApplyURI(os.Args[1]))
	if err == nil {
		c.driver = driver
		unacknowledged := options.Collection().SetWriteConcern(writeconcern.New(writeconcern.W(0)))
		for i, name := range []string{"even", "odd"} {
			of := fmt.Sprintf("of_%d", c.number)
			c.items[i] = driver.Database(name).Collection(of)
			c.silently[i] = driver.Database(name).Collection(of, unacknowledged)
		}
		err = c.makeCalls()
	}
	if err != nil {
		c.wrong = 1
		fmt.Printf("wrong client %d: %v\n", c.number, err)
		return
	}
	_ = driver.Disconnect(ctx)
}

func word(at int) int {
	number, err := strconv.Atoi(os.Args[at])
	if err != nil {
		panic(err)
	}
	return number
}

func main() {
	start, count, calls := word(2), word(3), word(4)
	clients := make([]*client, count)
	var all sync.WaitGroup
	for i := range clients {
		own := calls / count
		if i < calls%count {
			own++
		}
		clients[i] = &client{number: start + i, calls: own}
		all.Add(1)
		go func(c *client) {
			defer all.Done()
			c.run()
		}(clients[i])
	}
	over := make(chan bool)
	go func() {
		all.Wait()
		close(over)
	}()
	tell(clients, over)
	var made, lost, wrong, silent, unseen int
	for _, c := range clients {
		made, lost, wrong = made+int(c.made), lost+c.lost, wrong+c.wrong
		silent, unseen = silent+c.silent, unseen+c.unseen
	}
	fmt.Println("end", made, lost, wrong, silent, unseen)
}

// Tells how many calls each client made, until all ended.
func tell(clients []*client, over chan bool) {
	for {
		select {
		case <-over:
			return
		case <-time.After(time.Second):
		}
		line := "at"
		for _, c := range clients {
			if atomic.LoadInt64(&c.ended) == 1 {
				line += " -"
			} else {
				line += fmt.Sprintf(" %d", atomic.LoadInt64(&c.made))
			}
		}
		fmt.Println(line)
	}
}
