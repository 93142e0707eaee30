// The steps of run_drivers by the Node.js driver: steps.js URI COLLECTION
const { MongoClient } = require("mongodb");

(async () => {
  let failed = 0;
  const step = async (name, call) => {
    try {
      await call();
      console.log(name, "ok");
    } catch (error) {
      failed = 1;
      console.log(name, "FAILED", error.name, String(error.message).slice(0, 200));
    }
  };
  const is = (found, wanted) => {
    if (found !== wanted) throw new Error(`${found} in place of ${wanted}`);
  };
  // What the driver's own log says.
  const seen = { connections: 0, heartbeats: 0 };
  const faults = [];
  let closing = false;
  const client = new MongoClient(process.argv[2], { useUnifiedTopology: true });
  client.on("connectionCreated", () => seen.connections++);
  client.on("serverHeartbeatSucceeded", () => seen.heartbeats++);
  client.on("connectionClosed", (event) => closing || faults.push(`connection closed: ${event.reason}`));
  for (const name of ["connectionPoolCleared", "connectionCheckOutFailed", "serverHeartbeatFailed"]) {
    client.on(name, (event) => faults.push(`${name} ${event.failure || event.reason || ""}`));
  }
  for (const name of ["connectionPoolClosed", "serverClosed", "close", "timeout"]) {
    client.on(name, () => closing || faults.push(name));
  }
  await client.connect();
  const items = client.db("shop").collection(process.argv[3]);
  const made = [...Array(1000).keys()].map((i) => ({ _id: i, a: i }));
  await step("ping", () => client.db("admin").command({ ping: 1 }));
  await step("insert", () => items.insertMany(made));
  await step("twice", () => items.insertOne({ _id: 1 }).then(() => is("taken", "refused"), (e) => is(e.code, 11000)));
  await step("find", async () =>
    is((await items.find({ a: { $lt: 10 } }).sort({ a: -1 }).limit(7).batchSize(2).toArray()).length, 7));
  await step("close_early", async () => {
    const cursor = items.find({}).batchSize(1);
    await cursor.next();
    await cursor.close();
  });
  await step("update", async () => is((await items.updateOne({ _id: 2 }, { $set: { a: -1 } })).modifiedCount, 1));
  await step("delete", async () => is((await items.deleteOne({ _id: 3 })).deletedCount, 1));
  await step("count", async () => is(await items.countDocuments({}), 999));
  await step("parallel", () => Promise.all([...Array(20)].map(() => client.db("admin").command({ ping: 1 }))));
  await step("drop", () => items.drop());
  await step("rest", () => new Promise((rested) => setTimeout(rested, 11000)));
  await step("ping_again", () => client.db("admin").command({ ping: 1 }));
  await step("close", () => {
    closing = true;
    return client.close();
  });
  console.log(`log: ${seen.connections} connections, ${seen.heartbeats} heartbeats`);
  await step("log", () => is(faults.join(", "), "") || is(seen.heartbeats > 1, true));
  process.exit(failed);
})();
