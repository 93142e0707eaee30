// The numbered calls of run_numbered by the Node.js driver, a promise for each client: numbered.js URI FIRST CLIENTS CALLS
// They are those of numbered.py.
const { isDeepStrictEqual } = require("util");
const { MongoClient } = require("mongodb");

const MOST = 10_000_000;
const WALKED = 10, BATCH = 3;
const PAUSE = 20;
const NETWORK = ["MongoNetworkError", "MongoNetworkTimeoutError", "MongoServerSelectionError"];

// The network failed under a call.
class Lost extends Error {}

const same = (what, found, wanted) => {
  if (isDeepStrictEqual(found, wanted)) return;
  const told = [found, wanted].map((each) => String(JSON.stringify(each)).slice(0, 300));
  throw new Error(`${what} gave ${told[0]} in place of ${told[1]}`);
};

// A client, whose documents have numbers that are no other client's.
class Client {
  constructor(number, calls) {
    Object.assign(this, { number, calls, turn: 0, ended: false });
    Object.assign(this, { made: 0, lost: 0, wrong: 0, silent: 0, unseen: 0 });
  }

  // Makes a call and returns its answer.
  async call(make) {
    this.made++;
    try {
      return await make();
    } catch (error) {
      if (!NETWORK.includes(error.name)) throw error;
      this.lost++;
      throw new Lost();
    }
  }

  // Returns the document of this turn, as long as its number tells, and its collection.
  document(times = this.turn % 60) {
    const number = this.number * MOST + this.turn * WALKED;
    const at = Math.floor(this.turn / 8) % 2;
    return [{ _id: number, n: this.turn, text: String(number).repeat(times) }, this.items[at], this.items[1 - at]];
  }

  // The driver adds an _id to what has none, so it gets a copy.
  async insert(document, items) {
    same("insert", (await this.call(() => items.insertOne({ ...document }))).insertedId, document._id);
  }

  async find(document, items) {
    same("find", await this.call(() => items.findOne({ _id: document._id })), document);
  }

  async remove(document, items) {
    same("delete", (await this.call(() => items.deleteOne({ _id: document._id }))).deletedCount, 1);
  }

  // Asks for a command that isn't there, whose name comes back.
  async say() {
    const name = `say${this.number}x${this.made}`;
    const answer = await this.call(() =>
      this.driver.db("admin").command({ [name]: 1 }).catch((error) => {
        if (NETWORK.includes(error.name)) throw error;
        return [error.code, error.message];
      }));
    same(name, answer, [59, `no such command: '${name}'`]);
  }

  async plain() {
    const [document, items] = this.document();
    await this.insert(document, items);
    await this.find(document, items);
    await this.say();
    await this.remove(document, items);
  }

  async large() {
    const [document, items] = this.document(10_000);
    await this.insert(document, items);
    await this.find(document, items);
    await this.remove(document, items);
  }

  async upsert() {
    const [document, items, other] = this.document();
    const key = { _id: document._id };
    const set = { $set: { n: document.n, text: document.text } };
    same("upsert", (await this.call(() => items.updateOne(key, set, { upsert: true }))).upsertedId._id, document._id);
    await this.find(document, items);
    same("find in the other database", await this.call(() => other.findOne(key)), null);
    await this.remove(document, items);
  }

  // Reads documents by a cursor of several batches.
  async walk() {
    const [{ _id }, items] = this.document(0);
    const wanted = [...Array(WALKED).keys()].map((i) => ({ _id: _id + i, n: i }));
    const own = { _id: { $gte: _id, $lt: _id + WALKED } };
    const made = await this.call(() => items.insertMany(wanted.map((each) => ({ ...each }))));
    same("insert", Object.values(made.insertedIds), wanted.map((each) => each._id));
    const cursor = items.find(own).batchSize(BATCH);
    for (const [i, each] of wanted.entries()) {
      same("walk", await (i % BATCH === 0 ? this.call(() => cursor.next()) : cursor.next()), each);
    }
    same("walk", await cursor.next(), null);
    same("delete", (await this.call(() => items.deleteMany(own))).deletedCount, WALKED);
  }

  // Makes a write without an answer, which the next call over the same connection sees. This driver doesn't tell the server so, and
  // passes over the answer that comes.
  async writeSilently() {
    const [document, items] = this.document();
    try {
      await items.insertOne({ ...document }, { writeConcern: { w: 0 } });
    } catch (error) {
      throw NETWORK.includes(error.name) ? new Lost() : error;
    }
    this.silent++;
    const found = await this.call(() => items.findOne({ _id: document._id }));
    if (found === null) {
      this.unseen++;
      return;
    }
    same("find", found, document);
    await this.remove(document, items);
  }

  // Deletes what lost calls may have left.
  async clear() {
    for (const items of this.items) await this.call(() => items.deleteMany({}));
  }

  async next() {
    const turns = [["plain", 4], ["upsert", 4], ["plain", 4], ["writeSilently", 2], ["plain", 4], ["upsert", 4], ["plain", 4], ["walk", 6]];
    const [make, cost] = this.turn % 64 === 63 ? ["large", 3] : turns[this.turn % 8];
    await (cost <= this.calls - this.made ? this[make]() : this.say());
  }

  async makeCalls() {
    this.driver = new MongoClient(process.argv[2], { useUnifiedTopology: true });
    let wasLost = true;
    while (wasLost) {
      wasLost = false;
      await this.driver.connect().catch((error) => {
        if (!NETWORK.includes(error.name)) throw error;
        wasLost = true;
      });
    }
    this.items = ["even", "odd"].map((name) => this.driver.db(name).collection(`of_${this.number}`));
    while (this.made < this.calls) {
      try {
        if (wasLost && this.calls - this.made > 1) await this.clear();
        wasLost = false;
        await this.next();
      } catch (error) {
        if (!(error instanceof Lost)) throw error;
        wasLost = true;
        await new Promise((rested) => setTimeout(rested, PAUSE));
      }
      this.turn++;
    }
    await this.driver.close();
  }

  async run() {
    try {
      await this.makeCalls();
    } catch (error) {
      this.wrong = 1;
      console.log(`wrong client ${this.number}: ${error.name}: ${error.message}`);
    }
    this.ended = true;
  }
}

(async () => {
  const [first, count, calls] = process.argv.slice(3).map(Number);
  const clients = [...Array(count).keys()].map((i) => new Client(first + i, Math.floor(calls / count) + (i < calls % count)));
  const tell = setInterval(() => console.log("at", ...clients.map((each) => (each.ended ? "-" : String(each.made)))), 1000);
  await Promise.all(clients.map((each) => each.run()));
  clearInterval(tell);
  const sum = (name) => String(clients.reduce((total, each) => total + each[name], 0));
  console.log("end", ...["made", "lost", "wrong", "silent", "unseen"].map(sum));
  process.exit(0);
})();
