// What is known of the whole run: its sites, messages, packets, records, and the rows of copies at each event.
// Names of classes and transactions are keys of Maps, since `constructor` is a name like any other.

class Run {
  constructor(data) {
    this.data = data;
    this.lines = data.lines;
    this.count = data.lines.length;
    this.tms = Array.from({length: data.first.tms}, (_, k) => "T" + (k + 1));
    this.dms = Array.from({length: data.first.dms}, (_, k) => "D" + (k + 1));
    this.classes = data.classes.map(c => c.name);
    this.home = new Map(data.classes.map(c => [c.name, c.at]).concat([["-", "U"]]));
    this.lists = new Map(data.classes.map(c => [c.name, c.list]));
    this.transactions = new Map(data.transactions.map(t => [t.name, t]));
    this.replies = new Map(data.replies);
    this.columns = new Map(data.relations.map(r => [r.name, r.columns]));
    this.relations = new Map(data.fragments.map(f => [f.name, f.relation]));
    this.usesU = this.lines.some(line => (line.queues || []).some(q => q.class === "-"));
    this.isSmall = this.tms.length <= 4 && this.dms.length <= 4;
    this.faults = [];
    this.readPackets();
    this.readRecords();
    this.readCopies();
    this.keyStep = Math.max(200, Math.ceil(this.count / 100));
    this.keyframes = [new State(this)];
  }

  // The sites in the order of links: U, the transaction modules, the data modules.
  sites() { return [...(this.usesU ? ["U"] : []), ...this.tms, ...this.dms]; }

  sendersTo(site) {
    const users = this.usesU && site !== "U" ? ["U"] : [];
    if (site === "U") return [...this.tms, ...this.dms];
    return [...users, ...(site[0] === "T" ? this.dms : this.tms)];
  }

  lineAt(event) { return event > 0 ? this.lines[event - 1] : null; }

  // A packet is known by its number in the order in which packets were put in flight.
  readPackets() {
    this.packets = [];
    this.messages = new Map();          // link -> number -> the message
    this.reads = new Map();             // "sell#1 D1" -> its READ
    this.firstPacket = [0];             // of each event: how many packets were put in flight before it
    for (const line of this.lines) {
      this.firstPacket.push(this.packets.length);
      for (const [from, to, put] of line.put || []) {
        for (const reported of put) this.packets.push(this.packetOf(from, to, reported, line.event));
      }
    }
    this.firstPacket.push(this.packets.length);
  }

  packetOf(from, to, reported, event) {
    const link = from + ">" + to, packet = {id: this.packets.length, link, from, to, put: event, taken: 0, lost: false, again: false};
    if (typeof reported === "number") return Object.assign(packet, {n: reported, again: true});
    if (reported.n === undefined) return Object.assign(packet, {n: 0, ack: reported.ack});
    getOrMake(this.messages, link, () => new Map()).set(reported.n, reported);
    if (reported.kind === "READ") this.reads.set(reported.txn + " " + to, {...reported, from, to});
    return Object.assign(packet, {n: reported.n});
  }

  message(link, n) { return this.messages.get(link)?.get(n); }

  kindOf(packet) { return packet.n ? this.message(packet.link, packet.n)?.kind || "?" : "ack"; }

  readRecords() {
    this.records = [];                  // {event, text, words}
    this.recordsAt = new Map();
    this.commits = new Map();           // transaction -> the event of its commit
    this.attempts = new Map();          // "sell#1" -> the class in which it started
    for (const reported of this.data.records) {
      const [event, ...words] = reported.split(" "), record = {event: +event, text: reported, words};
      this.records.push(record);
      getOrMake(this.recordsAt, record.event, () => []).push(record);
      if (words[0] === "start") this.attempts.set(words[1], words[2]);
      if (words[0] === "commit") this.commits.set(words[1].split("#")[0], record.event);
    }
  }

  // How many records stand up to an event, by halving.
  recordsUpTo(event) {
    let low = 0, high = this.records.length;
    while (low < high) {
      const middle = (low + high) >> 1;
      if (this.records[middle].event <= event) low = middle + 1;
      else high = middle;
    }
    return low;
  }

  readCopies() {
    this.copies = new Map();            // "D1 fragment" -> its rows through the run
    const keys = new Map(this.data.fragments.map(f => [f.name, f.key]));
    for (const {at, fragment, rows} of this.data.first.copies) {
      this.copies.set(at + " " + fragment, new Copy(at, fragment, rows, keys.get(fragment) || 0));
    }
    for (const line of this.lines) {
      for (const [at, fragment, key, row] of line.rows || []) this.copies.get(at + " " + fragment)?.set(line.event, key, row);
    }
    for (const copy of this.copies.values()) copy.close();
  }

  columnsOf(fragment) { return this.columns.get(this.relations.get(fragment)) || []; }

  copiesAt(site) { return [...this.copies.values()].filter(copy => copy.at === site); }

  // The classes that a transaction module runs while this class list is in force.
  classesOf(site, list) { return this.classes.filter(c => this.home.get(c) === site && this.lists.get(c) === list); }

  // The state at an event: from the nearest keyframe, which are made when they are passed for the first time.
  stateAt(event) {
    let k = Math.min(Math.floor(event / this.keyStep), this.keyframes.length - 1);
    while (!this.keyframes[k]) k--;
    const state = this.keyframes[k].copy();
    while (state.event < event) {
      state.apply(this.lines[state.event]);
      if (state.event % this.keyStep === 0) this.keyframes[state.event / this.keyStep] = state.copy();
    }
    return state;
  }

  fault(event, what) {
    if (this.faults.length < 20) this.faults.push(`event ${event}: ${what}`);
  }
}

// The rows of a copy through the run: of each key the rows that it had, with the events that brought them.
class Copy {
  constructor(at, fragment, rows, keyPlace) {
    Object.assign(this, {at, fragment, items: new Map(), counts: [[0, rows.length]]});
    for (const row of rows) this.items.set(valuesOf(row)[keyPlace], [[0, row]]);
  }

  set(event, key, row) {
    const past = getOrMake(this.items, key, () => [[0, null]]), count = this.counts[this.counts.length - 1][1];
    const change = (row === null ? 0 : 1) - (past[past.length - 1][1] === null ? 0 : 1);
    past.push([event, row]);
    if (change) this.counts.push([event, count + change]);
  }

  close() { this.keys = [...this.items.keys()].sort(compareNumbers); }

  count(event) { return latest(this.counts, event); }

  // The first rows at an event, those that changed in it before the others; all rows where `most` is left out.
  rows(event, most = Infinity) {
    const changed = [], others = [];
    for (const key of this.keys) {
      const past = this.items.get(key), row = latest(past, event);
      const isNew = event > 0 && past.some(([e]) => e === event);
      if (isNew) changed.push({key, row, isNew});
      else if (row !== null && others.length < most) others.push({key, row, isNew});
    }
    return changed.concat(others).slice(0, Math.max(most, changed.length));
  }
}

// The last of a list of pairs, ascending by event, that isn't later than an event.
function latest(past, event) {
  for (let k = past.length - 1; k >= 0; k--) if (past[k][0] <= event) return past[k][1];
  return null;
}

// Whole numbers of any size, as text.
function compareNumbers(a, b) {
  const x = BigInt(a), y = BigInt(b);
  return x < y ? -1 : x > y ? 1 : 0;
}

// The values of a row, as they are spelled.
function valuesOf(row) { return row.match(/"(?:[^"\\]|\\.)*"|[^ ]+/g) || []; }
