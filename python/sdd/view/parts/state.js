// The state at an event, and a line of the text applied to it. This is all that a reader of the text has to know:
// lists are reported by what is taken off and what is put behind, and what a site has is reported anew.

class State {
  constructor(run) {
    Object.assign(this, {run, event: 0, list: 0});
    this.links = new Map();             // "T1>D1" -> {flight, sent, acked, delivered, early, handed}
    this.queues = new Map();            // class -> transactions
    this.pipes = new Map();             // "D1 class" -> {waiting, passed, last, lastAt}
    this.sites = new Map();             // site -> what was reported of it last
    this.handedNow = new Map();         // link -> how many messages were handed over in this event
  }

  copy() {
    const made = new State(this.run);
    made.event = this.event;
    made.list = this.list;
    for (const [k, x] of this.links) made.links.set(k, {...x, flight: x.flight.slice(), early: x.early.slice()});
    for (const [k, x] of this.queues) made.queues.set(k, x.slice());
    for (const [k, x] of this.pipes) made.pipes.set(k, {...x, waiting: x.waiting.slice()});
    made.sites = new Map(this.sites);
    made.handedNow = new Map(this.handedNow);
    return made;
  }

  link(key) {
    return getOrMake(this.links, key, () => ({flight: [], sent: 0, acked: 0, delivered: 0, early: [], handed: 0}));
  }

  flight(key) { return this.links.get(key)?.flight || []; }

  site(name) { return this.sites.get(name) || {at: name, clock: 0, phase: "idle"}; }

  queue(cls) { return this.queues.get(cls) || []; }

  pipe(site, cls) { return this.pipes.get(site + " " + cls); }

  apply(line) {
    const [verb, from, to, place] = line.do.split(" ");
    this.event = line.event;
    this.handedNow = new Map();
    if (line.took !== undefined) this.take(line, verb, from + ">" + to, +place);
    if (line.acked !== undefined) this.link(to + ">" + from).acked = line.acked;
    for (const [a, b, n] of line.handed || []) this.handOver(a + ">" + b, n);
    this.put(line);
    for (const reported of line.queues || []) {
      const queue = getOrMake(this.queues, reported.class, () => []);
      queue.push(...reported.in || []);
      queue.splice(0, reported.out || 0);
    }
    for (const reported of line.pipes || []) this.moveThroughPipe(line, reported);
    for (const reported of line.sites || []) this.sites.set(reported.at, reported);
    if (line.do === "redeclare") this.list++;
  }

  // The packet at a place of a flight, which was delivered or lost.
  take(line, verb, key, place) {
    const link = this.link(key), packet = this.run.packets[link.flight.splice(place - 1, 1)[0]];
    const isAck = typeof line.took === "object";
    if (!packet || (isAck ? packet.ack !== line.took.ack : packet.n !== line.took)) {
      return this.run.fault(line.event, "another packet stands at the place that is reported");
    }
    packet.taken = line.event;
    packet.lost = verb === "lose";
    if (line.delivered === undefined) return;
    if (packet.n > line.delivered && !link.early.includes(packet.n)) link.early.push(packet.n);
    link.delivered = line.delivered;
    link.early = link.early.filter(n => n > line.delivered);
  }

  handOver(key, n) {
    const link = this.link(key);
    this.handedNow.set(key, n - link.handed);
    link.handed = n;
  }

  put(line) {
    let packet = this.run.firstPacket[line.event];
    for (const [a, b, put] of line.put || []) {
      const link = this.link(a + ">" + b);
      for (const reported of put) {
        if (reported.n) link.sent = reported.n;
        link.flight.push(packet++);
      }
    }
  }

  moveThroughPipe(line, reported) {
    const pipe = getOrMake(this.pipes, reported.at + " " + reported.class, () => ({waiting: [], passed: null, last: 0, lastAt: 0}));
    pipe.waiting.push(...reported.in || []);
    const done = pipe.waiting.splice(0, reported.out || 0);
    if (done.length) Object.assign(pipe, {last: done[done.length - 1], lastAt: line.event});
    if (reported.passed !== undefined) pipe.passed = reported.passed;
  }

  packetsInFlight() {
    let count = 0;
    for (const link of this.links.values()) count += link.flight.length;
    return count;
  }

  unacknowledged() {
    let count = 0;
    for (const link of this.links.values()) count += link.sent - link.acked;
    return count;
  }
}
