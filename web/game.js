// A workload that grows by clicks, in the page itself: game.py and play.py without a server. A request is an object with
// `do`; one that is refused changes nothing.

const MOST_WORKLOAD = 4 * 2 ** 20, MOST_LINES = 20000, MOST_SECONDS = 60;
const EVENT = (() => {
  const module = "(?:[1-9]|1[0-6])", site = `(?:U|[TD]${module})`, number = "[1-9][0-9]{0,9}", name = "[A-Za-z][A-Za-z0-9_]{0,31}";
  return new RegExp(`^(?:submit ${name}|(?:deliver|lose|repeat) ${site} ${site} ${number}|resend ${site} ${site}|tick T${module} ${number}|(?:down|up) [TD]${module}|settle|redeclare)$`);
})();

class Game {
  constructor(programs, catalogue, name, tell = () => 0) {
    Object.assign(this, {programs, catalogue, name, tell, parts: readParts(""), done: [], undone: []});
  }

  // Begins with a workload that the program accepts, or with an empty one. It is run as it was given, so that its faults have
  // the lines that the user sees; and without its events where these are to be clicked anew.
  async begin(workload, isAnew) {
    const known = catalogueData(this.programs, this.catalogue);
    this.parts = readParts(workload);
    this.known = known;
    await this.run(workload || undefined);
    this.known = await known;
    if (!isAnew || !this.parts.events.length) return;
    this.parts.events = [];
    await this.run();
  }

  text() { return spelled(this.parts); }

  async run(text = this.text()) {
    if (text.length > MOST_WORKLOAD || this.parts.events.length > MOST_LINES) throw new BadInput("the workload would be too long");
    this.data = {name: this.name, ...await eventData(this.programs, this.catalogue, text, this.known, {seconds: MOST_SECONDS, tell: this.tell})};
  }

  // Changes, done and taken back: events from a place on, and what was added before them.

  apply({place, taken, put, transactions = [], rows = []}) {
    this.parts.events.splice(place, taken.length, ...put);
    this.parts.transactions.push(...transactions);
    this.parts.rows.push(...rows);
  }

  takeBack({place, taken, put, transactions = [], rows = []}) {
    this.parts.events.splice(place, put.length, ...taken);
    this.parts.transactions.length -= transactions.length;
    this.parts.rows.length -= rows.length;
  }

  // The change that a request asks for. Lines are judged here by their form alone, so that one can't bring a second one; the
  // program judges the rest.
  changeOf(ask) {
    const events = this.parts.events, demand = (isGood, what) => { if (!isGood) throw new BadInput(what); };
    if (ask.do === "event") {
      demand(EVENT.test(ask.line), `\`${ask.line}\`: no event of a schedule`);
      return {place: events.length, taken: [], put: [ask.line]};
    }
    if (ask.do === "back") {
      demand(ask.spelled.every(x => EVENT.test(x)), "no events of a schedule");
      return {place: ask.keep, taken: events.slice(ask.keep), put: ask.spelled};
    }
    if (ask.do === "txn") {
      demand(!ask.text.slice(0, -1).includes("done") && !ask.text.some(x => /[\r\n]/.test(x)), "`done` ends the transaction; it is written for you");
      return {place: events.length, taken: [], put: ask.submit ? ["submit " + ask.text[0].split(" ")[1]] : [], transactions: [ask.text]};
    }
    demand(!events.length && /^row .*$/.test(ask.text), "an initial row begins with `row`, and is added before the first event");
    return {place: 0, taken: [], put: [], rows: [ask.text]};
  }

  // Does what is asked, takes it back or does it again; `data` is then of the run that comes of it. What is stopped or refused
  // leaves all as it was.
  async step(ask) {
    if (ask.do === "undo" || ask.do === "redo") return this.move(ask.do === "undo");
    const change = this.changeOf(ask);
    this.apply(change);
    try {
      await this.run();
    } catch (fault) {
      const reported = fault instanceof Refused ? new BadInput(this.descriptionOf(fault.message, change)) : fault;
      this.takeBack(change);
      throw reported;
    }
    this.done.push(change);
    this.undone = [];
    return null;
  }

  async move(isBack) {
    const [mine, others] = isBack ? [this.done, this.undone] : [this.undone, this.done], change = mine.at(-1);
    if (!change) throw new BadInput("there is nothing to " + (isBack ? "undo" : "redo"));
    const [forth, back] = isBack ? [this.takeBack, this.apply] : [this.apply, this.takeBack];
    forth.call(this, change);
    try {
      await this.run();
    } catch (fault) {
      back.call(this, change);
      throw fault;
    }
    others.push(mine.pop());
  }

  // The program's line, with the line of what was asked for in place of that of the workload.
  descriptionOf(fault, {put, transactions = [], rows = []}) {
    const found = FAULT_OF_WORKLOAD.exec(fault);
    if (!found) return fault === "limit" ? "limit: the run would have too many events" : fault;
    const [, line, rule] = found, reported = meaningOf(rule);
    const before = this.parts.rows.length + this.parts.transactions.flat().length;
    if (transactions.length && before - transactions[0].length < +line && +line <= before) {
      const place = +line - before + transactions[0].length;
      return `line ${place}, \`${transactions[0][place - 1]}\`: ${reported}`;
    }
    if (rows.length) return reported;
    return put.length ? `\`${put.at(-1)}\`: ${reported}` : fault;
  }
}

// The playing form of the page, which asks a game in the page where that of a served page asks its server.
class PlayHere extends Play {
  // `changed` is called with the game after each step; `during` shows what takes long.
  constructor(view, game, changed, during) {
    super(view, "");
    Object.assign(this, {game, changed, during});
  }

  async ask(request) {
    this.isBusy = true;
    try {
      if (request.do !== "look") await this.during("the run", () => this.game.step(request));
      this.changed(this.game);
      return {version: 0, since: 0, undo: this.game.done.length > 0, redo: this.game.undone.length > 0, run: this.game.data};
    } catch (fault) {
      this.say(fault.message, true);
      if (!(fault instanceof BadInput)) throw fault;
      return null;
    } finally {
      this.isBusy = false;
    }
  }

  save() {
    saveFile(WORKLOAD, this.game.text());
    this.say("Saved as the file `workload`, where your browser keeps downloads.", false);
  }
}
