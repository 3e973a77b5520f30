// For a lecture room: a run that plays by itself, what keys and words mean, and looking for a transaction.

const SPEEDS = [0.5, 1, 2, 4, 8, 16, 32];           // events a second

class Film {
  constructor(view) { Object.assign(this, {view, timer: 0, speed: 2}); }

  toggle() {
    if (this.timer) return this.stop();
    if (this.view.event >= this.view.run.count) this.view.go(0);
    return this.start();
  }

  start() {
    this.timer = setInterval(() => this.step(), 1000 / SPEEDS[this.speed]);
    this.draw();
  }

  stop() {
    clearInterval(this.timer);
    this.timer = 0;
    this.draw();
  }

  step() {
    if (this.view.event < this.view.run.count) this.view.go(this.view.event + 1);
    if (this.view.event >= this.view.run.count) this.stop();
  }

  faster(by) {
    this.speed = Math.max(0, Math.min(SPEEDS.length - 1, this.speed + by));
    if (this.timer) {
      clearInterval(this.timer);
      this.start();
    }
    this.draw();
  }

  draw() {
    byId("film").textContent = this.timer ? "stop" : "play";
    byId("film").setAttribute("aria-pressed", String(this.timer !== 0));
    byId("speed").textContent = `${SPEEDS[this.speed]} a second`;
  }
}

// ---- Looking for a transaction. ----

// The events of each transaction: its submission, and all records of its attempts.
function eventsByName(run) {
  const made = new Map();
  for (const {event, words} of run.records) {
    const name = words[1]?.split("#")[0];
    if (run.transactions.has(name) && getOrMake(made, name, () => []).at(-1) !== event) made.get(name).push(event);
  }
  return made;
}

// The transaction of this name, or the first whose name begins so, or has it within.
function namedTransaction(run, text) {
  const names = [...run.transactions.keys()];
  return names.find(x => x === text) || names.find(x => x.startsWith(text)) || names.find(x => x.includes(text));
}

// Goes to the next event of a transaction, behind the last one to the first.
function goToTransaction(view, text) {
  const field = byId("find"), name = text && namedTransaction(view.run, text);
  field.classList.toggle("nothing", Boolean(text) && !name);
  if (!name) return;
  const events = (view.run.eventsByName ??= eventsByName(view.run)).get(name) || [];
  view.selected = {txn: name};
  view.go(events.find(x => x > view.event) || events[0] || view.event);
}

function drawTransaction(view, box, name) {
  const {run, event} = view, list = element("div", "list"), reply = run.commits.get(name) <= event ? run.replies.get(name) : null;
  box.append(element("h3", "", "transaction " + name), ...transactionText(view, name));
  for (const record of run.records.filter(({words}) => words[1]?.split("#")[0] === name)) {
    const made = button(record.text, record.event === event ? "now" : "", () => view.go(record.event));
    if (record.event > event) made.classList.add("later");
    list.append(made);
  }
  box.append(list.childNodes.length ? list : element("p", "faint", "It isn't submitted in this run."));
  if (reply) box.append(element("p", "strong", "Its answer: " + answerWords(reply, 20)));
}

function answerWords(reply, most) { return reply.length ? shortened(reply, most).join("; ") : "done"; }

// ---- What each transaction answered, the latest first. ----

const MOST_ANSWERS = 8;

function drawAnswers(view) {
  const box = byId("answers"), done = view.run.data.order.filter(name => view.run.commits.get(name) <= view.event);
  if (view.isDrawn("answers", done.length, view.opened.has("answers"))) return;
  done.sort((a, b) => view.run.commits.get(b) - view.run.commits.get(a));
  const most = view.opened.has("answers") ? done.length : MOST_ANSWERS;
  box.textContent = "";
  for (const name of done.slice(0, most)) {
    const line = element("div", "answer");
    line.append(button(name, "name", () => view.select({txn: name})), " ", element("span", "", answerWords(view.run.replies.get(name) || [], 4)));
    box.append(line);
  }
  if (done.length > most) box.append(button("+" + (done.length - most), "more", () => view.open("answers")));
  if (!done.length) box.append(element("span", "faint", "none so far"));
}

// ---- Keys and words. ----

const KEYS = [["right, j", "the next event"], ["left, k", "one event back"], ["n, p", "the next event that has a record, and the one before"],
  ["Page down, up", "25 events on, or back"], ["Home, End", "to the beginning, to the end"], ["space", "play, or stop"], ["+, -", "faster, slower"],
  ["/", "look for a transaction; Enter goes on to its next event"], ["Tab, Enter", "to packets and buttons; choose one"], ["Escape", "choose nothing"],
  ["t", "dark or light"], ["?", "these keys and words"]];
const KEYS_OF_PLAY = [["d, l, r", "deliver, lose or repeat the packet that is chosen"], ["s", "settle"], ["u, Ctrl-Z", "take the last change back"], ["y, Ctrl-Y", "and do it again"]];
const WORDS = [
  ["READ 383", "asks a data module for rows, for the attempt with time 383. It is answered (READY) once all changes that it must see are there."],
  ["READY 383", "the data module has answered the READ, and has frozen its rows for it."],
  ["FETCH, VALUES, REDUCE, REDUCED", "before rows of a join are sent: values of one side are asked for, and the other side keeps the rows that match one of them."],
  ["SHIP, ROWS", "the module asks for the rows that are left, and gets them. Then the transaction commits."],
  ["WRITE 191", "brings the changes of a transaction that committed, with its time 191."],
  ["NULL 450", "a promise: the class has passed 450, so no change of it up to that time will come any more."],
  ["ASK 450", "asks for such a promise, since a READ waits for it."],
  ["REJECT 383", "the READ came too late: a change that it must not see was there already. The transaction starts again, with a later time."],
  ["HOLD, HELD, DONE, RELEASE", "for a transaction of no class all others stop; once its changes are applied everywhere they go on."],
  ["ack 3", "messages 1 to 3 of the other direction have arrived, so they needn't be sent again."],
  ["a small number before it", "the place of the packet in flight on its link: 1 is the one that was sent first."],
  ["passed 386", "of a class at a data module: its changes up to time 386 are there; none of them is still to come."],
  ["@386, time 386", "the timestamp of an attempt: ticks of its module's clock times 64, and the module's number, so that no two are alike."],
  ["clock 5; the next start gets 386", "how far the module's clock is, and which timestamp the next attempt gets. A message with a later time pushes it on."],
  ["sell#2", "the second attempt of sell: the first one was rejected."],
  ["pipe", "of each class at a data module: its messages in their order. The head, at the right, is processed first, and may wait."],
  ["red", "something waits. What is lost, rejected or down is violet."],
];

function tableOf(rows) {
  const made = element("table");
  for (const [left, right] of rows) {
    const row = element("tr");
    row.append(element("th", "", left), element("td", "", right));
    made.append(row);
  }
  return made;
}

function toggleHelp(view) {
  const help = byId("help");
  if (help.open) return help.close();
  help.textContent = "";
  const close = button("close", "close", () => help.close());
  help.append(close, element("h3", "", "Keys"), tableOf(view.play ? KEYS.concat(KEYS_OF_PLAY) : KEYS), element("h3", "", "Words and numbers"), tableOf(WORDS));
  help.showModal();
  return close.focus();
}

function listenToRoom(view) {
  view.film = new Film(view);
  view.film.draw();
  byId("film").onclick = () => view.film.toggle();
  byId("slower").onclick = () => view.film.faster(-1);
  byId("faster").onclick = () => view.film.faster(1);
  byId("keys").onclick = () => toggleHelp(view);
  const field = byId("find");
  field.onfocus = () => byId("names").replaceChildren(...[...view.run.transactions.keys()].map(name => Object.assign(element("option"), {value: name})));
  field.onkeydown = event => {
    if (event.key === "Enter") goToTransaction(view, field.value.trim());
    if (event.key === "Escape") field.blur();
  };
}

const roomKeys = view => ({
  " ": () => view.film.toggle(), "+": () => view.film.faster(1), "-": () => view.film.faster(-1), "?": () => toggleHelp(view),
  "/": () => { byId("find").focus(); byId("find").select(); },
});
