// What can be clicked in a page that is served, and the form for a transaction of one's own.

// Where a menu of this size covers nothing that may be clicked next: above the packet, beside it, or below.
function placeOfMenu(map, at, width, height) {
  const box = at.getBoundingClientRect(), ground = map.getBoundingClientRect();
  const others = [...map.querySelectorAll("button")].filter(x => x !== at && !x.closest("#menu")).map(x => x.getBoundingClientRect());
  const middle = box.top + (box.height - height) / 2;
  const places = [[box.left, box.top - height - 3], [box.right + 4, middle], [box.left - width - 4, middle], [box.left, box.bottom + 3],
    [box.right - width, box.top - height - 3], [box.right - width, box.bottom + 3]].map(([x, y]) => [
    Math.max(ground.left + 2, Math.min(x, ground.left + map.clientWidth - width - 4)), Math.max(ground.top + 2, Math.min(y, ground.top + map.clientHeight - height - 2))]);
  const covers = ([x, y]) => [box, ...others].filter(r => r.left < x + width && x < r.right && r.top < y + height && y < r.bottom).length;
  return places.reduce((a, b) => (covers(b) < covers(a) ? b : a));
}

Object.assign(Play.prototype, {
  tools() {
    const box = element("div"), names = this.unsubmitted(), choice = element("select");
    box.id = "tools";
    choice.id = "unsubmitted";
    choice.onchange = () => { this.chosen = choice.value; };
    for (const name of names) choice.append(element("option", "", name));
    if (names.includes(this.chosen)) choice.value = this.chosen;
    choice.disabled = !names.length;
    const add = (id, text, act, title, isUseless = false) => {
      const made = button(text, "", act);
      Object.assign(made, {id, title, disabled: isUseless});
      box.append(made);
    };
    box.append(choice);
    add("submit", "submit", () => this.event("submit " + choice.value), "gives the transaction to its module", !names.length);
    add("compose", "new transaction", () => this.compose(), "a transaction of your own");
    add("settle", "settle", () => this.event("settle"), "delivers everything until nothing is in flight (s)");
    if (this.listsLeft()) add("redeclare", "redeclare", () => this.event("redeclare"), "puts the next class list in force");
    add("undo", "undo", () => this.change({do: "undo"}), "takes the last change back (u)", !this.canUndo);
    add("redo", "redo", () => this.change({do: "redo"}), "(y)", !this.canRedo);
    add("anew", "begin anew", () => this.change({do: "back", keep: 0, spelled: []}), "takes all events away; undo brings them back", !this.view.run.count);
    add("save", "save the workload", () => this.save(), "a file that `sdd1 run` takes");
    box.append(element("span", "faint", "Click a packet to deliver, lose or repeat it (d l r; a double click delivers). Click the site before a lane to resend."));
    return box;
  },

  // The transactions that aren't submitted at the moment that is shown.
  unsubmitted() {
    const {run, event} = this.view, done = new Set();
    for (const line of run.lines.slice(0, event)) if (line.do.startsWith("submit ")) done.add(line.do.slice(7));
    return [...run.transactions.keys()].filter(name => !done.has(name));
  },

  listsLeft() { return this.view.state.list < Math.max(0, ...this.view.run.lists.values()); },

  linkButton(from, to, link) {
    const open = link ? link.sent - link.acked : 0;
    const made = button(from, "from", () => this.event(`resend ${from} ${to}`));
    made.title = open ? `resend ${from} ${to}: ${plural(open, "message")} unacknowledged` : `${from} to ${to}: nothing is unacknowledged`;
    made.disabled = !open;
    return made;
  },

  downButton(site, isDown) {
    const verb = isDown ? "up" : "down", made = button(verb, "", () => this.event(`${verb} ${site}`));
    made.title = `${verb} ${site}`;
    return made;
  },

  tickControl(site) {
    const box = element("div", "tick"), ticks = element("input"), made = button("tick", "", () => this.event(`tick ${site} ${ticks.value}`));
    Object.assign(ticks, {type: "number", min: 1, max: 1048576, value: 1, title: "how many ticks"});
    made.title = `the clock of ${site} goes on`;
    box.append(ticks, made);
    return box;
  },

  // Three buttons at the packet that is selected.
  placeMenu(map) {
    const id = this.view.selected?.packet, at = id === undefined ? null : map.querySelector(`[data-packet="${id}"]`);
    if (!at) return;
    const menu = element("div"), origin = map.getBoundingClientRect();
    menu.id = "menu";
    for (const verb of ["deliver", "lose", "repeat"]) {
      const made = button(verb, "", () => this.act(verb, id));
      made.title = eventLine(this.view.state, verb, id);
      menu.append(made);
    }
    map.append(menu);
    const [x, y] = placeOfMenu(map, at, menu.offsetWidth, menu.offsetHeight);
    menu.style.left = x - origin.left + map.scrollLeft + "px";
    menu.style.top = y - origin.top + map.scrollTop + "px";
  },

  compose() {
    if (this.form) return this.closeForm();
    const form = element("form"), name = element("input"), at = element("select"), text = element("textarea"), row = element("input");
    form.id = "form";
    Object.assign(name, {id: "txn-name", value: this.freeName(), size: 12, maxLength: 32});
    for (const tm of this.view.run.tms) at.append(element("option", "", tm));
    at.id = "txn-site";
    Object.assign(text, {id: "txn-text", rows: 4, cols: 90, spellcheck: false, placeholder: this.exampleStatement()});
    Object.assign(row, {id: "row-text", size: 40, placeholder: this.exampleRow(), disabled: this.view.run.data.events.length > 0});
    const line = (...parts) => { const made = element("div"); made.append(...parts); form.append(made); };
    const act = (id, label, made) => Object.assign(button(label, "", made), {id, type: "button"});
    line("txn ", name, " ", at, element("span", "faint", " its statements, one a line, or SQL:"));
    line(text);
    line(act("add-submit", "add and submit", () => this.addTransaction(name.value, at.value, text.value, true)), " ",
      act("add", "add", () => this.addTransaction(name.value, at.value, text.value, false)), " ", act("close", "close", () => this.closeForm()));
    line(row, " ", act("add-row", "add an initial row", () => this.addRow(row)), element("span", "faint", " only before the first event"));
    form.append(this.formsOfStatements());
    form.onsubmit = event => event.preventDefault();
    this.form = form;
    this.view.draw();
    text.focus();
    return null;
  },

  closeForm() {
    this.form = null;
    this.view.draw();
  },

  freeName() {
    let k = 1;
    while (this.view.run.transactions.has("t" + k)) k++;
    return "t" + k;
  },

  exampleStatement() {
    const relation = this.view.run.data.relations[0];
    return relation ? `query 1.${relation.columns[0]} from ${relation.name} where 1.${relation.key} <= 9` : "";
  },

  exampleRow() {
    const relation = this.view.run.data.relations[0];
    return relation ? `row ${relation.name} ${relation.columns.map((_, k) => k + 1).join(" ")}` : "";
  },

  formsOfStatements() {
    const made = element("pre"), relations = this.view.run.data.relations.map(r => `${r.name}: ${r.columns.join(" ")} (key ${r.key})`);
    made.textContent = ["put REL VALUE ..", "query 1.COLUMN .. from REL .. where 1.COLUMN <= VALUE and 1.COLUMN = 2.COLUMN",
      "update REL set 1.COLUMN = VALUE where ..     (or += NUMBER)", "delete REL where ..",
      "or SELECT COLUMN, .. FROM REL WHERE ..; INSERT INTO REL VALUES (..); UPDATE REL SET ..; DELETE FROM REL WHERE ..", "", ...relations].join("\n");
    return made;
  },

  async addTransaction(name, at, text, submit) {
    const lines = [`txn ${name} ${at}`, ...text.split("\n").filter(line => line !== ""), "done"];
    const act = async () => {
      if (!await this.change({do: "txn", text: lines, submit})) return;
      this.closeForm();
      this.say(submit ? this.classWords(name) : `${name} is added; submit gives it to ${at}.`, false);
    };
    if (submit) await this.goOn(act);
    else await act();
  },

  // Which class the transaction got: a wrong module, or a row too many, silently make it undeclared.
  classWords(name) {
    const line = this.view.run.lines[this.view.run.count - 1];
    const cls = this.view.run.attempts.get(name + "#1") || (line?.queues || []).find(q => (q.in || []).includes(name))?.class;
    if (cls === "-") return `No class at this module covers all that ${name} reads and writes: it runs undeclared, and every other transaction is held for it.`;
    return cls ? `${name} runs in class ${cls}.` : "";
  },

  async addRow(input) {
    if (await this.change({do: "row", text: input.value})) this.say("The row is added.", false);
  },
});
