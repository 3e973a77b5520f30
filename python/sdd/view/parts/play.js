// A page that is served: a click adds an event to the schedule, the program runs it anew, and the page goes on.

class Play {
  constructor(view, token) {
    Object.assign(this, {view, token, version: 0, reported: "", isBad: false, question: null, form: null, isBusy: false});
    this.keys = {
      d: () => this.actOnSelected("deliver"), l: () => this.actOnSelected("lose"), r: () => this.actOnSelected("repeat"),
      s: () => this.event("settle"), u: () => this.change({do: "undo"}), y: () => this.change({do: "redo"}),
    };
  }

  // The answer of the server, or null where it refuses; what it refuses is reported in the page.
  async ask(request) {
    this.isBusy = true;
    try {
      const headers = {"Content-Type": "application/json", "X-Token": this.token};
      const answer = await fetch("/do", {method: "POST", headers, body: JSON.stringify({...request, version: this.version, since: this.view.run.count})});
      const reported = await answer.json();
      if (answer.status === 409) await this.look();
      if (reported.refused) this.say(reported.refused, true);
      return reported.refused ? null : reported;
    } catch (fault) {
      this.say("The server doesn't answer. Is play.py still running?", true);
      return null;
    } finally {
      this.isBusy = false;
    }
  }

  async look() {
    const reported = await this.ask({do: "look", all: true});
    if (reported) this.take(reported);
    return reported;
  }

  // A change, after which the page shows the first new event of a settle, or the event that was made.
  async change(request) {
    if (this.isBusy) return null;
    const before = this.view.event, reported = await this.ask(request);
    if (!reported) return null;
    this.reported = "";
    this.take(reported);
    const count = this.view.run.count, isSettle = request.line === "settle" || request.line === "redeclare";
    if (request.do === "event") this.view.go(isSettle ? Math.min(before + 1, count) : count);
    else this.view.go(request.do === "txn" && !request.submit ? Math.min(before, count) : count);
    return reported;
  }

  take(reported) {
    const data = this.view.run.data;
    this.version = reported.version;
    this.canUndo = reported.undo;
    this.canRedo = reported.redo;
    this.view.opened.clear();
    this.view.selected = this.view.selected?.site || this.view.selected?.cell ? this.view.selected : null;
    this.view.load({...data, ...reported.run, lines: data.lines.slice(0, reported.since).concat(reported.run.lines)});
    drawLegend(this.view);
  }

  say(text, isBad) {
    this.reported = text;
    this.isBad = isBad;
    this.view.draw();
  }

  act(verb, id) {
    const line = eventLine(this.view.state, verb, id);
    if (line) this.event(line);
  }

  actOnSelected(verb) {
    if (this.view.selected?.packet !== undefined) this.act(verb, this.view.selected.packet);
  }

  event(line) { return this.goOn(() => this.change({do: "event", line})); }

  // Does it at once at the end of the run; further back it asks first, since the later events are taken away.
  goOn(act) {
    const {event, run} = this.view, later = run.count - event;
    if (!later) return act();
    this.question = {
      text: `The page shows an earlier moment. To go on from here takes away the ${plural(later, "event")} after it; undo brings them back.`,
      yes: async () => {
        this.question = null;
        if (await this.change({do: "back", ...cutAt(run, event)})) await act();
      },
    };
    this.view.draw();
    return null;
  }

  async save() {
    const headers = {"Content-Type": "application/json", "X-Token": this.token};
    const answer = await fetch("/save", {method: "POST", headers, body: "{}"});
    if (!answer.ok) return this.say("The server didn't give the workload.", true);
    const link = element("a");
    const bytes = new Blob([await answer.arrayBuffer()], {type: "application/octet-stream"});   // a text would be saved as workload.txt
    link.href = URL.createObjectURL(bytes);
    link.download = "workload";
    link.click();
    setTimeout(() => URL.revokeObjectURL(link.href), 10000);
    return this.say("Saved as the file `workload`, where your browser keeps downloads.", false);
  }

  draw() {
    const box = byId("controls");
    box.hidden = false;
    if (this.form && box.contains(this.form)) {
      byId("reported").replaceWith(this.reportedLine());
      return byId("tools").replaceWith(this.tools());
    }
    box.textContent = "";
    box.append(this.tools(), this.reportedLine());
    if (this.form) box.append(this.form);
    return null;
  }

  reportedLine() {
    const line = element("div", this.isBad ? "gone" : "", this.question ? this.question.text : this.reported);
    line.id = "reported";
    if (!this.question) return line;
    const no = () => { this.question = null; this.view.draw(); };
    line.append(" ", button("go on from here", "", this.question.yes), " ", button("cancel", "", no));
    return line;
  }
}

// The schedule up to an event: how many of its lines stay whole, and what of a settle had happened, as events.
function cutAt(run, event) {
  const line = run.lineAt(event), next = run.lines[event];
  if (!line) return {keep: 0, spelled: []};
  if (!next || next.of !== line.of) return {keep: line.of, spelled: []};
  const mine = run.lines.slice(0, event).filter(x => x.of === line.of);
  return {keep: line.of - 1, spelled: mine.map(x => x.do)};
}
