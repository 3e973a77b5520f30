// What an event means, in sentences: {style, text}. Styles: "" plain, "strong", "bad" for what waits, "gone" for what is lost, rejected or
// down, "faint".

function sentencesOf(view, line) {
  const said = [], say = (style, text) => said.push({style, text});
  if (line.nothing) say("", "There was nothing to do.");
  sayEvent(view, line, say);
  for (const record of view.run.recordsAt.get(line.event) || []) sayRecord(view, line, record.words, say);
  sayHeld(view, line, say);
  saySites(line, say);
  sayPut(view.run, line, say);
  return said;
}

function sayEvent(view, line, say) {
  const [verb, from, to] = line.do.split(" ");
  if (line.nothing) return;
  if (verb === "deliver") sayDelivery(view, line, from, to, say);
  if (verb === "lose") sayLoss(view, line, say);
  if (verb === "repeat") say("", "The network repeats this packet: the copy flies behind all others of the link.");
  if (verb === "resend") say("", `${from} sends everything again that ${to} hasn't acknowledged.`);
  if (verb === "tick") say("", `The clock of ${from} goes on by ${to}.`);
  if (verb === "down") say("gone", `${from} goes down. Messages for it are kept, and none gets lost.${from[0] === "T" ? " What is submitted there queues." : ""}`);
  if (verb === "up") say("strong", `${from} comes up${from[0] === "T" ? ", starts what can start," : ","} and is handed what was kept for it.`);
  if (verb === "redeclare") say("strong", "The next class list is in force.");
}

function takenPacket(run, line) {
  const [, from, to] = line.do.split(" ");
  const n = typeof line.took === "number" ? line.took : 0;
  return {link: from + ">" + to, from, to, n, ack: n ? undefined : line.took.ack};
}

function sayLoss(view, line, say) {
  const packet = takenPacket(view.run, line);
  say("gone", `Lost: ${describePacket(view.run, packet)}`.replace(/\.?$/, "."));
  if (packet.n) say("", `${packet.from} still counts it as unacknowledged, so a resend sends it again.`);
}

function sayDelivery(view, line, from, to, say) {
  const packet = takenPacket(view.run, line), handed = view.state.handedNow.get(packet.link) || 0;
  if (!packet.n) return say("faint", `${to} learns that ${from} has ${receivedWords(packet.ack)}.`);
  say("", `${to} receives ${describePacket(view.run, packet)}`.replace(/\.?$/, "."));
  if (handed > 1) return say("strong", `Now messages up to ${line.delivered} are complete: ${handed} are handed over, in their order.`);
  if (handed) return;
  if (packet.n > line.delivered) say("bad", `It came too early: message ${line.delivered + 1} is still missing. It is kept until that one comes.`);
  else if (view.state.site(to).down) say("bad", `${to} is down: the message is kept for it.`);
  else say("", `${to} had this message already: it drops it, and acknowledges again.`);
}

const RECORDS = {
  submit(view, words, say) {
    const reported = view.run.transactions.get(words[1]), lines = reported ? reported.lines : [];
    say("", `A user submits ${words[1]}${reported ? " at " + reported.at : ""}: ${shortened(lines, 4).join("; ") || "no statement"}.`);
  },
  start(view, words, say) {
    if (words[2] !== "-") return say("strong", `${words[1]} starts in class ${words[2]}, with timestamp ${words[3]}.`);
    say("strong", `${words[1]} starts undeclared (no class covers it), with timestamp ${words[3]}: no other transaction runs beside it.`);
  },
  arrive(view, words, say) { say("", `The READ of ${words[1]} is in its pipe at ${words[2]}.`); },
  wait(view, words, say) {
    const waits = pairsOf(words.slice(3)), whose = waits.length > 1 ? "theirs" : className(waits[0][0]);
    const passed = joined(shortened(waits.map(([cls, time]) => `${className(cls)} has passed ${time}`), 3));
    say("bad", `${words[1]} waits at ${words[2]} until ${passed}: an earlier change of ${whose} may still come.`);
  },
  answer(view, words, say) {
    const read = view.run.reads.get(words[1] + " " + words[2]);
    const why = read && !read.conds.length ? "it has to wait for no class" : "every change that it must see is there";
    say("strong", `${words[1]} is answered at ${words[2]}: ${why}. The rows that it reads are frozen for it.`);
  },
  reject(view, words, say) {
    const read = view.run.reads.get(words[1] + " " + words[2]), name = words[1].split("#")[0];
    const cond = read?.conds.find(([cls]) => cls === words[3]), upTo = cond ? ` It may only see changes of ${className(words[3])} before ${cond[1]},` : " But";
    say("gone", `REJECTED: ${words[1]} came too late to ${words[2]}.${upTo} ${cond ? "but " : ""}one with time ${words[4]} was applied already, and the old row is gone.`);
    say("", `${read ? read.from : "Its module"} will start ${name} again, with a time after ${words[4]}.`);
  },
  commit(view, words, say) {
    const reply = view.run.replies.get(words[1].split("#")[0]);
    say("strong", `${words[1]} commits.${reply && reply.length ? " Reply: " + shortened(reply, 4).join("; ") + "." : ""}`);
  },
  apply(view, words, say, line) {
    const rows = (line.rows || []).filter(([at]) => at === words[2]).map(([, ...change]) => changeWords(change));
    say("strong", `The changes of ${words[1]} are applied at ${words[2]}${rows.length ? ": now " + joined(shortened(rows, 4)) : ""}.`);
  },
  pass(view, words, say) { say("", `Class ${className(words[1])} has passed ${words[3]} at ${words[2]}: no earlier change of it will come.`); },
};

function pairsOf(words) {
  const pairs = [];
  for (let k = 0; k + 1 < words.length; k += 2) pairs.push([words[k], words[k + 1]]);
  return pairs;
}

function sayRecord(view, line, words, say) {
  if (RECORDS[words[0]]) RECORDS[words[0]](view, words, say, line);
}

// A WRITE that came in this event, and stands at the head of its pipe because a READ that waits must not see it.
function sayHeld(view, line, say) {
  for (const site of line.sites || []) {
    for (const head of site.heads || []) {
      const came = (line.pipes || []).find(pipe => pipe.at === site.at && pipe.class === head.class && pipe.in);
      if (!head.held || !came) continue;
      const link = view.run.home.get(head.class) + ">" + site.at;
      const reported = view.run.message(link, view.state.pipe(site.at, head.class).waiting[0]);
      const whose = joined(shortened(head.held.map(className), 3));
      say("bad", `HELD: the changes of ${reported.txn} (time ${reported.time}) aren't applied yet, because the read of ${whose} that waits at ${site.at} must not see them.`);
    }
  }
}

function saySites(line, say) {
  const users = (line.sites || []).find(site => site.at === "U");
  if (users?.phase === "holding") say("", `U waits until every other site holds still; missing: ${(users.lacks || []).join(" ")}.`);
  if (users?.phase === "writing") say("", `U waits until its changes are applied everywhere; missing: ${(users.lacks || []).join(" ")}.`);
  for (const site of line.sites || []) {
    if (site.down && line.do.startsWith("submit ")) say("bad", `${site.at} is down: it starts nothing before it is up.`);
    if (site.hold && site.owes) say("", `${site.at} is on hold: what runs there comes to its end, and nothing new starts.`);
  }
}

function sayPut(run, line, say) {
  const put = [];
  for (const [from, to, packets] of line.put || []) {
    for (const reported of packets) if (reported.n) put.push(`${messageLabel(run, from + ">" + to, reported.n)} to ${to}`);
  }
  const again = (line.put || []).reduce((sum, [, , packets]) => sum + packets.filter(reported => typeof reported === "number").length, 0);
  if (put.length) say("faint", `Sent: ${joined(shortened(put, 5))}.`);
  if (again) say("faint", `${plural(again, "packet")} of earlier messages ${again === 1 ? "is" : "are"} in flight again.`);
}
