// Packets and messages in words.

function labelOf(run, packet) {
  if (!packet.n) return "ack " + packet.ack;
  return messageLabel(run, packet.link, packet.n);
}

function messageLabel(run, link, n) {
  const reported = run.message(link, n);
  if (!reported) return "message " + n;
  return reported.kind + (reported.time === undefined ? "" : " " + reported.time);
}

function plural(count, word) { return `${count} ${word}${count === 1 ? "" : "s"}`; }

function joined(words) {
  if (words.length < 2) return words.join("");
  return words.slice(0, -1).join(", ") + " and " + words[words.length - 1];
}

// The first few of many, and how many more there are.
function shortened(words, most) {
  return words.length <= most + 1 ? words : [...words.slice(0, most), `${words.length - most} more`];
}

function className(cls) { return cls === "-" ? "undeclared" : cls; }

function describePacket(run, packet) {
  if (packet.n) return `message ${packet.n} from ${packet.from} to ${packet.to}: ${describeMessage(run, packet.link, packet.n)}`;
  return `an acknowledgement: ${packet.from} tells ${packet.to} that it has ${receivedWords(packet.ack)}`;
}

function receivedWords(count) { return count > 1 ? `messages 1 to ${count}` : count ? "message 1" : "no message yet"; }

function conditionWords(run, reported, to) {
  if (!reported.conds.length) return `It has no condition: ${to} answers it at once.`;
  const passed = joined(shortened(reported.conds.map(([cls, time]) => `${className(cls)} has passed ${time}`), 3));
  if (reported.class === "-") return `${to} may answer once ${passed}.`;
  return `${to} may answer once ${passed}, and must reject it if a later change of ${reported.conds.length > 1 ? "these classes" : reported.conds[0][0]} was applied before.`;
}

const MESSAGES = {
  READ: (m, to, run) => `READ of ${m.txn} (class ${className(m.class)}, time ${m.time}). ${conditionWords(run, m, to)}`,
  WRITE: m => `WRITE with the changes of ${m.txn} (class ${className(m.class)}, time ${m.time}): ${joined(shortened(m.changes.map(changeWords), 4))}`,
  NULL: m => `NULL: class ${className(m.class)} has passed ${m.time}; no earlier change of it will come`,
  ASK: (m, to) => `ASK: has class ${m.class} passed ${m.time}? ${to} answers with a NULL as soon as it has`,
  READY: m => `READY: the read with time ${m.time} is answered; ${plural(m.rows, "row")} are frozen for it`.replace("1 row are", "1 row is"),
  REJECT: m => `REJECT: the read with time ${m.time} is rejected, because ${className(m.by)} wrote at ${m.write}`,
  FETCH: m => `FETCH: asks for the values of a column, for the read with time ${m.time}`,
  VALUES: m => `VALUES: ${plural(m.values, "value")} of the column that was asked for`,
  REDUCE: m => `REDUCE: keep only the rows that match one of ${plural(m.values, "value")}`,
  REDUCED: m => `REDUCED: ${plural(m.rows, "row")} left`,
  SHIP: m => `SHIP: asks for the rows of the read with time ${m.time}`,
  ROWS: m => `ROWS: ${plural(m.rows, "row")} for the read with time ${m.time}`,
  HOLD: (m, to) => `HOLD: an undeclared transaction wants to run; ${to} is to start nothing more for now`,
  HELD: m => `HELD: no transaction is running here, and none starts until the RELEASE; time ${m.time}`,
  DONE: m => `DONE: the changes of the undeclared transaction with time ${m.time} are applied here`,
  RELEASE: (m, to) => `RELEASE: ${to} may start transactions again, with times after ${m.time}`,
};

function describeMessage(run, link, n) {
  const reported = run.message(link, n);
  return reported && MESSAGES[reported.kind] ? MESSAGES[reported.kind](reported, link.split(">")[1], run) : "a message that wasn't reported";
}

function changeWords([fragment, key, row]) {
  return row === null ? `${fragment}: the row ${key} is deleted` : `${fragment}: ${row}`;
}

// The line of a schedule that does this to a packet, where it is in flight.
function eventLine(state, verb, id) {
  const packet = state.run.packets[id], place = state.flight(packet.link).indexOf(id) + 1;
  return place ? `${verb} ${packet.from} ${packet.to} ${place}` : null;
}
