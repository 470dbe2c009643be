// What the page's state of the objects is wrong in, for bench/browser, which gives this to an open page: what the state before a row
// says that it is answered is compared with the row's reply. Nothing is said of a reply that the state doesn't tell, as a
// validator's refusal. Without the scenario in the value only what needs no declaration is compared.
function wrongStates() {
  const known = Boolean(read.run.scenario), state = firstState(read), found = [], last = new Map();
  const decided = (waits, {player, args}, gaveUp) => {
    const is = wait => wait.player === player && wait.place === Number(args[0]);
    return waits.decided.find(is)?.answer ?? (gaveUp && waits.waiting.some(is) ? gaveUp : "impossible");
  };
  const orElse = (is, then, {args}, no, wait) => is ? then : args.at(-1) === "no" ? no : wait;
  const hasRoom = queue => queue.getters.waiting.length > 0 || queue.messages.length < queue.most;

  // A submission: busy where the item is being cancelled, 0 where it waits, else by the queue that it goes to.
  function submission(name, named, player) {
    const item = state.at.get(name), home = item.runs?.queue ?? (named === "-" ? last.get(name) : named);
    const queue = state.at.get(home);
    if (item.cancelling) return "busy";
    if (item.waits) return "0";
    if (!queue) return "inval";
    if (!queue.started) return "nodev";
    if (queue.draining ? names[player] !== home : queue.plugged) return "busy";
    return `${item.runs ? 2 : 1} a${state.admitted} ${home}`;
  }

  function flags(name) {
    const {runs, cancelling, waits, armed} = state.at.get(name);
    const isFlushed = state.waits.some(({word, number}) => word === "flush" && number !== undefined &&
      (number === waits?.number || number === runs?.number));
    return [runs && "r", cancelling && "c", waits && "q", armed && "d", isFlushed && "f"].filter(Boolean).join("") || "-";
  }

  const polls = {
    pollend: (object, row) => decided(object.polls, row), pollquit: (object, row) => decided(object.polls, row, "plain"),
  };
  const observer = {
    visit(seen, row) {
      if (!seen.enabled) return "off";
      if (seen.kind === "listener") return "run";
      return seen.takers.waiting.length || seen.channels.length < seen.most ? "pushed" : "full";
    },
    take: (sub, row) => sub.channels[0] ?? orElse(false, "", row, "nomsg", "wait"),
    takeend: (sub, row) => decided(sub.takers, row), takequit: (sub, row) => decided(sub.takers, row, "again"),
  };
  const gained = (chan, row) => orElse(!chan.holder, "got", row, "busy", "wait");
  const isHeld = ({holder}, {player}, isClaim) => holder?.player === player && (holder.payload === "claim") === isClaim;
  const objects = {
    sem: {
      ...polls,
      take: (sem, row) => orElse(sem.count > 0, "got", row, "busy", "wait"), count: sem => String(sem.count),
      takeend: (sem, row) => decided(sem.takers, row), takequit: (sem, row) => decided(sem.takers, row, "again"),
      pollarm: (sem, row) => orElse(sem.count > 0, "ready", row, "notready", "armed"),
    },
    msgq: {
      ...polls,
      put: (msgq, row) => orElse(hasRoom(msgq), "ok", row, "nomsg", "wait"), putfront: msgq => hasRoom(msgq) ? "ok" : "nomsg",
      putend: (msgq, row) => decided(msgq.putters, row), putquit: (msgq, row) => decided(msgq.putters, row, "again"),
      get: (msgq, row) => msgq.messages[0] ?? orElse(false, "", row, "nomsg", "wait"),
      getend: (msgq, row) => decided(msgq.getters, row), getquit: (msgq, row) => decided(msgq.getters, row, "again"),
      peek: msgq => msgq.messages[0] ?? "nomsg", peekat: (msgq, {args}) => msgq.messages[args[0]] ?? "nomsg",
      used: msgq => String(msgq.messages.length), free: msgq => String(msgq.most - msgq.messages.length),
      pollarm: (msgq, row) => orElse(msgq.messages.length, "ready", row, "notready", "armed"),
    },
    signal: {raise: signal => String(signal.stamp + 1), clear: signal => String(signal.stamp + 1)},
    chan: {
      offer: (chan, row) => row.reply === "nomsg" ? undefined : gained(chan, row), enter: gained, claim: gained,
      claimend: (chan, row) => decided(chan.waits, row), claimquit: (chan, row) => decided(chan.waits, row, "again"),
      get: chan => chan.message, free: (chan, row) => isHeld(chan, row, false) ? "ok" : "impossible",
      finish: (chan, row) => isHeld(chan, row, true) ? "ok" : "inval",
      set: (chan, {reply}) => chan.masked.some(name => reply.split(" ").includes(name)) ? "without the masked" : undefined,
    },
    listener: observer, sub: observer,
  };
  const delayed = ({args: [name, queue, ticks], player}) => Number(ticks) > 0 ? "1" : submission(name, queue, player);
  const come = answer => ({player, args}) =>
    state.waits.some(wait => wait.player === player && wait.place === Number(args[0]) && wait.come) ? answer : "impossible";
  const work = {
    submit: ({args, player}) => submission(args[0], args[1], player), reschedule: delayed,
    schedule: (row, {armed, waits, cancelling}) => armed || waits || cancelling ? "0" : delayed(row),
    remaining: (row, {armed}) => String(armed ? armed.until - state.worktime : 0),
    cancelstart: ({args}, {runs}) => flags(args[0]) === "-" ? "false" : runs ? "wait" : "true",
    canceldone: come("true"), flushdone: come("true"), draindone: come("1"),
    begin: (row, {line, runs}) => line.length && !runs ? `${line[0].item} a${line[0].number}` : "impossible",
    end: (row, {runs}) => runs ? "ok" : "impossible", drainstart: (row, {runs, line}) => runs || line.length ? "wait" : "0",
    start: (row, {started}) => started ? "already" : "ok", unplug: (row, {plugged}) => plugged ? "ok" : "already",
    stop: (row, {started, plugged, runs, line}) => !started ? "already" : plugged && !runs && !line.length ? "ok" : "busy",
    announce({args, reply}) {
      const now = state.worktime + Number(args[0]), due = [...state.at].filter(([, {armed}]) => armed && armed.until <= now);
      const told = reply.split(" ").slice(2).map(one => one.split(":")[0]);
      return told.length === due.length && due.every(([name]) => told.includes(name)) && reply.startsWith(`now ${now}`) ? reply
        : `now ${now}, and of ${due.map(([name]) => name)}`;
    },
  };
  const clock = {
    announce: ({args}) => `now ${state.time + Number(args[0])}`, alarm: ({args}) => `at ${state.time + Number(args[0])}`,
    alarmend: ({args, player}) => state.alarms.some(alarm => alarm.player === player && alarm.moment === Number(args[0])
      && alarm.moment <= state.time) ? "due" : "impossible",
  };
  const observers = new Set(["listener", "sub"]);
  const table = {
    init: ({args}) => state.at.get(args[0]).raw ? "ok" : "already",
    check({args: [name, need], player}) {
      const object = state.at.get(name), own = state.at.get(names[player]);
      if (!object) return "oops noobject";
      if (need !== "any" && need !== object.kind && !(need === "obs" && observers.has(object.kind))) return "oops wrongkind";
      if (!own.user || own.dead) return "impossible, by its caller";
      if (!own.may.includes(name) && !object.public) return "oops notgranted";
      return need !== "any" && object.raw ? "oops notinit" : "ok";
    },
  };

  // Looks tell after how many entries of the work service, or behind which write of a signal, they found what they tell.
  function looked({word, args, reply, service}, entries) {
    const at = Number(reply.split("@")[1]), signal = state.at.get(service);
    if (word === "busy") return at === entries ? `${flags(args[0])} @${at}` : undefined;
    return at === signal.stamp ? `${signal.raised ? "raised" : "clear"} ${signal.result} @${at}` : undefined;
  }

  function expected(row, entries) {
    if (row.look) return looked(row, entries);
    if (row.service === "work" && !known && (/^(start|stop)$/.test(row.word) || row.reply === "nodev")) return undefined;
    if (row.service === "work") return work[row.word]?.(row, state.at.get(row.args[0]));
    if (row.service === "clock") return clock[row.word]?.(row);
    if (!known) return undefined;
    if (row.service === "table") return table[row.word]?.(row);
    const object = state.at.get(row.service);
    return objects[object.kind][row.word]?.(object, row);
  }

  let entries = 0, compared = 0;
  for (const row of rows) {
    const said = expected(row, entries);
    if (said !== undefined) compared++;
    if (said !== undefined && said !== row.reply) found.push(`row ${row.index}, ${row.text}: its state says ${said}`);
    advance(state, row, read);
    if (row.word === "cancel" && flags(row.args[0]) !== row.reply) found.push(`${row.text}: its state has ${flags(row.args[0])}`);
    if (row.service !== "work" || row.look) continue;
    entries++;
    for (const [name, {kind, waits}] of state.at) if (kind === "item" && waits) last.set(name, waits.queue);
  }
  if (known && rows.length > 7 && compared * 4 < rows.length) found.push(`only ${compared} of ${rows.length} rows were compared`);
  return found.slice(0, 5);
}
