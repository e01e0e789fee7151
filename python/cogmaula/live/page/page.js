"use strict";
// The page of a live market: what is wrong, the lines of the last hours, and the tree, as /view, /trend and /live tell them.
const at = id => document.getElementById(id);
// The name space of drawings, by an empty one.
const SVG = at("drawing").namespaceURI;
const rows = new Map(), folded = new Set(), known = new Set(), lines = new Map();
// A market of more nodes folds each group of more than so many, until the reader unfolds it.
const MANY_NODES = 60, MANY_BELOW = 8, MOST_FAULTS = 50;
// Seconds: a bid that waits for so long is wrong, and so far the lines go back; and between two points, which the server tells.
const WAITS = 60, HOURS = 3 * 3600;
let gap = 15, ahead = 0, search = "";
const COLUMNS = ["State", "Price", "Bid at this price", "Power", "Limits"];
// Milliseconds: the silence after which the connection counts as lost (the server tells the view each 10 s), and the tries.
const SILENCE = 25000, FIRST_PAUSE = 1000, LONGEST_PAUSE = 15000;
let pause = FIRST_PAUSE, lostAt = null, newest = null, shown = null, watch = 0;

function put(element, text) {
  if (element.textContent !== text) element.textContent = text;
  element.hidden = text === "";
}

function number(it) {
  return it.toLocaleString("en", {maximumFractionDigits: 3}).replace("-", "\u2212");
}

function watts(it) {
  if (it === null) return "not known";
  return Math.abs(it) >= 1000 ? number(it / 1000) + "\u00a0kW" : number(it) + "\u00a0W";
}

function moment(text) {
  const when = new Date(text);
  if (text === null || isNaN(when)) return "not known";
  const today = when.toDateString() === new Date().toDateString();
  return today ? when.toLocaleTimeString() : when.toLocaleString();
}

// The seconds since a moment, by the clock of the server, null if it is not known.
function secondsSince(text) {
  const when = text === null ? NaN : Date.parse(text);
  return isNaN(when) ? null : Math.max(0, (Date.now() + ahead - when) / 1000);
}

function ageOf(text) {
  const seconds = secondsSince(text);
  if (seconds === null) return "";
  if (seconds < 60) return Math.floor(seconds) + "\u00a0s ago";
  if (seconds < 3600) return Math.floor(seconds / 60) + "\u00a0min ago";
  return seconds < 172800 ? Math.floor(seconds / 3600) + "\u00a0h ago" : Math.floor(seconds / 86400) + "\u00a0days ago";
}

// Shows the age of a figure, which goes on while the page is looked at.
function putAge(element, text) {
  element.dataset.since = text === null ? "" : text;
  put(element, ageOf(text));
}

// What is wrong with a node: words, since when, and whether it is bad.
function faultsOf(node) {
  const found = [], add = (text, since, bad) => found.push({text, since, bad});
  if (node.state === "down") add("is down" + (node.why ? ": " + node.why : ""), node.since, true);
  if (node.alarm) add(node.alarm, null, true);
  if (node.is_within === false && !node.alarm) add("is outside its limits, with " + watts(node.power.power), null, true);
  if (node.silent !== null) add("hears no heartbeat", node.silent, true);
  if (node.power !== null && node.power.by === "fallback") add("takes its fallback, " + watts(node.power.power), null, true);
  if (node.lapsed !== null) add("is let go, " + node.why_lapsed, node.lapsed, false);
  if (node.bid !== null && !node.bid.is_answered && !node.bid.is_gone && secondsSince(node.bid.time) > WAITS)
    add("has a bid that no price answers", node.bid.time, false);
  if (node.name !== null && node.state === null) add("is not seen", null, false);
  for (const note of node.notes) add(note, null, false);
  return found;
}

// "clearing 7", and whether that is not the newest.
function clearings(first, last) {
  const text = first === last ? "clearing " + first : "clearings " + first + " to " + last;
  return [text, first !== newest || last !== newest];
}

function make(tag, name, role) {
  const made = document.createElement(tag);
  if (name) made.className = name;
  if (role) made.setAttribute("role", role);
  return made;
}

function newCell(row, label) {
  const cell = make(label ? "td" : "th", "", label ? "cell" : "rowheader");
  const found = {cell, main: make("span", "main"), tag: make("span", "tag"), more: make("span", "more"), age: make("span", "more age")};
  if (label) cell.dataset.label = label;
  found.age.hidden = true;
  cell.append(found.main, found.tag, found.more, found.age);
  row.append(cell);
  return found;
}

function newRow(key) {
  const row = make("tr", "", "row"), head = newCell(row);
  head.cell.scope = "row";
  const fold = make("button");
  fold.type = "button";
  fold.addEventListener("click", () => {
    if (!folded.delete(key)) folded.add(key);
    show(shown);
  });
  head.cell.prepend(fold);
  const cells = COLUMNS.map(it => newCell(row, it));
  const bar = make("div", "bar", "img"), fill = make("div", "fill"), zero = make("div", "zero");
  bar.append(fill, zero);
  cells[4].cell.prepend(bar);
  return {row, head, fold, cells, bar, fill, zero};
}

function keyOf(node) {
  return node.name === null ? node.parent + "/" + node.child : node.name;
}

function showHead(made, node, below, key) {
  const name = node.name === null ? "child " + node.child : node.name;
  put(made.head.main, name);
  const place = node.parent === null ? "" : "child " + node.child + " of " + node.parent;
  put(made.head.more, [node.sort, place, below > 1 ? below + " nodes below" : ""].filter(it => it).join(", "));
  put(made.head.tag, node.notes.join("; "));
  made.fold.hidden = below === 0;
  const isFolded = folded.has(key);
  made.fold.textContent = isFolded ? "+" : "\u2212";
  made.fold.setAttribute("aria-expanded", String(!isFolded));
  made.fold.setAttribute("aria-label", "what is below " + name);
}

function showState(cell, node) {
  put(cell.main, node.lapsed !== null ? "let go" : node.state === null ? "not seen" : node.state);
  cell.main.classList.add("pill");
  cell.main.classList.toggle("up", node.state === "up" && node.lapsed === null);
  cell.main.classList.toggle("bad", node.state === "down" || node.lapsed !== null);
  putAge(cell.age, node.state === null ? null : node.since);
  put(cell.more, [node.lapsed !== null ? "since " + moment(node.lapsed) + ", " + node.why_lapsed : "", node.why].filter(it => it).join("; "));
  put(cell.tag, node.silent !== null ? "no heartbeat since " + moment(node.silent) : "");
}

function showPrice(cell, node) {
  const price = node.price || node.passed;
  put(cell.main, price === null ? "none" : number(price.price));
  const [text, isOld] = price === null ? ["", false] : clearings(price.clearing, price.clearing);
  put(cell.more, text);
  putAge(cell.age, price === null ? null : price.time);
  cell.more.classList.toggle("tag", isOld);
  const passesOther = node.price !== null && node.passed !== null && node.passed.price !== node.price.price;
  const other = passesOther && node.passed.clearing !== node.price.clearing ? " of clearing " + node.passed.clearing : "";
  put(cell.tag, passesOther ? "passes " + number(node.passed.price) + " down" + other : "");
}

function showBid(cell, node) {
  const bid = node.bid;
  if (bid === null || bid.is_gone) {
    put(cell.main, node.sort === "auctioneer" ? "" : bid === null ? "none" : "left");
    put(cell.more, bid === null ? "" : "number " + bid.number);
    put(cell.tag, "");
    putAge(cell.age, bid === null ? null : bid.time);
    return;
  }
  put(cell.main, bid.demand === null ? "no price yet" : watts(bid.demand));
  const range = bid.least === bid.greatest ? watts(bid.least) : watts(bid.least) + " to " + watts(bid.greatest);
  put(cell.more, "bid " + bid.number + ": " + range);
  put(cell.tag, bid.is_answered ? "" : "not yet answered");
  putAge(cell.age, bid.time);
}

const BY = {setpoint: "setpoint", fallback: "fallback", bid: "by its bid", sum: "sum of what is below"};

function showPower(cell, node) {
  const power = node.power;
  put(cell.main, power === null ? "not known" : watts(power.power));
  const [text, isOld] = power === null || power.first === null ? ["", false] : clearings(power.first, power.last);
  put(cell.more, power === null ? "" : BY[power.by] + (text ? ", " + text : ""));
  cell.more.classList.toggle("tag", isOld);
  put(cell.tag, power !== null && power.lacking ? power.lacking + " below not known" : "");
}

function showLimits(made, cell, node) {
  const power = node.power === null ? null : node.power.power, bid = node.bid;
  const hasLimits = node.floor !== null || node.ceiling !== null;
  const hasRange = bid !== null && bid.least !== null;
  const low = Math.min(0, node.floor ?? (hasRange ? bid.least : 0));
  const high = Math.max(0, node.ceiling ?? (hasRange ? bid.greatest : 0));
  // A device whose power cannot change has nothing to fill.
  made.bar.hidden = high === low || !(hasLimits || (hasRange && bid.least !== bid.greatest));
  made.bar.classList.toggle("free", !hasLimits);
  const place = it => 100 * (Math.min(high, Math.max(low, it)) - low) / (high - low || 1);
  made.zero.style.left = "calc(" + place(0) + "% - " + (place(0) === 100 ? 1 : 0) + "px)";
  made.fill.style.left = Math.min(place(0), place(power ?? 0)) + "%";
  made.fill.style.width = Math.abs(place(power ?? 0) - place(0)) + "%";
  made.fill.classList.toggle("gives", power < 0);
  made.fill.classList.toggle("out", node.is_within === false || node.alarm !== "");
  const floor = node.floor === null ? "no floor" : watts(node.floor);
  const ceiling = node.ceiling === null ? "no ceiling" : watts(node.ceiling);
  const range = floor + " to " + ceiling;
  put(cell.main, "");
  put(cell.more, hasLimits ? range : node.sort === "device" || node.sort === null ? "" : "no limits");
  const isHigh = power !== null && node.ceiling !== null && power >= node.ceiling, isLow = power !== null && node.floor !== null && power <= node.floor;
  const binds = node.price !== null && node.passed !== null && node.passed.clearing === node.price.clearing && node.passed.price !== node.price.price;
  const reached = isHigh && node.ceiling > 0 ? "at its ceiling" : isLow && node.floor < 0 ? "at its floor" : binds ? "its limits bind" : "";
  put(cell.tag, node.alarm || (node.is_within === false ? "outside its limits" : hasLimits ? reached : ""));
  cell.tag.classList.toggle("bad", node.alarm !== "" || node.is_within === false);
  const between = hasLimits ? range : "its least and greatest bid";
  made.bar.setAttribute("aria-label", watts(power) + ", between " + between);
}

function showNodes(nodes) {
  const keys = new Set(nodes.map(keyOf)), body = at("nodes");
  for (const [key, made] of rows) {
    if (!keys.has(key)) {
      made.row.remove();
      rows.delete(key);
    }
  }
  const below = belowOf(nodes), found = foundIn(nodes);
  let hiddenBelow = Infinity;
  nodes.forEach((node, index) => {
    const key = keyOf(node);
    if (!known.has(key) && nodes.length > MANY_NODES && below[index] > MANY_BELOW) folded.add(key);
    known.add(key);
    if (!rows.has(key)) rows.set(key, newRow(key));
    const made = rows.get(key), [state, price, bid, power, limits] = made.cells;
    if (node.depth <= hiddenBelow) hiddenBelow = Infinity;
    made.row.hidden = found === null ? node.depth > hiddenBelow : !found[index];
    if (found === null && !made.row.hidden && folded.has(key)) hiddenBelow = node.depth;
    made.row.id = "node-" + key;
    made.row.style.setProperty("--depth", node.depth);
    showHead(made, node, below[index], key);
    showState(state, node);
    showPrice(price, node);
    showBid(bid, node);
    showPower(power, node);
    showLimits(made, limits, node);
    // A row that is in its place is left there, so that it keeps the focus.
    if (body.children[index] !== made.row) body.insertBefore(made.row, body.children[index] || null);
  });
}

// Of each node how many are below it, at any depth.
function belowOf(nodes) {
  const found = nodes.map(() => 0), above = [];
  nodes.forEach((node, index) => {
    while (above.length && nodes[above[above.length - 1]].depth >= node.depth) above.pop();
    for (const it of above) found[it] += 1;
    above.push(index);
  });
  return found;
}

// Which nodes the search finds, with those above them; null without a search.
function foundIn(nodes) {
  if (search === "") return null;
  const found = nodes.map(it => keyOf(it).toLowerCase().includes(search));
  // From the end on: below a depth stands the node above the one that was found last.
  for (let index = nodes.length - 1, depth = 0; index >= 0; index--) {
    if (!found[index] && nodes[index].depth >= depth) continue;
    found[index] = true;
    depth = nodes[index].depth;
  }
  return found;
}

// What is wrong, first what is bad.
function showFaults(nodes) {
  const faults = nodes.flatMap(node => faultsOf(node).map(it => ({...it, node}))).sort((one, other) => other.bad - one.bad);
  const isBad = faults.some(it => it.bad), more = faults.length - MOST_FAULTS;
  at("wrong").className = faults.length === 0 ? "well" : isBad ? "wrong" : "wrong mild";
  const all = nodes.length === 1 ? "The one node is well" : "All " + nodes.length + " nodes are well";
  put(at("verdict"), faults.length ? faults.length + (faults.length === 1 ? " thing is wrong" : " things are wrong") : nodes.length ? all : "No node is seen");
  at("faults").hidden = faults.length === 0;
  at("faults").replaceChildren(...faults.slice(0, MOST_FAULTS).map(it => {
    const line = make("li", it.bad ? "bad" : "mild"), name = make("a"), age = make("span", "age");
    name.href = "#node-" + keyOf(it.node);
    name.textContent = it.node.name === null ? "child " + it.node.child + " of " + it.node.parent : it.node.name;
    name.addEventListener("click", () => reveal(it.node));
    putAge(age, it.since);
    line.append(name, " " + it.text + (it.since === null ? "" : " \u00b7 "), age);
    return line;
  }), ...(more > 0 ? [Object.assign(make("li"), {textContent: "and " + more + " more"})] : []));
}

// Unfolds all above a node, so that its row is there.
function reveal(node) {
  search = at("search").value = "";
  const byName = new Map(shown.nodes.map(it => [it.name, it]));
  for (let it = byName.get(node.parent), left = 64; it && left; it = byName.get(it.parent), left--) folded.delete(keyOf(it));
  showNodes(shown.nodes);
}

// A line in steps through points of a time and a value, in a box of 300 to 50.
function pathOf(points, value, from, until, low, high) {
  const x = it => (300 * (it - from) / (until - from)).toFixed(1), y = it => (47 - 44 * (it - low) / (high - low || 1)).toFixed(1);
  let text = "", pen = false;
  points.forEach((it, index) => {
    const number = value(it), end = index + 1 < points.length ? points[index + 1][0] : until;
    if (number === null) {
      pen = false;
      return;
    }
    text += (pen ? "L" : "M") + x(Math.max(from, it[0])) + " " + y(number) + "L" + x(end) + " " + y(number);
    pen = true;
  });
  return text;
}

function showTrend(node, points, from, until) {
  const card = make("div", "trend"), name = make("b"), svg = document.createElementNS(SVG, "svg");
  name.textContent = node.name;
  svg.setAttribute("viewBox", "0 0 300 50");
  svg.setAttribute("preserveAspectRatio", "none");
  svg.setAttribute("role", "img");
  const prices = points.map(it => it[1]).filter(it => it !== null), powers = points.map(it => it[2]).filter(it => it !== null);
  const draw = (text, kind) => {
    const path = document.createElementNS(SVG, "path");
    path.setAttribute("d", text);
    path.setAttribute("class", kind);
    svg.append(path);
  };
  const limits = [node.floor, node.ceiling].filter(it => it !== null);
  const low = Math.min(0, ...powers, ...limits), high = Math.max(0, ...powers, ...limits);
  const level = it => pathOf([[from, it]], point => point[1], from, until, low, high);
  draw(level(0), "nil");
  for (const it of limits) draw(level(it), "limit");
  draw(pathOf(points, it => it[2], from, until, low, high), "of-power");
  if (prices.length) draw(pathOf(points, it => it[1], from, until, Math.min(...prices), Math.max(...prices)), "of-price");
  const range = (them, words) => them.length === 0 ? "not known" : Math.min(...them) === Math.max(...them) ? words(them[0]) : words(Math.min(...them)) + " to " + words(Math.max(...them));
  const told = make("span"), power = make("span", "watts");
  told.textContent = "price " + range(prices, number);
  power.textContent = "power " + range(powers, watts) + (limits.length ? ", limits " + limits.map(watts).join(" to ") : "");
  svg.setAttribute("aria-label", told.textContent + ", " + power.textContent);
  card.append(name, svg, told, power);
  return card;
}

function showTrends(nodes) {
  const now = (Date.now() + ahead) / 1000, cards = [];
  for (const node of nodes) {
    const points = lines.get(node.name);
    if (points && points.length) cards.push(showTrend(node, points, Math.max(points[0][0], now - HOURS), Math.max(now, points[0][0] + 1)));
  }
  at("lines").hidden = cards.length === 0;
  if (at("lines").open) at("trends").replaceChildren(...cards);
}

// Goes on with the lines by what a view tells.
function goOn(view) {
  const now = Date.parse(view.time) / 1000;
  for (const node of view.nodes) {
    if (node.name === null || (node.sort !== "auctioneer" && node.sort !== "relay")) continue;
    const points = lines.get(node.name) || [];
    lines.set(node.name, points);
    const newest = [now, node.price === null ? null : node.price.price, node.power === null ? null : node.power.power];
    const last = points[points.length - 1];
    if (last && last[1] === newest[1] && last[2] === newest[2]) continue;
    if (points.length > 1 && last[0] - points[points.length - 2][0] < gap && now - points[points.length - 2][0] < gap) points.pop();
    points.push(newest);
    while (points.length > 1 && points[1][0] < now - HOURS) points.shift();
  }
}

function show(view) {
  put(at("fault"), view.fault ? "The market cannot be shown: " + view.fault : "");
  const since = view.lost_since;
  put(at("broker"), since ? "No connection to the broker since " + moment(since) + ". These figures are older." : "");
  if (view.fault) return;
  shown = view;
  ahead = Date.parse(view.time) - Date.now() || 0;
  newest = view.clearing;
  const bidding = view.nodes.some(it => it.bid !== null && !it.bid.is_gone);
  const price = view.price, name = "Live market: " + view.prefix;
  put(at("note"), view.note);
  put(at("title"), name + (view.own === null ? "" : ", as " + view.own + " sees it"));
  const none = view.session !== null && !bidding ? "nobody bids" : "none yet";
  put(at("price"), price !== null ? number(price.price) + " price units" : view.clearing === null ? none : "not seen here");
  document.title = price === null ? name : name + ": price " + number(price.price);
  put(at("clearing"), view.clearing === null ? none : String(view.clearing));
  const named = view.nodes.filter(it => it.name !== null);
  put(at("up"), named.filter(it => it.state === "up").length + " of " + named.length);
  put(at("session"), view.session === null ? "none yet" : view.session);
  at("session").title = view.begun === null ? "" : "began " + moment(view.begun);
  at("when").dataset.since = price === null || price.time === null ? "" : price.time;
  put(at("when"), price === null ? "not known" : ageOf(price.time) || "not known");
  at("when").title = price === null ? "" : moment(price.time);
  at("when").dateTime = price === null || price.time === null ? "" : price.time;
  goOn(view);
  showFaults(view.nodes);
  showNodes(view.nodes);
  showTrends(view.nodes);
  at("not_taken").hidden = view.not_taken.length === 0;
  at("messages").replaceChildren(...view.not_taken.map(it => {
    const line = make("li");
    line.textContent = it.topic + ": " + it.why;
    return line;
  }));
}

function lost() {
  lostAt = lostAt || new Date();
  put(at("lost"), "No connection since " + lostAt.toLocaleTimeString() + ". These figures are older. The page tries again.");
}

function connect() {
  const address = new URL("live", location.href);
  address.protocol = address.protocol.replace("http", "ws");
  const socket = new WebSocket(address);
  const isAlive = () => {
    clearTimeout(watch);
    watch = setTimeout(() => {
      lost();
      socket.close();
    }, SILENCE);
  };
  socket.onopen = isAlive;
  socket.onmessage = message => {
    isAlive();
    pause = FIRST_PAUSE;
    lostAt = null;
    put(at("lost"), "");
    show(JSON.parse(message.data));
  };
  socket.onclose = () => {
    clearTimeout(watch);
    lost();
    setTimeout(connect, pause);
    pause = Math.min(2 * pause, LONGEST_PAUSE);
  };
}

function foldAll(isFolded) {
  if (shown === null) return;
  const below = belowOf(shown.nodes);
  shown.nodes.forEach((it, index) => {
    folded.delete(keyOf(it));
    if (isFolded && below[index] > 0 && it.sort !== "auctioneer") folded.add(keyOf(it));
  });
  showNodes(shown.nodes);
}

at("fold_all").addEventListener("click", () => foldAll(true));
at("unfold_all").addEventListener("click", () => foldAll(false));
at("search").addEventListener("input", () => {
  search = at("search").value.trim().toLowerCase();
  if (shown !== null) showNodes(shown.nodes);
});
at("lines").addEventListener("toggle", () => shown === null || showTrends(shown.nodes));
setInterval(() => {
  for (const it of document.querySelectorAll("[data-since]")) if (it.dataset.since) put(it, ageOf(it.dataset.since));
}, 1000);
setInterval(() => {
  if (shown === null) return;
  showFaults(shown.nodes);
  showTrends(shown.nodes);
}, 15000);
fetch("trend").then(it => it.json()).then(it => {
  gap = it.gap;
  for (const [name, points] of Object.entries(it.lines)) lines.set(name, [...points, ...(lines.get(name) || []).filter(one => !points.length || one[0] > points[points.length - 1][0])]);
  if (shown !== null) showTrends(shown.nodes);
}).catch(() => {});
fetch("view").then(it => it.json()).then(it => shown || show(it)).catch(() => {});
connect();
