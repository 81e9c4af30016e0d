"use strict";
const day = JSON.parse(document.getElementById("data").textContent);
const at = id => document.getElementById(id);
const grouped = text => (/^-?\d+$/.test(text) ? String(text).replace(/^-/, "\u2212").replace(/\B(?=(\d{3})+(?!\d))/g, ",") : String(text));
const share = use => (use.share === "\u2013" ? -1 : parseFloat(use.share.replace(/[<>]/, "")));
const few = (count, one, many) => `${grouped(count)} ${String(count) === "1" ? one : many || one + "s"}`;
const price = (pair, ticks) => {
  if (!pair.decimals) return String(ticks);
  const digits = String(ticks).padStart(pair.decimals + 1, "0");
  return digits.slice(0, -pair.decimals) + "." + digits.slice(-pair.decimals);
};
const state = { pair: day.busiest, desk: day.banks[0], net: "", ladder: "" };

// Small pieces of the page. Text is put in as text, never as markup.
function put(parent, name, text, classes) {
  const made = document.createElement(name);
  if (text !== undefined) made.textContent = text;
  if (classes) made.className = classes;
  parent.append(made);
  return made;
}
function choices(select, names, chosen) {
  for (const name of names) put(select, "option", name).value = name;
  if (chosen !== undefined) select.value = chosen;
}
// A table's rows: each cell a text, or [text, classes, columns that it spans]. A heading that begins with # is one of numbers.
function rows(table, heads, cells) {
  const head = table.tHead, body = table.tBodies[0];
  head.replaceChildren();
  body.replaceChildren();
  const top = put(head, "tr");
  for (const name of heads) put(top, "th", name.replace("#", ""), name.startsWith("#") ? "n" : "").scope = "col";
  for (const row of cells) {
    const line = put(body, "tr");
    row.forEach((cell, place) => {
      const [text, classes, span] = Array.isArray(cell) ? cell : [cell];
      const made = put(line, place ? "td" : "th", text, [classes, heads[place].startsWith("#") && !span ? "n" : ""].filter(Boolean).join(" "));
      if (!place) made.scope = "row";
      if (span) made.colSpan = span;
    });
  }
  named(table);
  sortable(table);
}

// On a narrow screen a row stands as a block, in which each cell has its heading above it.
function named(table) {
  const names = [...table.querySelectorAll("thead th")].map(head => head.textContent);
  for (const row of table.tBodies[0].rows) {
    for (const cell of row.cells) if (cell.cellIndex && cell.colSpan === 1) cell.dataset.head = names[cell.cellIndex];
  }
}

// Tables are sorted by a button in each heading.
function sortable(table) {
  for (const head of table.querySelectorAll("thead th")) {
    const name = head.textContent;
    head.replaceChildren();
    put(head, "button", name).addEventListener("click", () => sort(table, head));
  }
}
function sort(table, head) {
  const place = [...head.parentNode.children].indexOf(head), body = table.tBodies[0];
  const down = head.getAttribute("aria-sort") === (head.className === "n" ? "descending" : "ascending");
  const turn = (head.className === "n") === down ? 1 : -1;
  for (const other of head.parentNode.children) other.removeAttribute("aria-sort");
  head.setAttribute("aria-sort", turn > 0 ? "ascending" : "descending");
  const value = row => {
    const text = (row.cells[place] || row.cells[0]).textContent.replace(/[,%<>]/g, "").replace("\u2212", "-").trim();
    return text !== "" && isFinite(text) ? Number(text) : text;
  };
  const order = (a, b) => (typeof a === typeof b ? (a < b ? -1 : a > b ? 1 : 0) : typeof a === "number" ? 1 : -1);
  const sorted = [...body.rows].map(row => [value(row), row]).sort((a, b) => turn * order(a[0], b[0]));
  body.replaceChildren(...sorted.map(pair => pair[1]));
}

// Credit.
const uses = new Map();
for (const [a, b, limit, other, used, left, share, level] of day.uses) {
  uses.set(`${a},${b}`, { limit, other, used, left, share, level });
  uses.set(`${b},${a}`, { limit: other, other: limit, used, left, share, level });
}
function limitText(of, on, limit) {
  const opened = day.opening[`${of},${on}`] || "0";
  return `${day.banks[of]}'s limit on ${day.banks[on]} ${grouped(limit)}` + (opened === limit ? "" : ` (at the opening ${grouped(opened)})`);
}
function creditText(a, b) {
  if (a === b) return `${day.banks[a]}: a bank has no line with itself.`;
  const use = uses.get(`${a},${b}`);
  const part = use.share === "\u2013" ? "no credit between the two" : `used ${grouped(use.used)}, which is ${use.share} of the lesser; left ${grouped(use.left)}`;
  return `${day.banks[a]} and ${day.banks[b]}: ${limitText(a, b, use.limit)}; ${limitText(b, a, use.other)}; ${part}.`;
}
// The row of one bank in the heat map, as names and shares, the fullest first; for screens on which the map's names are too small.
function showRow() {
  const bank = Number(at("choose-row").value), row = at("row");
  row.replaceChildren();
  const others = day.banks.map((_, other) => other).filter(other => other !== bank);
  others.sort((a, b) => share(uses.get(`${bank},${b}`)) - share(uses.get(`${bank},${a}`)) || a - b);
  for (const other of others) {
    const use = uses.get(`${bank},${other}`), told = use.share === "\u2013" ? "no credit" : use.share;
    const made = put(row, "button", `${day.banks[other]} ${told}`, `shade h${use.level}`);
    made.type = "button";
    made.title = creditText(bank, other);
    made.addEventListener("click", () => openDesk(bank, other));
  }
}
// Opens the notices of one bank that are of fills with another.
function openDesk(bank, other) {
  choose({ desk: day.banks[bank] });
  at("filter-with").value = day.banks[other];
  notices();
  remember();
  at("desk").scrollIntoView();
}
function heatMap() {
  const stage = at("heat"), cursor = at("heat-cursor"), told = at("heat-told"), svg = stage.querySelector("svg");
  const { left, top, cell } = Object.fromEntries(["left", "top", "cell"].map(key => [key, Number(stage.dataset[key])]));
  let row = 0, column = 1;
  const scale = () => svg.getBoundingClientRect().width / svg.viewBox.baseVal.width;
  function show(tip) {
    const by = scale();
    Object.assign(cursor.style, { left: `${(left + column * cell) * by}px`, top: `${(top + row * cell) * by}px`, width: `${cell * by}px`, height: `${cell * by}px` });
    cursor.hidden = false;
    told.textContent = creditText(row, column);
    if (tip) tipAt(tip, creditText(row, column).replaceAll(/[:;] /g, "\n"));
  }
  const open = () => row !== column && openDesk(row, column);
  function cellAt(event) {
    const box = svg.getBoundingClientRect(), by = scale();
    const x = Math.floor(((event.clientX - box.left) / by - left) / cell), y = Math.floor(((event.clientY - box.top) / by - top) / cell);
    const inside = x >= 0 && y >= 0 && x < day.banks.length && y < day.banks.length;
    if (inside) [row, column] = [y, x];
    return inside;
  }
  stage.addEventListener("pointermove", event => (cellAt(event) ? show(event) : hideTip()));
  stage.addEventListener("pointerleave", hideTip);
  stage.addEventListener("click", event => cellAt(event) && open());
  stage.addEventListener("keydown", event => {
    const step = { ArrowLeft: [0, -1], ArrowRight: [0, 1], ArrowUp: [-1, 0], ArrowDown: [1, 0] }[event.key];
    if (event.key === "Enter") open();
    if (!step) return;
    event.preventDefault();
    row = Math.min(day.banks.length - 1, Math.max(0, row + step[0]));
    column = Math.min(day.banks.length - 1, Math.max(0, column + step[1]));
    show();
  });
  stage.addEventListener("focus", () => stage.matches(":focus-visible") && show());
  stage.addEventListener("blur", () => (cursor.hidden = true));
  [row, column] = day.nearest;
  told.textContent = creditText(row, column);
}
function tipAt(event, text) {
  const tip = at("tip");
  tip.textContent = text;
  tip.hidden = false;
  const wide = tip.offsetWidth, high = tip.offsetHeight;
  tip.style.left = `${Math.max(4, Math.min(event.clientX + 14, innerWidth - wide - 8))}px`;
  tip.style.top = `${event.clientY + 18 + high > innerHeight ? event.clientY - high - 10 : event.clientY + 18}px`;
}
function hideTip() {
  at("tip").hidden = true;
}
function filterUses() {
  const bank = at("use-bank").value, least = Number(at("use-share").value) || 0;
  let shown = 0;
  for (const row of at("uses").tBodies[0].rows) {
    const text = index => row.cells[index].textContent;
    row.hidden = (bank !== "" && text(0) !== bank && text(1) !== bank) || (least > 0 && !(parseFloat(text(6).replace(/[<>]/, "")) >= least));
    shown += row.hidden ? 0 : 1;
  }
  at("use-shown").textContent = `${grouped(shown)} of ${grouped(day.uses.length)} shown`;
}

// One pair.
function fillText(pair, fill) {
  const [entry, ticks, lots, buyer, seller, buys] = fill;
  return `Command ${grouped(entry)}: ${day.banks[buyer]} bought ${few(lots, "lot")} of ${day.banks[seller]} at ${price(pair, ticks)}; ${day.banks[buys ? buyer : seller]} was the taker.`;
}
function binText(pair, bin) {
  const [from, to, fills, bought, sold, low, high, average] = bin;
  return `Commands ${grouped(from)} to ${grouped(to)}: ${few(fills, "fill")}, ${few(bought, "lot")} bought and ${grouped(sold)} sold by takers, at ${price(pair, low)} to ${price(pair, high)}, on average ${average}.`;
}
let spots = [], spot = 0;
function showPair() {
  const index = day.pairs.findIndex(pair => pair.name === state.pair), pair = day.pairs[index];
  at("choose-pair").value = pair.name;
  document.querySelector('.chosen[data-of="pair"]').textContent = pair.name;
  for (const chart of document.querySelectorAll(".fill-chart")) chart.hidden = chart.dataset.pair !== pair.name;
  at("pair-told").textContent = `A lot is ${grouped(pair.lot)} ${pair.base} and uses ${few(pair.weight, "credit unit")}. ` + pair.told;
  const binned = pair.bins.length > 0;
  spots = binned ? pair.bins.map(bin => [(bin[0] + bin[1]) / 2, binText(pair, bin)]) : [...new Set(pair.fills.map(fill => fill[0]))].map(entry => [entry, pair.fills.filter(fill => fill[0] === entry).map(fill => fillText(pair, fill)).join("\n")]);
  spot = -1;
  at("fills-cursor").hidden = true;
  at("fills-told").textContent = spots.length ? "Point at the chart, or move with the arrow keys." : "No fill of this pair.";
  at("fills-legend").textContent = !pair.count ? "" : binned
    ? `The pair has ${grouped(pair.count)} fills, more than ${grouped(day.kept)}, so the history is cut into ${grouped(day.cuts)} equal parts. Grey: from the lowest to the highest price of a part; line: its average price by lots. Lots above the line were bought by takers, those below sold by takers.`
    : "Each mark is a fill. Up and blue: the taker bought; down and orange: the taker sold. Lots above the line were bought by takers, those below sold by takers.";
  fillTable(pair, binned);
  books(index);
}
function fillTable(pair, binned) {
  at("fills-count").textContent = binned ? `The last ${grouped(pair.fills.length)} of ${grouped(pair.count)} fills, as a table` : `All ${few(pair.count, "fill")}, as a table`;
  const cells = pair.fills.map(([entry, ticks, lots, buyer, seller, buys]) => [grouped(entry), price(pair, ticks), grouped(lots), day.banks[buyer], day.banks[seller], [buys ? "bought" : "sold", buys ? "buys" : "sells"]]);
  rows(at("fill-table"), ["#Command", "#Price", "#Lots", "Buyer", "Seller", "The taker"], cells);
  at("parts").hidden = !binned;
  const parts = pair.bins.map(([from, to, fills, bought, sold, low, high, average]) => [grouped(from), grouped(to), grouped(fills), grouped(bought), grouped(sold), price(pair, low), price(pair, high), average]);
  rows(at("part-table"), ["#From command", "#To", "#Fills", "#Lots that takers bought", "#and sold", "#Lowest price", "#Highest", "#Average"], parts);
}
function fillChart() {
  const stage = at("fills"), cursor = at("fills-cursor"), told = at("fills-told");
  // The chart that is seen, the wide or the narrow one: its box on the screen, and where the history begins and ends in it.
  function seen() {
    const chart = [...document.querySelectorAll(".fill-chart")].find(one => one.offsetParent);
    const { left, right, width } = day.axis[chart.classList.contains("narrow") ? "narrow" : "wide"], box = chart.querySelector("svg").getBoundingClientRect();
    return { box, by: box.width / width, left, span: (right - left) / day.axis.most };
  }
  function show(event) {
    const { by, left, span } = seen();
    cursor.style.left = `${(left + (spots[spot][0] - 0.5) * span) * by}px`;
    cursor.hidden = false;
    told.textContent = spots[spot][1].replaceAll("\n", " ");
    if (event) tipAt(event, spots[spot][1]);
  }
  stage.addEventListener("pointermove", event => {
    if (!spots.length) return;
    const { box, by, left, span } = seen(), place = ((event.clientX - box.left) / by - left) / span + 0.5;
    spot = spots.reduce((best, one, index) => (Math.abs(one[0] - place) < Math.abs(spots[best][0] - place) ? index : best), 0);
    show(event);
  });
  stage.addEventListener("pointerleave", hideTip);
  stage.addEventListener("keydown", event => {
    const step = { ArrowLeft: -1, ArrowRight: 1 }[event.key];
    if (!step || !spots.length) return;
    event.preventDefault();
    spot = Math.min(spots.length - 1, Math.max(0, spot + step));
    show();
  });
}

// Local books: of each bank and pair the levels `price lots` of both sides.
function levels(text) {
  const words = text ? text.split(" ") : [];
  return words.filter((_, place) => place % 2 === 0).map((word, place) => [word, words[2 * place + 1]]);
}
function books(index) {
  const shown = at("ladders"), empty = [], every = [];
  shown.replaceChildren();
  day.banks.forEach((bank, place) => {
    const [bids, asks] = day.books[place * day.pairs.length + index].split("|").map(levels);
    every.push([bank, ...(bids[0] ? [grouped(bids[0][1]), bids[0][0]] : ["", ""]), ...(asks[0] ? [asks[0][0], grouped(asks[0][1])] : ["", ""])]);
    if (state.ladder && state.ladder !== bank) return;
    if (bids.length + asks.length) ladder(shown, bank, bids, asks);
    else empty.push(bank);
  });
  at("no-book").textContent = empty.length ? `Nothing to trade with: ${empty.join(", ")}.` : "";
  rows(at("best-table"), ["Bank", "#Could sell, lots", "#at", "#Could buy at", "#lots"], every);
}
function ladder(parent, bank, bids, asks) {
  const card = put(parent, "div", undefined, "card"), table = put(card, "table", undefined, "ladder");
  put(table, "caption", bank);
  const most = Math.max(...[...bids, ...asks].map(level => Number(level[1])));
  const prices = [...new Set([...bids, ...asks].map(level => level[0]))].sort((a, b) => Number(b) - Number(a));
  const sides = [new Map(bids), new Map(asks)], bestBid = bids[0] && bids[0][0], bestAsk = asks[0] && asks[0][0];
  const head = put(put(table, "thead"), "tr");
  for (const name of ["could sell, lots", "price", "could buy, lots"]) put(head, "th", name).scope = "col";
  const body = put(table, "tbody");
  for (const one of prices) {
    const row = put(body, "tr", undefined, bestBid === one && asks.length && Number(bestAsk) > Number(bestBid) ? "gap" : "");
    const cell = (lots, side, best) => {
      const made = put(row, "td", lots ? grouped(lots) : "", lots ? side + (best ? " best" : "") : "");
      if (lots) made.style.setProperty("--part", `${Math.max(4, (100 * Number(lots)) / most)}%`);
    };
    cell(sides[0].get(one), "bid", one === bestBid);
    put(row, "th", one).scope = "row";
    cell(sides[1].get(one), "ask", one === bestAsk);
  }
}

// One bank's desk.
const replies = {
  ORDERED: ([filled, rests]) => `${few(filled, "lot")} filled, ${grouped(rests)} rest`,
  KILLED: () => "killed: it could not be filled whole",
  CANCELLED: ([left]) => `taken out with ${few(left, "lot")} left`,
  REDUCED: ([left]) => `lowered to ${few(left, "lot")}`,
  NOTLESS: ([left]) => `not lowered: it has ${few(left, "lot")} left`,
  NOTHING: () => "no such order rests",
  PULLED: ([count]) => `${few(count, "order")} taken out`,
  LIMIT: ([limit]) => `limit set to ${grouped(limit)}`,
  SHOWN: ([limit, used, line]) => `own limit ${grouped(limit)}, used ${grouped(used)}, left ${grouped(line)}`,
  BOOK: words => bookText(words),
  BAD: ([fault]) => `not read: ${day.faults[fault] || "fault " + fault}`,
};
function bookText(words) {
  const middle = words.indexOf("ASKS"), side = part => levels(part.join(" ")).map(([at, lots]) => `${grouped(lots)} at ${at}`).join(", ") || "nothing";
  return `could sell ${side(words.slice(2, middle))}; could buy ${side(words.slice(middle + 1))}`;
}
// A notice as its line tells it, with the command that it answers where the page has it.
function readNotice(line, sent) {
  const [number, kind, order, ...words] = line.split(" ");
  if (kind === "FILL") {
    const [side, pair, lots, at, other, base, quote] = words;
    return { number, kind, order, side, pair, lots, at, other, base, quote, line };
  }
  const command = sent.get(order) || "", parts = command.split(" ");
  const bank = parts[0] === "LINE" || parts[0] === "SHOW" ? parts[1] : "";
  const dropped = parts[4] === "IOC" && words[0] === "ORDERED" ? Number(parts[3]) - Number(words[1]) : 0;
  const told = replies[words[0]](words.slice(1)) + (dropped ? `, ${grouped(dropped)} dropped` : "");
  return { number, kind: words[0], order, pair: bank ? "" : parts[1] || "", other: bank, command, told, line };
}
let desk = [];
function showDesk() {
  const index = day.banks.indexOf(state.desk), found = day.desks[index];
  at("choose-desk").value = state.desk;
  document.querySelector('.chosen[data-of="desk"]').textContent = state.desk;
  at("desk-told").textContent = found.told;
  rows(at("desk-traded"), ["Pair", "#Bought, lots", "#at, average", "#Sold, lots", "#at, average", "#Net lots"], found.traded.map(row => row.map(grouped)));
  const mine = day.banks.map((bank, other) => [bank, other]).filter(([, other]) => other !== index).map(([bank, other]) => [bank, uses.get(`${index},${other}`)]);
  mine.sort((a, b) => share(b[1]) - share(a[1]) || Number(b[1].used) - Number(a[1].used));
  rows(at("desk-lines"), ["With", "#Own limit", "#Its limit", "#Used", "#Left", "#Share"], mine.map(([bank, use]) => [bank, grouped(use.limit), grouped(use.other), grouped(use.used), grouped(use.left), [use.share, `shade h${use.level}`]]));
  rows(at("desk-nets"), ["Currency", "#Net"], found.nets.map(([code, amount]) => [code, [grouped(amount), amount.startsWith("-") ? "owes" : ""]]));
  owed(found);
  const sent = new Map();
  (found.sent ? found.sent.split("\n") : []).forEach((command, place) => sent.set(String(found.firstSent + place), command));
  desk = found.notices ? found.notices.split("\n").map(line => readNotice(line, sent)) : [];
  notices();
}
// What a bank gets from each other bank, and owes it, by currency.
function owed(found) {
  const cells = Object.entries(found.gets).map(([other, told]) => {
    const lists = [[], []];
    for (let place = 0; place < told.length; place += 2) {
      const amount = String(told[place + 1]);
      lists[amount.startsWith("-") ? 1 : 0].push(`${grouped(amount.replace("-", ""))} ${day.currencies[told[place]]}`);
    }
    return [day.banks[other], [lists[0].join("; "), "list"], [lists[1].join("; "), "list owes"]];
  });
  rows(at("desk-gets"), ["With", "Gets", "Owes"], cells);
}
function notices() {
  const kind = at("filter-kind").value, pair = at("filter-pair").value, other = at("filter-with").value, text = at("filter-text").value.trim().toUpperCase();
  const chosen = desk.filter(one => (!kind || one.kind === kind) && (!pair || one.pair === pair) && (!other || one.other === other) && (!text || `${one.line} ${one.command || ""}`.toUpperCase().includes(text)));
  const whole = day.desks[day.banks.indexOf(state.desk)].count;
  at("notices-shown").textContent = `${grouped(chosen.length)} shown of ` + (desk.length < whole ? `the last ${grouped(desk.length)}; the desk has ${grouped(whole)} notices, and the page keeps no more of each` : `all ${few(whole, "notice")}`);
  const cells = chosen.map(one =>
    one.kind === "FILL"
      ? [one.number, "FILL", one.order, [one.side, one.side === "BUY" ? "buys" : "sells"], one.pair, grouped(one.lots), one.at, one.other, grouped(one.base), grouped(one.quote)]
      : [one.number, one.kind, one.order, [(one.command ? one.command + ": " : "") + one.told, "wide", 7]]
  );
  rows(at("notices"), ["#No.", "Kind", "#Own command", "Side", "Pair", "#Lots", "#Price", "With", "#Base", "#Quote"], cells);
}

// Which currency's nets are shown, where they are chosen.
function showNet() {
  const select = at("choose-net");
  if (!select) return;
  select.value = state.net;
  for (const card of document.querySelectorAll(".net-card")) card.hidden = state.net !== "" && card.dataset.currency !== state.net;
}

// What is chosen stands behind the page's # too, so that a link can open the page so.
const allowed = { pair: day.pairs.map(pair => pair.name), desk: day.banks, net: ["", ...day.currencies], ladder: ["", ...day.banks] };
function choose(wanted, keep) {
  for (const [key, value] of Object.entries(wanted)) if (allowed[key] && allowed[key].includes(value)) state[key] = value;
  if ("pair" in wanted || "ladder" in wanted) showPair();
  if ("desk" in wanted) showDesk();
  if ("net" in wanted) showNet();
  at("choose-ladder").value = state.ladder;
  if (!keep) remember();
}
function remember() {
  const filters = ["kind", "pair", "with"].map(key => [key === "pair" ? "of" : key, at(`filter-${key}`).value]).filter(filter => filter[1]);
  history.replaceState(null, "", "#" + new URLSearchParams({ ...state, ...Object.fromEntries(filters) }));
}
function fromLink() {
  const asked = Object.fromEntries(new URLSearchParams(location.hash.includes("=") ? location.hash.slice(1) : ""));
  choose({ ...state, ...asked }, true);
  for (const [key, filter] of [["kind", "kind"], ["of", "pair"], ["with", "with"]]) {
    const select = at(`filter-${filter}`);
    if ([...select.options].some(option => option.value === asked[key])) select.value = asked[key];
  }
  notices();
}
function start() {
  state.net = day.currencies.length > day.cards ? day.common : "";
  const shown = day.pairs.findIndex(pair => pair.name === state.pair), step = day.pairs.length;
  state.ladder = day.banks.length > 8 ? day.banks.find((_, place) => day.books[place * step + shown] !== "|") || day.banks[0] : "";
  choices(at("choose-pair"), allowed.pair);
  for (const id of ["choose-desk", "use-bank", "filter-with"]) choices(at(id), day.banks);
  put(at("choose-ladder"), "option", "all banks").value = "";
  choices(at("choose-ladder"), day.banks);
  choices(at("filter-kind"), ["FILL", ...Object.keys(replies)]);
  choices(at("filter-pair"), allowed.pair);
  if (at("choose-net")) choices(at("choose-net"), day.currencies);
  for (const [id, key] of [["choose-pair", "pair"], ["choose-desk", "desk"], ["choose-ladder", "ladder"], ["choose-net", "net"]]) {
    if (at(id)) at(id).addEventListener("change", event => choose({ [key]: event.target.value }));
  }
  for (const id of ["filter-kind", "filter-pair", "filter-with", "filter-text"]) {
    at(id).addEventListener("input", () => {
      notices();
      remember();
    });
  }
  at("filter-clear").addEventListener("click", () => {
    for (const id of ["filter-kind", "filter-pair", "filter-with", "filter-text"]) at(id).value = "";
    notices();
    remember();
  });
  for (const id of ["use-bank", "use-share"]) at(id).addEventListener("input", filterUses);
  for (const table of document.querySelectorAll("table.sorts")) {
    named(table);
    sortable(table);
  }
  day.banks.forEach((bank, place) => (put(at("choose-row"), "option", bank).value = place));
  at("choose-row").value = day.nearest[0];
  at("choose-row").addEventListener("change", showRow);
  showRow();
  heatMap();
  fillChart();
  filterUses();
  fromLink();
  addEventListener("hashchange", () => location.hash.includes("=") && fromLink());
  document.documentElement.dataset.ready = "yes";
}
start();
