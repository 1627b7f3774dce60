// The page: what is chosen, searched and filtered, also by the keyboard, and by what follows # in the address.

const find = (id) => document.getElementById(id);
const begun = performance.now();
const lines = JSON.parse(find("data").textContent);
const exchanges = exchangesOf(lines);
let isOfExchanges = false;

function drawMessage(line) {
  const level = isError(line) ? "error" : isNotice(line) ? "notice" : "";
  const arrow = { client: "→", server: "←" }[line.side] || "";
  const cells = [["time", duration(line.time)], ["who", `${line.connection} ${arrow}`], ["kind", line.kind], ["text", summary(line)]];
  return rowOf(`${line.side || ""} ${level}`, cells);
}

function drawExchange(it) {
  const cells = [["time", duration(it.end - it.start)], ["who", `${it.connection}.${it.exchange}`], ["kind", `${it.rows} rows`], ["text", it.text]];
  return rowOf(it.level, cells);
}

const list = new List(
  find("list"),
  find("room"),
  (row) => (isOfExchanges ? drawExchange(row) : drawMessage(row)),
  (row) => (find("detail").textContent = row ? JSON.stringify(row, null, 2) : "Nothing is found."),
);

// The messages or exchanges that the filters leave.
function wanted() {
  const [search, kind, connection] = ["search", "kind", "connection"].map((id) => find(id).value);
  const words = search.toLowerCase();
  const isWanted = (it) =>
    (!connection || it.connection === Number(connection)) &&
    (isOfExchanges || !kind || it.kind === kind) &&
    (!words || JSON.stringify(it).toLowerCase().includes(words));
  return (isOfExchanges ? exchanges : lines).filter(isWanted);
}

function show(chosen) {
  const rows = wanted();
  find("tab").textContent = isOfExchanges ? "Messages" : "Slowest exchanges";
  find("counts").textContent = `${rows.length} of ${lines.length} messages, ${exchanges.length} exchanges`;
  if (isOfExchanges) find("counts").textContent = `${rows.length} of ${exchanges.length} exchanges`;
  list.set(rows, Math.max(0, rows.indexOf(chosen)));
}

function change() {
  isOfExchanges = !isOfExchanges;
  show();
}

// Shows all messages, and chooses the first one of an exchange.
function enter(exchange) {
  isOfExchanges = false;
  for (const id of ["search", "kind", "connection"]) find(id).value = "";
  show(lines[exchange.first]);
  find("list").focus();
}

const lanes = new Lanes(document.querySelector("#lanes canvas"), exchanges, enter);

function nextFault() {
  const isOne = (it) => (isOfExchanges ? it.level : isError(it) || isNotice(it));
  const after = list.rows.findIndex((it, at) => at > list.at && isOne(it));
  const at = after < 0 ? list.rows.findIndex(isOne) : after;
  if (at >= 0) list.go(at);
}

function changeTheme() {
  const root = document.documentElement;
  root.dataset.theme = root.dataset.theme === "dark" ? "light" : "dark";
  lanes.draw();
}

function clear() {
  const chosen = list.rows[list.at];
  for (const id of ["search", "kind", "connection"]) find(id).value = "";
  show(chosen);
  find("list").focus();
}

const page = () => Math.max(1, Math.floor(find("list").clientHeight / ROW) - 1);
const KEYS = {
  j: () => list.go(list.at + 1), ArrowDown: () => list.go(list.at + 1),
  k: () => list.go(list.at - 1), ArrowUp: () => list.go(list.at - 1),
  PageDown: () => list.go(list.at + page()), PageUp: () => list.go(list.at - page()),
  Home: () => list.go(0), End: () => list.go(list.rows.length - 1),
  Enter: () => isOfExchanges && list.rows.length && enter(list.rows[list.at]),
  "/": () => find("search").focus(), e: nextFault, x: change, t: changeTheme, Escape: clear,
};

document.addEventListener("keydown", (event) => {
  const isTyping = event.target.matches("input, select, button") && event.key !== "Escape";
  if (isTyping || event.ctrlKey || event.metaKey || event.altKey || !KEYS[event.key]) return;
  event.preventDefault();
  KEYS[event.key]();
});

function fill(select, values) {
  for (const value of values) select.append(new Option(value, value));
}

function begin() {
  const asked = new URLSearchParams(location.hash.slice(1));
  const isDark = matchMedia("(prefers-color-scheme: dark)").matches;
  document.documentElement.dataset.theme = asked.get("theme") || (isDark ? "dark" : "light");
  fill(find("kind"), [...new Set(lines.map((it) => it.kind))].sort());
  fill(find("connection"), [...new Set(lines.map((it) => it.connection))].sort((a, b) => a - b));
  for (const id of ["search", "kind", "connection"]) find(id).value = asked.get(id) || "";
  isOfExchanges = asked.has("slowest");
  let wait;
  find("search").addEventListener("input", () => { clearTimeout(wait); wait = setTimeout(show, 150); });
  for (const id of ["kind", "connection"]) find(id).addEventListener("change", () => show());
  for (const [id, act] of [["tab", change], ["faults", nextFault], ["theme", changeTheme]]) find(id).addEventListener("click", act);
  show();
  find("list").focus();
  document.body.dataset.opened = Math.round(performance.now() - begun);
  document.body.dataset.messages = lines.length;
}

begin();
