// The messages of the page, and the exchanges that they make.

const ROWS_OF_MORE = new Set(["DataRow", "CopyData"]);

function isError(line) {
  return line.kind === "ErrorResponse";
}

function isNotice(line) {
  return line.kind === "NoticeResponse";
}

// The value of a field as a text that can be shown: of Base64 what is written, and of a list all parts.
function shown(value) {
  if (value === null) return "NULL";
  if (Array.isArray(value)) return value.map(shown).join(", ");
  return typeof value === "object" ? `base64:${value.base64}` : String(value);
}

// What a row shows of a message.
function summary(line) {
  if (line.long) return `${line.long} bytes of JSON, which are left out here`;
  if (line.fields) return ["severity", "code", "message"].map((name) => line.fields[name]).filter(Boolean).map(shown).join(" ");
  if (line.query !== undefined) return shown(line.query);
  if (line.columns) return shown(line.columns.map((it) => (it.name === undefined ? it : it.name)));
  if (line.values) return shown(line.values);
  if (line.settings) return line.settings.map((it) => `${shown(it.name)}=${shown(it.value)}`).join(" ");
  const rest = Object.entries(line).filter(([name]) => !PLACE.has(name));
  return rest.map(([, value]) => shown(value)).join(" ");
}

const PLACE = new Set(["connection", "time", "side", "kind", "exchange", "apart", "here"]);

// The exchanges, each with its first message, its duration, and what was asked.
function exchangesOf(lines) {
  const all = new Map();
  const statements = new Map();
  lines.forEach((line, at) => {
    if (line.kind === "Parse") statements.set(`${line.connection} ${shown(line.statement)}`, shown(line.query));
    if (line.exchange === undefined) return;
    const key = `${line.connection} ${line.exchange}`;
    let it = all.get(key);
    if (!it) all.set(key, (it = { connection: line.connection, exchange: line.exchange, first: at, start: line.time, end: line.time, rows: 0, text: "", level: "" }));
    if (line.side === "server") it.end = line.time;
    if (ROWS_OF_MORE.has(line.kind)) it.rows += 1;
    if (isError(line)) it.level = "error";
    else if (isNotice(line) && !it.level) it.level = "notice";
    if (!it.text) it.text = asked(line, statements);
  });
  return [...all.values()].sort((a, b) => b.end - b.start - (a.end - a.start));
}

// What a message asks for, where it does.
function asked(line, statements) {
  if (line.kind === "Query" || line.kind === "Parse") return summary(line);
  if (line.kind === "Bind") return statements.get(`${line.connection} ${shown(line.statement)}`) || shown(line.statement);
  return line.kind === "StartupMessage" ? "login" : "";
}

// Microseconds as a text.
function duration(micros) {
  if (micros < 1000) return `${micros} µs`;
  return micros < 1e6 ? `${(micros / 1e3).toFixed(2)} ms` : `${(micros / 1e6).toFixed(3)} s`;
}
