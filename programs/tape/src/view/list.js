// A list of which only the rows that are seen are drawn.

const ROW = 22;
// A browser has no taller elements: beyond, the list is scrolled by parts.
const TALLEST = 8e6;

class List {
  constructor(element, room, draw, choose) {
    Object.assign(this, { element, room, draw, choose, rows: [], at: 0 });
    element.addEventListener("scroll", () => this.show());
    element.addEventListener("click", (event) => {
      const row = event.target.closest(".row");
      if (row) this.go(Number(row.dataset.at));
    });
    new ResizeObserver(() => this.show()).observe(element);
  }

  // Shows other rows, with one of them chosen.
  set(rows, at = 0) {
    this.rows = rows;
    this.room.style.height = `${Math.min(rows.length * ROW, TALLEST)}px`;
    this.go(at);
  }

  // How many rows a pixel of scrolling passes over.
  scale() {
    const seen = this.element.clientHeight;
    const most = Math.max(1, Math.min(this.rows.length * ROW, TALLEST) - seen);
    return Math.max(0, this.rows.length - seen / ROW) / most;
  }

  go(at) {
    this.at = Math.max(0, Math.min(at, this.rows.length - 1));
    const first = this.element.scrollTop * this.scale();
    const fit = Math.max(1, Math.floor(this.element.clientHeight / ROW) - 1);
    if (this.at < first) this.element.scrollTop = this.at / (this.scale() || 1);
    if (this.at >= first + fit) this.element.scrollTop = (this.at - fit + 1) / (this.scale() || 1);
    this.show();
    this.choose(this.rows[this.at]);
  }

  show() {
    const top = this.element.scrollTop;
    const first = Math.max(0, Math.floor(top * this.scale()));
    const count = Math.ceil((this.element.clientHeight || 600) / ROW) + 1;
    const rows = this.rows.slice(first, first + count).map((row, at) => {
      const element = this.draw(row);
      element.classList.toggle("chosen", first + at === this.at);
      element.dataset.at = first + at;
      element.style.top = `${top + at * ROW}px`;
      element.setAttribute("role", "option");
      return element;
    });
    this.room.replaceChildren(...rows);
  }
}

// A row of cells: pairs of a class and a text.
function rowOf(classes, cells) {
  const row = document.createElement("div");
  row.className = `row ${classes}`;
  for (const [name, text] of cells) {
    const cell = document.createElement("span");
    cell.className = name;
    cell.textContent = text;
    row.append(cell);
  }
  return row;
}
