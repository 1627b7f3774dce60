// Connections as lanes over time, with a bar for each exchange.

const LANE = 12;
const LABEL = 40;
// A canvas has no more lanes than this.
const MOST_LANES = 1000;

class Lanes {
  constructor(canvas, exchanges, choose) {
    Object.assign(this, { canvas, exchanges, choose });
    this.numbers = [...new Set(exchanges.map((it) => it.connection))].sort((a, b) => a - b).slice(0, MOST_LANES);
    this.lane = new Map(this.numbers.map((number, at) => [number, at]));
    this.end = exchanges.reduce((most, it) => Math.max(most, it.end), 1);
    canvas.addEventListener("click", (event) => this.click(event));
    new ResizeObserver(() => this.draw()).observe(canvas.parentElement);
  }

  x(time) {
    return LABEL + (time / this.end) * (this.width - LABEL - 4);
  }

  draw() {
    const scale = window.devicePixelRatio || 1;
    const style = getComputedStyle(document.documentElement);
    const color = (name) => style.getPropertyValue(`--${name}`);
    this.width = this.canvas.parentElement.clientWidth;
    const height = this.numbers.length * LANE + 4;
    this.canvas.style.height = `${height}px`;
    this.canvas.width = this.width * scale;
    this.canvas.height = height * scale;
    const pen = this.canvas.getContext("2d");
    pen.scale(scale, scale);
    pen.font = "10px monospace";
    pen.fillStyle = color("faint");
    this.numbers.forEach((number, at) => pen.fillText(String(number), 4, at * LANE + 10));
    for (const level of ["", "notice", "error"]) {
      pen.fillStyle = color(level || "bar");
      for (const it of this.exchanges.filter((it) => it.level === level && this.lane.has(it.connection))) {
        const from = this.x(it.start);
        pen.fillRect(from, this.lane.get(it.connection) * LANE + 2, Math.max(2, this.x(it.end) - from), LANE - 4);
      }
    }
  }

  // Chooses the exchange that is nearest to where the lane was clicked.
  click(event) {
    const number = this.numbers[Math.floor(event.offsetY / LANE)];
    const far = (it) => Math.max(this.x(it.start) - event.offsetX, event.offsetX - this.x(it.end), 0);
    const near = this.exchanges.filter((it) => it.connection === number).sort((a, b) => far(a) - far(b))[0];
    if (near) this.choose(near);
  }
}
