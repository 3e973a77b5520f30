// What runs, how long and how far; a button and Escape stop it. What ends within a moment isn't shown.

const MOMENT = 300, EACH = 200;         // milliseconds

class Progress {
  constructor(stop) {
    this.running = 0;
    byId("stop").onclick = stop;
    addEventListener("keydown", event => {
      if (event.key !== "Escape" || byId("progress").hidden) return;
      event.stopImmediatePropagation();
      stop();
    }, true);
  }

  // Does what may take long. `what` is its name; how much memory it has is told by `tell`.
  async during(what, act) {
    const begin = performance.now(), draw = () => this.draw(what, performance.now() - begin);
    this.memory = 0;
    this.running++;
    const timer = setInterval(draw, EACH);
    try {
      return await act();
    } finally {
      clearInterval(timer);
      if (!--this.running) byId("progress").hidden = true;
    }
  }

  tell(memory) { this.memory = memory; }

  draw(what, passed) {
    if (passed < MOMENT) return;
    const memory = this.memory ? `, ${Math.round(this.memory / 2 ** 20)} MB of memory` : "";
    byId("progress-text").textContent = `${what}: ${(passed / 1000).toFixed(1)} s${memory}`;
    byId("progress").hidden = false;
  }
}
