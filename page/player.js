// Shows a run of `play`, step by step. All that it shows was written by the program when the page was made.
"use strict";

const STATE_WORDS = {
  done: "done: it holds all answers of its entry",
  sent: "sent: it is unacknowledged and holds none",
  pending: "pending: its last answer hasn't come",
  lost: "lost: its client was told the end first",
};
const MARKS = { done: "●", sent: "▼", pending: "○", lost: "⊗" };
const PACE = 900; // milliseconds of a step that is played

const isBad = (written) => /^(refused|closed|fault)/.test(written) || written.includes(" closed ");

// Returns digits that are too long for a line, shortened.
const shortened = (text) => text.replace(/\b([0-9a-f]{12})[0-9a-f]{13,}\b/gi, "$1…");

class Player {
  constructor(runs) {
    this.runs = runs;
    this.timer = undefined;
    byId("run-pick").append(...runs.map(({ name }, index) => make("option", { value: index }, name)));
    byId("run-pick").addEventListener("change", (event) => this.open(Number(event.target.value)));
    byId("run-step").addEventListener("input", (event) => this.show(Number(event.target.value)));
    const buttons = {
      first: () => this.show(0),
      back: () => this.show(this.step - 1),
      forward: () => this.show(this.step + 1),
      last: () => this.show(Infinity),
      play: () => this.turn(),
    };
    for (const [name, press] of Object.entries(buttons)) byId(`run-${name}`).addEventListener("click", press);
    this.buttons = buttons;
    document.querySelector(".facts").addEventListener("pointerover", ({ target }) => this.markLinked(target));
    this.open(0);
  }

  // Opens a run at its first step.
  open(index, step = 0) {
    this.stop();
    this.run = this.runs[index];
    byId("run-pick").value = index;
    byId("run-step").max = this.run.steps.length - 1;
    this.drawScript();
    byId("run-lanes").innerHTML = this.run.svg;
    this.show(step);
  }

  // Shows the world after a step.
  show(wanted) {
    const last = this.run.steps.length - 1;
    this.step = Math.min(Math.max(wanted, 0), last);
    const state = this.run.steps[this.step];
    byId("run-step").value = this.step;
    byId("run-count").textContent = `${this.step + 1} of ${last + 1}`;
    for (const name of ["first", "back"]) byId(`run-${name}`).disabled = this.step === 0;
    for (const name of ["forward", "last"]) byId(`run-${name}`).disabled = this.step === last;
    if (this.step === last) this.stop();
    this.showLine(state);
    this.showLanes(state);
    this.showCalls(state);
    this.showEntries(state);
    this.showWays(state);
    this.showHeadline(state);
  }

  // Plays the steps one after another, or stops.
  turn() {
    if (this.timer) {
      this.stop();
      return;
    }
    if (this.step === this.run.steps.length - 1) this.show(0);
    this.timer = setInterval(() => this.show(this.step + 1), PACE);
    this.markPlaying(true);
  }

  stop() {
    clearInterval(this.timer);
    this.timer = undefined;
    this.markPlaying(false);
  }

  markPlaying(playing) {
    const button = byId("run-play");
    button.setAttribute("aria-pressed", playing);
    button.setAttribute("aria-label", playing ? "Stop" : "Play");
  }

  // Moves by a key, unless it is one for the field or the button that has the focus.
  press(event) {
    const { key, target } = event;
    const keys = { ArrowLeft: "back", ArrowRight: "forward", Home: "first", End: "last", " ": "play" };
    const taken = target.closest("input, select, textarea") || (key === " " && target.closest("button"));
    if (!(key in keys) || taken || hasModifier(event)) return;
    event.preventDefault();
    this.buttons[keys[key]]();
  }

  // Marks a call and its entry while one of them is pointed at.
  markLinked(target) {
    const link = target.closest("[data-link]")?.dataset.link;
    for (const line of document.querySelectorAll(".facts li")) line.classList.toggle("linked", link !== undefined && line.dataset.link === link);
  }

  drawScript() {
    const steps = new Map(this.run.steps.map(({ row }, step) => [row, step]));
    const lines = this.run.rows.map((row, index) => this.scriptLine(row, index, steps.get(index)));
    byId("run-script").style.paddingTop = `${this.run.top}px`;
    byId("run-script").replaceChildren(...lines);
    this.lines = lines;
  }

  scriptLine({ number, text, written }, index, step) {
    const parts = [make("span", { class: "number" }, String(number)), make("code", { class: "event", title: text }, shortened(text))];
    if (written === null) return make("li", { class: "comment", style: `height:${this.run.row}px` }, ...parts);
    const answer = make("code", { class: isBad(written) ? "written bad" : "written", title: written }, shortened(written));
    return make("li", { style: `height:${this.run.row}px`, on: { click: () => this.show(step) } }, ...parts, answer);
  }

  showLine({ row }) {
    this.lines.forEach((line, index) => {
      line.classList.toggle("reached", index <= row);
      if (index === row) line.setAttribute("aria-current", "step");
      else line.removeAttribute("aria-current");
    });
    const { text, written } = this.run.rows[row];
    const comment = this.run.rows[row - 1]?.written === null ? this.run.rows[row - 1].text.replace(/^#\s*/, "") : "";
    byId("run-now").replaceChildren(
      make("code", { title: text }, shortened(text)), " → ",
      make("code", { class: isBad(written) ? "bad" : "", title: written }, shortened(written)),
      ...(comment ? [make("span", { class: "comment" }, comment)] : []));
  }

  showLanes({ row, calls }) {
    const lanes = byId("run-lanes");
    const { top, row: height, name } = this.run;
    lanes.setAttribute("aria-label", `The connections of ${name} after step ${this.step + 1}`);
    lanes.querySelector("#reached rect").setAttribute("height", top + (row + 1) * height);
    for (const group of lanes.querySelectorAll("[data-row]")) {
      group.toggleAttribute("hidden", Number(group.dataset.row) > row);
      group.classList.toggle("current", Number(group.dataset.row) === row);
    }
    this.revealLane(lanes, lanes.querySelector(".current"));
    for (const mark of lanes.querySelectorAll("[data-call]")) {
      const state = calls[mark.dataset.call]?.state ?? "untold";
      mark.toggleAttribute("hidden", mark.dataset.state !== state);
    }
  }

  // Scrolls the lanes to what a step drew, where they are wider than the page.
  revealLane(lanes, drawn) {
    const { x, width } = drawn.getBBox();
    if (width === 0) return;
    if (x < lanes.scrollLeft) lanes.scrollLeft = x - 12;
    else if (x + width > lanes.scrollLeft + lanes.clientWidth) lanes.scrollLeft = x + width + 12 - lanes.clientWidth;
  }

  // Returns the entry of a call that is done at this step, or undefined.
  linked(call, state) {
    return call.state === "done" ? state.entries[this.run.links[state.calls.indexOf(call)]] : undefined;
  }

  showCalls(state) {
    byId("run-calls").replaceChildren(...state.calls.map((call, k) => {
      const entry = this.run.links[k];
      const words = `call ${k} · connection ${call.connection} · ${call.kind}`;
      const link = this.linked(call, state) ? [make("span", { class: "link" }, ` ⟷ entry ${entry}`)] : [];
      const parts = call.parts.length ? ` · ${call.parts.length} ${call.parts.length === 1 ? "part" : "parts"}` : "";
      return make("li", { class: call.state, "data-link": link.length ? entry : undefined, title: STATE_WORDS[call.state] },
        make("b", { "aria-hidden": "true" }, MARKS[call.state]), ` ${words} · `, make("strong", {}, call.state), parts, ...link);
    }), ...(state.calls.length ? [] : [make("li", { class: "none" }, "none yet")]));
  }

  showEntries(state) {
    byId("run-entries").replaceChildren(...state.entries.map(({ connection, outcome, body }, e) => {
      const call = this.run.links.indexOf(e);
      const link = call >= 0 && state.calls[call]?.state === "done" ? [make("span", { class: "link" }, ` ⟷ call ${call}`)] : [];
      return make("li", { "data-link": link.length ? e : undefined, title: body },
        make("b", { "aria-hidden": "true" }, "■"), ` entry ${e} · connection ${connection} · ${outcome} · `,
        make("code", {}, shortened(body)), ...link);
    }), ...(state.entries.length ? [] : [make("li", { class: "none" }, "empty")]));
  }

  showWays({ ways }) {
    byId("run-ways").tBodies[0].replaceChildren(...ways.map(({ connection, raw, up, waiting, down }) => make("tr", {},
      make("th", { scope: "row" }, raw ? `${connection}, raw` : String(connection)),
      ...[raw ? "" : up, waiting, down].map((count) => make("td", { class: count ? "some" : "" }, String(count))))));
  }

  showHeadline(state) {
    const done = state.calls.filter(({ state: fate }) => fate === "done");
    const withEntry = done.filter((call) => this.linked(call, state));
    const [have, own] = done.length === 1 ? ["call has", "its own"] : ["calls have", "their own"];
    byId("run-headline").textContent = done.length === 0
      ? "No call is done yet."
      : `${withEntry.length} of ${done.length} done ${have} an entry of ${own}, with the same connection and payload.`;
  }
}
