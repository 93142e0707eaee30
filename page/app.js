// Begins the page: the module, the two views, what the address shares, and files that are dropped.
"use strict";

const VIEWS = ["inspector", "player"];

function showTab(wanted) {
  for (const view of VIEWS) {
    byId(view).hidden = view !== wanted;
    byId(`tab-${view}`).setAttribute("aria-selected", String(view === wanted));
  }
}

// Opens what the fragment of the address shares: bytes, or a step of a run.
function openFragment(inspector, player) {
  const asked = new URLSearchParams(location.hash.slice(1));
  if (asked.has("bytes")) {
    inspector?.openShared(asked.get("bytes"));
    showTab("inspector");
  }
  const run = player.runs.findIndex(({ name }) => name === asked.get("run"));
  if (run >= 0) {
    player.open(run, Math.trunc(Number(asked.get("step"))) || 0);
    showTab("player");
  }
}

function takeDrops(inspector) {
  const over = (event, dropping) => {
    if (!event.dataTransfer.types.includes("Files")) return;
    event.preventDefault();
    document.body.classList.toggle("dropping", dropping);
  };
  document.addEventListener("dragover", (event) => over(event, true));
  document.addEventListener("dragleave", (event) => over(event, false));
  document.addEventListener("drop", (event) => {
    over(event, false);
    if (event.dataTransfer.files.length === 0) return;
    showTab("inspector");
    inspector?.readFile(event.dataTransfer.files[0]);
  });
}

// Returns the inspector, or nothing where this browser can't run its module: the player needs none.
async function loadInspector() {
  let proved;
  try {
    proved = await Proved.load(byId("module").textContent.trim());
  } catch (problem) {
    byId("verdict").className = "verdict faulty";
    byId("verdict").textContent = `This browser can't run the page's module, which is WebAssembly with 64 bits of memory: ${problem.message}`;
    return undefined;
  }
  return new Inspector(proved);
}

async function begin() {
  const player = new Player(JSON.parse(byId("runs").textContent));
  for (const view of VIEWS) byId(`tab-${view}`).addEventListener("click", () => showTab(view));
  byId("theme").addEventListener("click", turnTheme);
  document.addEventListener("keydown", (event) => byId("player").hidden || player.press(event));
  const inspector = await loadInspector();
  takeDrops(inspector);
  openFragment(inspector, player);
  addEventListener("hashchange", () => openFragment(inspector, player));
  if (inspector) document.body.dataset.ready = "yes";
}

begin();
