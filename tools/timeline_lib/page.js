"use strict";
const data = JSON.parse(document.getElementById("data").textContent);
const [LEFT, RIGHT, WHO, JOBS, LAUNCHES, TARGET, TEXT] = [0, 1, 2, 3, 4, 5, 6];
const SCALES = [0.25, 0.35, 0.5, 0.7, 1, 1.4, 2, 2.8, 4];
const find = (id) => document.getElementById(id);
const [room, wide, view, marks, names] = ["room", "wide", "view", "marks", "names"].map(find);
const state = { scale: 1, mask: (1 << data.members) - 1, jobs: data.asked, launch: null, drawn: "" };

// The marks by stretches of the picture, so that those in view are found at once.
const STRETCH = 1024;
const stretches = [];
data.marks.forEach((mark, number) => {
  const last = Math.floor(mark[RIGHT] / STRETCH);
  for (let place = Math.max(0, Math.floor(mark[LEFT] / STRETCH)); place <= last; place += 1) {
    (stretches[place] = stretches[place] || []).push(number);
  }
});

function isShown(mark) {
  const isFree = state.jobs.length === 0 || mark[JOBS] === null;
  const isOfJobs = isFree || mark[JOBS].some((job) => state.jobs.includes(job));
  return isOfJobs && (mark[WHO] === 0 || (mark[WHO] & state.mask) !== 0);
}

// The numbers of the marks of some stretches, from the layer behind the others on.
function marksIn(from, to) {
  const found = new Set();
  for (let place = from; place <= to; place += 1) {
    for (const number of stretches[place] || []) {
      if (isShown(data.marks[number])) found.add(number);
    }
  }
  return [...found].sort((one, other) => one - other);
}

function markText(number) {
  const mark = data.marks[number];
  const isOn = state.launch !== null && mark[LAUNCHES].includes(state.launch);
  const fades = state.launch !== null && !isOn && mark[WHO] !== 0;
  const isTarget = mark[TARGET] !== null;
  const classes = { on: isOn, dim: fades, for: mark[LAUNCHES].length > 0, target: isTarget };
  const names = Object.keys(classes).filter((name) => classes[name]).join(" ");
  const label = isTarget ? ` tabindex="0" role="button" aria-label="${titleOf(mark[TEXT])}"` : "";
  return `<g data-mark="${number}" class="${names}"${label}>${mark[TEXT]}</g>`;
}

function titleOf(text) {
  const found = /<title>([^<]*)<\/title>/.exec(text);
  return found ? found[1].replace(/"/g, "&quot;") : "";
}

// What is in view moves with each scroll; marks are drawn anew only where another stretch comes into view.
function draw() {
  const left = room.scrollLeft / state.scale;
  const across = room.clientWidth / state.scale;
  view.setAttribute("width", room.clientWidth);
  view.setAttribute("height", data.height * state.scale);
  view.setAttribute("viewBox", `${left} 0 ${across} ${data.height}`);
  names.setAttribute("transform", `translate(${left} 0)`);
  const from = Math.floor(left / STRETCH);
  const to = Math.floor((left + across) / STRETCH);
  const drawn = JSON.stringify([from, to, state.mask, state.jobs, state.launch]);
  if (drawn === state.drawn) return;
  const held = document.activeElement && document.activeElement.dataset.mark;
  marks.innerHTML = marksIn(from, to).map(markText).join("");
  state.drawn = drawn;
  const again = held && marks.querySelector(`[data-mark="${held}"]`);
  if (again) again.focus({ preventScroll: true });
}

let waits = false;
function drawSoon() {
  if (waits) return;
  waits = true;
  requestAnimationFrame(() => {
    waits = false;
    draw();
    tellTurn();
  });
}

// The turn in the middle of what is in view, unless another one is being asked for.
function tellTurn() {
  if (document.activeElement === find("turn")) return;
  const turn = Math.floor(data.first + (middle() - data.left) / data.column);
  find("turn").value = Math.min(data.until - 1, Math.max(data.first, turn));
}

function placeOf(turn) {
  return data.left + (turn - data.first + 0.5) * data.column;
}

function middle() {
  return (room.scrollLeft + room.clientWidth / 2) / state.scale;
}

function showMiddle(place) {
  wide.style.width = `${data.width * state.scale}px`;
  room.scrollLeft = place * state.scale - room.clientWidth / 2;
  draw();
  tellTurn();
}

function zoom(steps) {
  const place = middle();
  const next = SCALES.indexOf(state.scale) + steps;
  state.scale = SCALES[Math.min(SCALES.length - 1, Math.max(0, next))];
  showMiddle(place);
}

// The way of a launch.
function choose(launch) {
  state.launch = launch;
  find("launch").value = launch === null ? "" : String(launch);
  find("way").querySelector("h2").textContent = launch === null ? "No launch is chosen" : data.launches[launch];
  find("way").querySelector("ol").replaceChildren(...(launch === null ? [] : data.ways[launch]).map(eventOf));
  draw();
}

function eventOf([turn, text]) {
  const item = document.createElement("li");
  const button = document.createElement("button");
  button.type = "button";
  button.textContent = `turn ${turn}`;
  button.disabled = turn < data.first || turn >= data.until;
  button.addEventListener("click", () => showMiddle(placeOf(turn)));
  item.append(button, text);
  return item;
}

function chooseMark(event) {
  const element = event.target.closest("[data-mark]");
  const mark = element && data.marks[Number(element.dataset.mark)];
  if (!mark) return;
  const launch = mark[TARGET] === null ? mark[LAUNCHES][0] : mark[TARGET];
  if (launch !== undefined) choose(launch);
}

function addOption(select, value, text) {
  const option = document.createElement("option");
  option.value = value;
  option.textContent = text;
  select.append(option);
}

function addReplica(who) {
  const label = document.createElement("label");
  const box = document.createElement("input");
  box.type = "checkbox";
  box.checked = true;
  box.addEventListener("change", () => {
    state.mask ^= 1 << who;
    draw();
  });
  label.append(box, ` ${who}`);
  find("replicas").append(label);
}

function prepare() {
  for (let who = 0; who < data.members; who += 1) addReplica(who);
  data.jobs.forEach((name, job) => addOption(find("job"), job, name));
  data.launches.forEach((name, launch) => data.ways[launch].length && addOption(find("launch"), launch, name));
  if (data.asked.length > 1) addOption(find("job"), "asked", "those asked for");
  find("job").value = data.asked.length > 1 ? "asked" : String(data.asked.length ? data.asked[0] : "");
  Object.assign(find("turn"), { min: data.first, max: data.until - 1, value: data.first });
  const paper = names.querySelector("rect");
  paper.setAttribute("width", data.left - 14);
  paper.setAttribute("height", data.height);
}

function listen() {
  find("in").addEventListener("click", () => zoom(1));
  find("out").addEventListener("click", () => zoom(-1));
  find("controls").addEventListener("submit", (event) => event.preventDefault());
  find("turn").addEventListener("change", (event) => showMiddle(placeOf(Number(event.target.value))));
  find("job").addEventListener("change", ({ target: { value } }) => {
    state.jobs = value === "asked" ? data.asked : value === "" ? [] : [Number(value)];
    draw();
  });
  find("launch").addEventListener("change", ({ target: { value } }) => {
    choose(value === "" ? null : Number(value));
    if (state.launch !== null) showMiddle(placeOf(data.ways[state.launch][0][0]));
  });
  room.addEventListener("scroll", drawSoon);
  window.addEventListener("resize", drawSoon);
  view.addEventListener("click", chooseMark);
  view.addEventListener("keydown", (event) => {
    if (event.key !== "Enter" && event.key !== " ") return;
    event.preventDefault();
    chooseMark(event);
  });
  room.addEventListener("wheel", (event) => {
    if (!event.ctrlKey) return;
    event.preventDefault();
    zoom(event.deltaY < 0 ? 1 : -1);
  }, { passive: false });
}

prepare();
listen();
if (data.chosen === null) {
  showMiddle(0);
} else {
  find("launch").value = String(data.chosen);
  choose(data.chosen);
  showMiddle(placeOf(data.ways[data.chosen][0][0]));
}
