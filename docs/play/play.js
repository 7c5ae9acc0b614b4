"use strict";
// The page of bits. What a bit is, what an order says and what a command does come from the library: `bitdo` runs lines on a memory.

const wasm = new WebAssembly.Instance(new WebAssembly.Module(Uint8Array.from(atob(WASM), it => it.charCodeAt(0)))).exports;
const at = id => document.getElementById(id);
const ORDERS = ["lsb0", "msb0"];
const FORM = {8: 2, 16: 4, 32: 8, 64: 16};

/** What `bitdo` prints for its words and lines. */
function bitdo(words, lines) {
  const text = new TextEncoder().encode([words.join(" "), ...lines].join("\n")), place = wasm.room(text.length);
  // a call may grow the memory, and then it is another buffer
  new Uint8Array(wasm.memory.buffer, place, text.length).set(text);
  const length = wasm.run();
  return new TextDecoder().decode(new Uint8Array(wasm.memory.buffer, wasm.reply(), length));
}

/** The replies of lines run on a view, and its memory afterwards; or why there was no run. */
function run(view, lines, order = view.order) {
  const printed = bitdo([view.width, order, view.memory, "-", view.start, view.len], lines).trimEnd().split("\n");
  const last = printed.pop();
  return last.startsWith("= ") ? {replies: printed, memory: last.slice(2)} : {fault: last};
}

const elementsOf = view => view.memory === "-" ? [] : view.memory.split(",");
const whole = view => ({...view, start: 0, len: view.width * elementsOf(view).length});

/** The bit numbers of an element's bits in an order, from the first on: which bit a `set` of each index makes 1. */
const numbers = {};
function numbersOf(width, order) {
  const key = `${width} ${order}`;
  if (!numbers[key]) {
    const zero = {width, order, memory: "0".repeat(FORM[width]), start: 0, len: width};
    numbers[key] = Array.from({length: width}, (_, index) => {
      const number = BigInt(`0x${run(zero, [`0 ${width} set ${index} 1`]).memory}`);
      return number.toString(2).length - 1;
    });
  }
  return numbers[key];
}

/** All that was seen so far, and which of it is shown. */
let seen = [], shown = 0;

function show(view, line, reply) {
  seen = [...seen.slice(0, shown + 1), {view, line, reply}];
  shown = seen.length - 1;
  draw();
}

/** Runs a line on the view that is shown. */
function command(line) {
  const {view} = seen[shown], made = run(view, [line]);
  if (made.fault) fault(made.fault === "bad line 1" ? `no command: ${line}` : made.fault);
  else show({...view, memory: made.memory}, line, made.replies.join(" "));
}

/** Flips the bit at a place of the memory. */
function flip(place, bit) {
  const {view} = seen[shown], all = whole(view);
  show({...view, memory: run(all, [`0 ${all.len} set ${place} ${1 - bit}`]).memory}, `place ${place} = ${1 - bit}`, "");
}

function fault(text) {
  at("fault").textContent = text;
}

/** The view that the controls ask for, as far as it is one. */
function change() {
  const view = {width: Number(at("width").value), order: at("order").value, start: at("start").value, len: at("len").value, memory: at("memory").value.trim()};
  if (view.width !== seen[shown].view.width) view.memory = regrouped(seen[shown].view.memory, view.width);
  const made = run(view, []);
  if (made.fault) fault(made.fault === "bad arguments" ? `the memory is elements of ${FORM[view.width]} hexadecimal digits, with commas between them` : "the window doesn't lie in the memory");
  else show({...view, start: Number(view.start), len: Number(view.len), memory: made.memory}, `${view.width} ${view.order} ${view.start} ${view.len}`, "");
}

/** The digits of a memory as elements of another width, with zeros for what is missing. */
function regrouped(memory, width) {
  const digits = memory.replace(/[^0-9a-f]/gi, ""), form = FORM[width];
  return digits.padEnd(Math.max(form, Math.ceil(digits.length / form) * form), "0").match(new RegExp(`.{${form}}`, "g")).join(",");
}

function draw() {
  const {view, line, reply} = seen[shown];
  for (const id of ["width", "order", "start", "len", "memory"]) at(id).value = view[id];
  fault("");
  drawBits(view);
  at("list").textContent = run(view, Array.from({length: view.len}, (_, index) => `0 ${view.len} get ${index}`)).replies.map(it => it.slice(4)).join("");
  at("said").textContent = reply;
  at("back").disabled = shown === 0;
  at("forward").disabled = shown === seen.length - 1;
  at("log").replaceChildren(...seen.map((it, number) => item(`${it.line}${it.reply && ` → ${it.reply}`}`, number === shown)));
  drawNumbers(view);
}

function item(text, isNow) {
  const made = document.createElement("li");
  made.textContent = text;
  made.className = isNow ? "now" : "";
  if (isNow) made.setAttribute("aria-current", "step");
  return made;
}

function drawBits(view) {
  const focused = document.activeElement?.dataset?.place;
  const numbers = numbersOf(view.width, view.order);
  at("bits").replaceChildren(...elementsOf(view).map((digits, element) => {
    const box = document.createElement("div"), row = document.createElement("div");
    box.className = "element";
    row.className = "row";
    box.append(`element ${element}: ${digits}`, row);
    for (let number = view.width - 1; number >= 0; number -= 1)
      row.append(square(view, element, number, view.width * element + numbers.indexOf(number), BigInt(`0x${digits}`) >> BigInt(number) & 1n));
    return box;
  }));
  const buttons = [...at("bits").querySelectorAll("button")];
  const kept = buttons.find(it => it.dataset.place === focused);
  for (const it of buttons) it.tabIndex = -1;
  (kept ?? buttons[0])?.setAttribute("tabindex", "0");
  kept?.focus();
}

/** The square of a bit. */
function square(view, element, number, place, value) {
  const made = document.createElement("button"), index = place - view.start, isInside = index >= 0 && index < view.len, bit = Number(value);
  made.type = "button";
  made.className = `bit${isInside ? " inside" : ""}${bit ? " one" : ""}`;
  made.dataset.place = place;
  made.setAttribute("aria-label", `element ${element}, bit ${number}, ${isInside ? `index ${index} of the window` : "outside the window"}: ${bit}`);
  const [above, below, middle] = ["small", "small", "b"].map(it => document.createElement(it));
  [above.textContent, middle.textContent, below.textContent] = [number, bit, isInside ? index : ""];
  made.append(above, middle, below);
  made.onclick = () => { made.focus(); flip(place, bit); };
  return made;
}

/** The number of the field under both orders. */
function drawNumbers(view) {
  const [from, to] = [at("from").value, at("to").value];
  at("numbers").replaceChildren(...ORDERS.map(order => {
    const made = run(view, [`${from} ${to} load_le`, `${from} ${to} load_be`], order), row = document.createElement("tr");
    const cells = [order, ...(made.replies ?? [made.fault, made.fault]).map(it => it.replace(/^number /, ""))];
    row.append(...cells.map((text, column) => Object.assign(document.createElement(column ? "td" : "th"), {textContent: text})));
    return row;
  }));
}

/** Moves from bit to bit by the arrow keys. */
function move(event) {
  const step = {ArrowLeft: -1, ArrowRight: 1, ArrowUp: -8, ArrowDown: 8}[event.key];
  const buttons = [...at("bits").querySelectorAll("button")], to = buttons[buttons.indexOf(document.activeElement) + step];
  if (!step || !to) return;
  event.preventDefault();
  document.activeElement.tabIndex = -1;
  to.tabIndex = 0;
  to.focus();
}

at("controls").onchange = change;
at("controls").onsubmit = event => { event.preventDefault(); change(); };
at("commands").onsubmit = event => { event.preventDefault(); command(at("line").value.trim()); };
at("back").onclick = () => { shown -= 1; draw(); };
at("forward").onclick = () => { shown += 1; draw(); };
at("fields").oninput = () => drawNumbers(seen[shown].view);
at("fields").onsubmit = event => event.preventDefault();
at("bits").onkeydown = move;
show({width: 8, order: "lsb0", memory: "4B,A5", start: 3, len: 10}, "8 lsb0 3 10", "");
