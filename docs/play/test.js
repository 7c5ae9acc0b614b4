"use strict";
// Tries the page as a user does: sets, moves and clicks, and compares with memory and numbers worked out by hand; and the rows of
// golden/bitdo.txt, which `.ci/play` puts into ROWS. What is wrong is written into the page.

const wrong = [];
const same = (what, got, wanted) => String(got) === String(wanted) || wrong.push(`${what}: wanted ${JSON.stringify(wanted)}, got ${JSON.stringify(got)}`);
const text = id => at(id).textContent;
const squares = () => [...at("bits").querySelectorAll("button")];
const marked = () => squares().filter(it => it.classList.contains("inside")).length;
const enter = (id, value) => { at(id).value = value; at(id).dispatchEvent(new Event("change", {bubbles: true})); };
const type = line => { at("line").value = line; at("commands").requestSubmit(); };
const table = () => [...at("numbers").querySelectorAll("td")].map(it => it.textContent).join(" ");

/** The words of `bitdo` on the page's first view: 4B is 01001011 and A5 10100101, so under lsb0 the list is 1101 0010 1010 0101. */
function testFirstView() {
  same("bits", text("list"), "1001010100");
  same("squares", squares().length, 16);
  same("the window's squares", marked(), 10);
  same("a label", squares()[0].getAttribute("aria-label"), "element 0, bit 7, index 4 of the window: 0");
  same("a square outside", squares()[7].getAttribute("aria-label"), "element 0, bit 0, outside the window: 1");
  // 1001010100, the first bit lowest: 1 + 8 + 32 + 128; in segments of 5 and 5 bits from the first element on
  enter("from", 0); enter("to", 10);
  at("fields").dispatchEvent(new Event("input"));
  same("numbers", table().split(" ")[0], "169");
}

/** A line sets the four nibbles of two bytes, as the package's first run does. */
function testCommands() {
  enter("memory", "00,00"); enter("start", 0); enter("len", 16);
  for (const line of ["0 4 set 0 1", "4 8 set 1 1", "8 12 set 2 1", "12 16 set 3 1"]) {
    type(line);
    same(line, text("said"), "done");
  }
  same("memory", at("memory").value, "21,84");
  type("0 16 count_ones");
  same("count", text("said"), "count 4");
  type("0 17 invert");
  same("refusal", text("said"), "refused range");
  type("0 16 fly");
  same("no command", text("fault"), "no command: 0 16 fly");
}

/** Back and forward go through what was seen. */
function testHistory() {
  const now = at("memory").value;
  at("back").click(); at("back").click(); at("back").click();
  same("back", at("memory").value, "21,04");
  at("forward").click(); at("forward").click(); at("forward").click();
  same("forward", at("memory").value, now);
  same("the end", at("forward").disabled, true);
}

/** A click flips the bit of its square, also outside the window, and nothing else. */
function testClicks() {
  enter("start", 4); enter("len", 4);
  const square = place => squares().find(it => it.dataset.place === place);
  square("0").click();
  same("outside", at("memory").value, "20,84");
  same("focus", document.activeElement.dataset.place, "0");
  square("6").click();
  same("inside", at("memory").value, "60,84");
  document.activeElement.dispatchEvent(new KeyboardEvent("keydown", {key: "ArrowLeft", bubbles: true}));
  same("to the left", document.activeElement.dataset.place, "7");
}

/** An order says which bit comes first: 60 is 01100000. Under hilo each nibble's bits ascend, the higher nibble first. */
function testOrders() {
  enter("start", 0); enter("len", 8); enter("memory", "60,84");
  same("lsb0", text("list"), "00000110");
  enter("order", "msb0");
  same("msb0", text("list"), "01100000");
  enter("order", "hilo");
  same("hilo", text("list"), "01100000");
  enter("memory", "10,84");
  same("hilo, one", text("list"), "10000000");
  enter("order", "lsb0");
}

/** A field across two bytes: the bits 4 up to 12 of 4B,A5. */
function testFields() {
  enter("memory", "4B,A5"); enter("len", 16);
  at("from").value = 4; at("to").value = 12;
  at("fields").dispatchEvent(new Event("input"));
  // lsb0: segments 4 (0100) and 5 (0101); msb0: segments B (1011) and A (1010)
  same("fields", table(), `${5 * 16 + 4} ${4 * 16 + 5} ${10 * 16 + 11} ${11 * 16 + 10}`);
  type("4 12 store_le 255");
  same("stored", at("memory").value, "FB,AF");
}

/** Another width keeps the digits, and what is no view is refused by words. */
function testWidths() {
  enter("memory", "12,34"); enter("start", 0); enter("len", 16);
  enter("width", "16");
  same("width", at("memory").value, "1234");
  same("its squares", squares().length, 16);
  enter("len", 17);
  same("window", text("fault"), "the window doesn't lie in the memory");
  enter("memory", "123");
  same("digits", text("fault").includes("4 hexadecimal digits"), true);
}

for (const test of [testFirstView, testCommands, testHistory, testClicks, testOrders, testFields, testWidths]) {
  try { test(); } catch (error) { wrong.push(`${test.name}: ${error}`); }
}
for (const [line, words, input, printed] of ROWS) same(`golden/bitdo.txt:${line}`, bitdo(words, [input]), printed);
const result = document.createElement("pre");
result.id = "result";
result.textContent = wrong.length ? wrong.join("\n") : `all is well, and ${ROWS.length} rows`;
document.body.append(result);
