// The forms of the commands: each spells the line that it sends, and tells what is there and which number is free.
import { ENDS, FORMS, PARTS, VERBS, numberAs } from "./words.js";
import { FIRST_OF_DEALS, FIRST_OF_OFFICE, NO_END, RANGE, at, buttonOf, count, fetched, inputOf, isOwn, keep, kept,
  look, make, meaningOf, minuteNow, minuteOf, parsed, state, user } from "./tools.js";
import { behind, isOpen, tellClock } from "./views.js";

const MOST_LINES = 64;
// What sends a line, of a form or of none; the way to the desk puts it here.
export const sending = { send() {}, mark() {} };
export const may = verb => VERBS[user.group].includes(verb);
let made = 0, proposed = null;

// ---- the parts of a form

function press(button, isPressed = button.getAttribute("aria-pressed") !== "true") {
  const input = button.parentElement.querySelector("input");
  button.setAttribute("aria-pressed", isPressed);
  input.disabled = isPressed;
  spell(button.closest("form"));
}
function besideOf(text, input) {
  if (text === "No end") return buttonOf({ "aria-pressed": "false" }, event => press(event.target), text);
  const putNow = () => { input.value = inputOf(minuteNow()); spell(input.form); };
  return buttonOf({}, putNow, text);
}
export function partOf(name, { label, word, hint, limits, beside } = PARTS[name]) {
  const id = `${name}-${++made}`;
  const given = { id, name, required: "", autocomplete: "off", "data-word": word, "aria-describedby": `${id}-hint` };
  const input = make("input", { ...given, ...limits });
  const row = beside ? make("div", { class: "beside" }, input, besideOf(beside, input)) : input;
  const told = make("small", { id: `${id}-hint` }, hint);
  return make("div", { class: "part" }, make("label", { for: id }, label), row, told);
}
function choiceOf(name, label, options) {
  const id = `${name}-${++made}`, choices = options.map(([value, text]) => make("option", { value }, text));
  const select = make("select", { id, name, "data-word": "" }, ...choices);
  return make("div", { class: "part" }, make("label", { for: id }, label), select);
}
function ownNumber() {
  const isNone = user.last < user.first, { first, last } = user;
  const { label, word } = PARTS.number, more = user.group === "office" ? "" : ": your orders";
  const part = partOf("number", numberAs(label, word, first, last, more));
  if (isNone) part.querySelector("small").textContent = "No orders are yours: whoever runs the front gives you some.";
  return part;
}
const lineParts = () => [choiceOf("way", "Way", [["take", "take"], ["add", "add"]]), "branch", "article", "quantity"];
const elementOf = part => part.tagName ? part : part === "number" ? ownNumber() : partOf(part);
const partsOf = parts => make("div", { class: "parts" }, ...parts.map(elementOf));

// ---- what a form tells

async function tellStock(part) {
  const note = part.querySelector(".now"), article = part.querySelector("[name=article]");
  if (!note || !article.checkValidity()) return;
  const branches = [...part.querySelectorAll("[name=branch], [name=from], [name=to]")];
  const told = branches.filter(branch => branch.checkValidity()).map(async ({ value: branch }) => {
    const { status, text } = await fetched(`/v1/fields/${branch}/${article.value}`);
    if (status !== 200) return status === 404 ? `${branch} does not have ${article.value}.` : "";
    const { lo, hi, value, inf, sup } = parsed(text);
    return `${branch} ${article.value} now: ${count(inf - lo)} free to promise, room for ${count(hi - sup)} more;`
      + ` value ${count(value)}, bounds ${count(lo)} to ${count(hi)}.`;
  });
  note.textContent = (await Promise.all(told)).join(" ");
}
// The words of a line are a form's controls in their order; an empty one shows the word that stands for it.
export function wordOf({ value, type, valueAsNumber, disabled, dataset }) {
  if (disabled) return String(NO_END);
  if (value === "") return dataset.word;
  if (type === "datetime-local") return String(minuteOf(value));
  return type === "number" ? String(valueAsNumber) : value.trim();
}
export function lineOf(form) {
  return [form.dataset.begins, ...[...form.querySelectorAll("[data-word]")].map(wordOf)].filter(Boolean).join(" ");
}
function spell(form) {
  const line = lineOf(form);
  form.querySelector(".spelled code").textContent = line;
  form.querySelector(".spelled .meaning").textContent = meaningOf(line);
}
// A form in which nothing was written is on the branch that is shown.
function fillBranches(form) {
  for (const input of form.querySelectorAll("[name=branch], [name=from]")) {
    if (input.value === "" || (!form.dataset.written && input.value === input.dataset.filled))
      input.value = input.dataset.filled = state.stock;
  }
  spell(form);
}

// ---- an order number that is free

// It answers whether the number is an order's; where the desk does not tell, nothing is proposed.
async function isTaken(number) {
  const { status } = await look(`/v1/orders/${number}`);
  if (status !== 200 && status !== 404) throw new Error("not told");
  return status === 200;
}
async function freeBetween(taken, free) {
  while (free - taken > 1) {
    const middle = Math.floor((taken + free) / 2);
    if (await isTaken(middle)) taken = middle; else free = middle;
  }
  return free;
}
// Numbers are used from the first of a range on, so steps that double come to a free one in few asks.
async function freeAbove(taken, last) {
  for (let step = 1; taken < last; step *= 2) {
    const number = Math.min(taken + step, last);
    if (!await isTaken(number)) return freeBetween(taken, number);
    taken = number;
  }
  return null;
}
export async function propose() {
  const before = (user.group === "office" ? FIRST_OF_OFFICE : user.first) - 1, { last } = user;
  if (!may("open") || last <= before) return;
  const known = before < kept.number && kept.number < last ? kept.number : before;
  try { proposed = await freeAbove(known, last) ?? await freeAbove(before, last); } catch { return; }
  for (const input of document.querySelectorAll("#open [name=number], #transfer [name=number]")) putNumber(input);
}
function putNumber(input) {
  const wants = input.value === "" || input.value === input.dataset.filled;
  if (!wants || proposed === null) return;
  input.value = input.dataset.filled = proposed;
  // who is about to write there writes over it
  if (input === document.activeElement) input.select();
  spell(input.form);
}
export function noteOpened(number) { if (Number(number) === proposed) keep({ number: proposed }); }

// ---- the forms

const stockNote = () => make("p", { class: "now soft", "aria-live": "polite" });
const folded = (title, isUnfolded, form) =>
  make("details", isUnfolded ? { open: "" } : {}, make("summary", {}, title), form);
function formOf(id, begins, parts, button, ...between) {
  const form = make("form", { id, "data-begins": begins }, partsOf(parts), ...between, stockNote(),
    make("p", { class: "spelled" }, make("small", {}, "The line that is sent"), make("code"),
      make("small", { class: "meaning" })),
    make("button", { class: "sends strong" }, button));
  form.addEventListener("submit", event => { event.preventDefault(); sending.send(lineOf(form), form); });
  form.addEventListener("input", () => { form.dataset.written = "yes"; spell(form); });
  fillBranches(form);
  return form;
}
function promiseLine() {
  const line = make("fieldset", { class: "stack" }, make("legend"), partsOf(lineParts()), stockNote());
  line.append(buttonOf({}, () => { line.remove(); numberLines(); at("add-line").focus(); }, "Remove this line"));
  return line;
}
function numberLines() {
  const lines = [...at("lines").children];
  lines.forEach((line, index) => {
    line.querySelector("legend").textContent = `Line ${index + 1}`;
    line.querySelector("button").hidden = lines.length === 1;
  });
  at("add-line").hidden = lines.length === MOST_LINES;
  fillBranches(at("open"));
}
function addLine() {
  at("lines").append(promiseLine());
  numberLines();
  at("lines").lastChild.querySelector("select").focus();
}
function openForm(parts, button) {
  const lines = make("div", { id: "lines", class: "stack" }, promiseLine());
  return formOf("open", "open", parts, button, lines, buttonOf({ id: "add-line" }, addLine, "Add a line"));
}
function formFor(verb, parts, button) {
  if (verb === "open") return openForm(parts, button);
  const form = formOf(verb, verb, parts, button, ...(verb === "expire" ? [make("p", { class: "clock soft" })] : []));
  form.querySelectorAll(".clock").forEach(tellClock);
  return form;
}
function ownForm() {
  const hint = `It begins with ${VERBS[user.group].join(", ")}, and is spelled as the forms spell it.`;
  const limits = { pattern: `(${VERBS[user.group].join("|")})( .*)?`, maxlength: 2521, title: hint };
  return formOf("own-line", "", [partOf("own", { label: "Line", word: "COMMAND", hint, limits })], "Send the line");
}
export function offer() {
  const verbs = Object.keys(FORMS).filter(may), own = verbs.length ? [["A line of your own", ownForm()]] : [];
  const forms = verbs.map(verb => [FORMS[verb][0], formFor(verb, FORMS[verb][1], FORMS[verb][2])]);
  at("commands").replaceChildren(...[...forms, ...own].map(([title, form], index) => folded(title, index === 0, form)));
  if (may("open")) numberLines();
  sending.mark();
}
// What was done leaves its form, so that a second press does nothing.
export function empty(form) {
  const others = [...form.querySelectorAll("fieldset")].slice(1);
  if (others.some(line => line.contains(document.activeElement))) form.querySelector(".sends").focus();
  others.forEach(line => line.remove());
  form.reset();
  delete form.dataset.written;
  form.querySelectorAll(".now").forEach(note => note.replaceChildren());
  form.querySelectorAll("[aria-pressed]").forEach(button => press(button, false));
  return form.id === "open" ? numberLines() : fillBranches(form);
}

// ---- what is offered for an order

function endButtons({ number, lines, state: stands }) {
  const ends = stands === "open" ? { commit: "Commit", abort: "Abort", firm: "Make firm" } : { commit: "Commit" };
  const verbs = Object.keys(ends).filter(may);
  const buttons = verbs.map(verb => {
    const line = `${verb} ${number}`, strong = verb === "commit" ? " strong" : "";
    const attributes = { id: verb, class: `sends${strong}` };
    return buttonOf(attributes, () => sending.send(line), ends[verb], make("code", {}, line));
  });
  const isUsed = lines.some(line => line.used > 0), told = { ...ENDS, ...(isUsed ? {} : { commit: ENDS.unused }) };
  const words = verbs.map(verb => told[verb]).join(" ");
  return [make("div", { class: "row" }, ...buttons), make("p", { class: "soft" }, words)];
}
function useForm({ number, lines }) {
  const places = lines.filter(line => line.held > line.used).map(({ way, branch, article, held, used }) =>
    [`${branch} ${article}`, `${branch} ${article}: ${way}, ${count(held - used)} left`]);
  const verbs = [[`use ${number}`, "use"], [`release ${number}`, "release: give back"]];
  const parts = [choiceOf("verb", "What to do", verbs), choiceOf("line", "Line", places), "quantity"];
  return places.length ? [folded("Use or release", true, formOf("use", "", parts, "Send"))] : [];
}
function moreForm({ number, kind, state: stands }) {
  if (stands !== "open" || kind === "transfer") return [];
  return [folded("Hold more", false, formOf("more", `more ${number}`, lineParts(), "Hold more"))];
}
function offerFor(order) {
  if (!isOpen(order) || !may("commit")) return;
  if (isOwn(order.number)) at("order").append(...endButtons(order), ...useForm(order), ...moreForm(order));
  else at("order").append(make("p", { class: "soft" }, "It is not one of your orders: you see it, and others end it."));
  sending.mark();
}
behind.order = offerFor;
behind.stock = () => document.querySelectorAll("#commands form").forEach(fillBranches);

export function listenToForms() {
  document.addEventListener("input", ({ target }) => {
    const { value, selectionStart, selectionEnd } = target, capitals = value.toUpperCase();
    if (!target.matches("[autocapitalize]") || value === capitals) return;
    target.value = capitals;
    target.setSelectionRange(selectionStart, selectionEnd);
    if (target.form?.matches("[data-begins]")) spell(target.form);
  });
  document.addEventListener("change", ({ target }) => {
    if (target.matches("[data-word][autocapitalize]")) tellStock(target.closest("fieldset, form"));
  });
}
export function putUser({ user: name, group, shop = "", desks = "" }) {
  const [range, ...branches] = shop.split(/\s+/).filter(Boolean), first = RANGE * range;
  const isOffice = group === "office", isKnown = Object.hasOwn(VERBS, group);
  Object.assign(user, { name, group: isKnown ? group : "none", branches, first: first || 1,
    desks: desks.split(/\s+/).filter(Boolean), last: isOffice ? FIRST_OF_DEALS - 1 : range ? first + RANGE - 1 : 0 });
}
