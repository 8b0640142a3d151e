// What the desk shows: branches, stock, an article at all branches, open orders, an order, how full the desk is.
import { BARRED, STATES } from "./words.js";
import { DAY, FIRST_OF_DEALS, FIRST_OF_OFFICE, NO_END, RANGE, at, buttonOf, clockWords, count, desk, isOwn, isPassing,
  keep, kept, look, make, minuteNow, momentWords, parsed, save, state, timeNow, user } from "./tools.js";

const MOST_ROWS = 200, MOST_ORDERS = 50, MOST_SUMMED = 3;
// How much a desk holds at most.
const MOST = { places: 200000, fields: 10000, orders: 100000 };
const PART_HEADS = { Article: "name", Line: "name", Way: "name", Branch: "name", Order: "name", Until: "name long",
  Holds: "name long", Picture: "drawn" };

export const seen = {};
// What is done when something new is shown, or an article is asked for; the commands and the other desks add to it.
export const behind = { stock() {}, order() {}, article() {}, asked() {} };
export const isOpen = order => order.state === "open" || order.state === "firm";
export const lookWords = status => isPassing(status) ? "The desk does not answer now. Ask again in a while."
  : { 404: "There is none.", ...BARRED }[status] ?? `The front answered ${status}.`;

export function tableOf(caption, heads, rows) {
  const head = heads.map(text => make("th", { scope: "col", class: PART_HEADS[text] ?? "" }, text));
  const cellOf = (content, index) => index === 0 ? make("th", { scope: "row", class: "name" }, content)
    : make("td", { "data-label": heads[index], class: PART_HEADS[heads[index]] ?? "" }, content);
  return make("table", {}, make("caption", {}, caption), make("thead", {}, make("tr", {}, ...head)),
    make("tbody", {}, ...rows.map(row => make("tr", {}, ...row.map(cellOf)))));
}
const linkOf = (name, onclick, says) => buttonOf({ class: "plain", title: says }, onclick, name);
// What is drawn anew does not lose the focus that was in it.
function redraw(part, ...children) {
  const focused = part.contains(document.activeElement) ? document.activeElement.textContent : null;
  part.replaceChildren(...children);
  if (focused === null) return;
  const same = [...part.querySelectorAll("button")].find(button => button.textContent === focused);
  (same ?? part.closest("section")).focus();
}

// ---- a branch, and an article at all branches

// A sheet's line is a name in 16 columns and five numbers of a space and 10 columns each; the last one is the total.
export function readSheet(text) {
  const lines = text.trimEnd().split("\n"), total = Number(lines.pop().slice(16));
  const fields = lines.map(line => {
    const [lo, hi, value, inf, sup] = [16, 27, 38, 49, 60].map(from => Number(line.slice(from, from + 11)));
    return { label: line.slice(0, 16).trim(), lo, hi, value, inf, sup };
  });
  return { fields, total };
}
function pictureOf({ lo, hi, value, inf, sup }) {
  const share = pieces => `${100 * pieces / Math.max(1, hi - lo)}%`, x = share(value - lo);
  const bar = (name, from, to, y, height) =>
    make("rect", { class: name, x: share(from - lo), width: share(to - from), y, height });
  const label = `Of ${count(lo)} to ${count(hi)}: value ${count(value)}, outcomes ${count(inf)} to ${count(sup)}`;
  return make("svg", { role: "img", "aria-label": label },
    make("rect", { class: "bounds", width: "100%", y: 9, height: 10 }), bar("free", lo, inf, 9, 10),
    bar("span", inf, sup, 5, 18), make("line", { class: "value", x1: x, x2: x, y1: 1, y2: 27 }));
}
function sheetOf(caption, first, fields, onclick, says) {
  const rows = fields.map(field => {
    const { label, lo, hi, value, inf, sup } = field;
    const head = onclick ? linkOf(label, () => onclick(label), says) : label;
    return [head, make("strong", {}, count(inf - lo)), ...[value, inf, sup, lo, hi].map(count), pictureOf(field)];
  });
  const heads = `${first},Free to promise,Value,Infimum,Supremum,Lower bound,Upper bound,Picture`.split(",");
  return tableOf(caption, heads, rows);
}
const shares = (shown, all) => (shown < all ? `${count(shown)} of ` : "") + count(all);
export function drawStock({ name, fields, total } = seen.stock) {
  const sought = at("filter").value.toUpperCase(), chosen = fields.filter(field => field.label.includes(sought));
  const shown = chosen.slice(0, MOST_ROWS);
  const caption = `Stock of ${name}. Articles: ${shares(shown.length, fields.length)}. Pieces in all: ${count(total)}.`;
  const onclick = article => show("article", article, "article-part");
  redraw(at("stock-table"), sheetOf(caption, "Article", shown, onclick, "Show it at all branches"));
  at("filter").parentElement.hidden = false;
  at("articles").replaceChildren(...shown.map(field => make("option", { value: field.label })));
  markBranch(name);
  if (fields.length) keep({ branch: name });
  behind.stock();
}
export function articleOf({ name, fields, total }, where, none, onclick = null) {
  const shown = fields.slice(0, MOST_ROWS), isThere = fields.length > 0;
  const caption = isThere ? `${name} at ${where}. Branches: ${shares(shown.length, fields.length)}. `
    + `Pieces in all: ${count(total)}.` : `${none} has ${name}.`;
  const table = sheetOf(caption, "Branch", shown, onclick, "Show the stock of this branch");
  table.querySelector("thead").hidden = !isThere;
  return table;
}
function drawArticle(article) {
  const onclick = branch => show("stock", branch, "stock-part"), of = desk && ` of ${desk}`;
  redraw(at("article-table"), articleOf(article, `all branches${of}`, `No branch${of}`, onclick));
  behind.article();
}
function markBranch(name) {
  const buttons = at("branch-list").querySelectorAll("button");
  buttons.forEach(button => button.setAttribute("aria-pressed", button.textContent === name));
}
// The branch that is shown first: the last one, or else the user's own, or any.
const firstBranch = branches => [kept.branch, ...user.branches, ...branches].find(name => branches.includes(name));
export async function showBranches() {
  const say = words => { at("stock-told").textContent = words; };
  const { status, text } = await look("/v1/branches", say);
  if (status !== 200) return say(`The branches: ${lookWords(status)}`);
  const { branches } = parsed(text);
  const chipOf = name => buttonOf({ class: "chip" }, () => show("stock", name), name);
  const shown = branches.slice(0, MOST_ROWS), others = branches.length - shown.length;
  const words = others ? [make("p", { class: "soft" }, `and ${count(others)} more: write the code of one`)] : [];
  redraw(at("branch-list"), ...shown.map(chipOf), ...words);
  at("branches").replaceChildren(...branches.map(name => make("option", { value: name })));
  markBranch(state.stock);
  if (!branches.length) return say("No branch has an article yet: the office adds the first one.");
  return state.stock || show("stock", firstBranch(branches));
}

// ---- orders

// Whether the clock soon ends an order: by the browser's clock, behind which the desk's may lag.
function markOf({ until, state: stands }) {
  const left = until - minuteNow();
  if (left > DAY || stands !== "open") return [];
  return [make("span", { class: "mark" }, left > 0 ? "within a day" : "its time is over")];
}
const endWords = until => until === NO_END ? "with no end" : `until ${momentWords(until)}`;
function holdWords({ kind, lines }) {
  const [{ held, article, branch }, second] = lines;
  if (kind === "transfer") return `move ${count(held)} of ${article} from ${branch} to ${second.branch}`;
  const first = lines.slice(0, MOST_SUMMED), others = lines.length - first.length;
  const words = first.map(line => `${line.way} ${count(line.held)} of ${line.article} at ${line.branch}`);
  return (others ? [...words, `and ${others} more lines`] : words).join(", ");
}
function listWords(name, found) {
  const [kind, from] = name.split("/"), all = seen.desk ? ` of ${count(seen.desk.open)}` : "";
  const first = found === MOST_ORDERS ? "the first " : "";
  if (kind === "due") return `Aborted when the desk's clock comes to this time tomorrow: ${first}${found}.`;
  if (from === "0") return `Open orders: ${shares(found, seen.desk?.open ?? found)}.`;
  return `Open orders above ${from}: ${found}${all}.`;
}
function rowOf(order) {
  const number = String(order.number), isFirm = order.state === "firm";
  return [linkOf(number, () => show("order", number, "order-part"), "Show this order"),
    make("span", {}, momentWords(order.until), " ", ...markOf(order)),
    make("span", {}, holdWords(order), ...(isFirm ? [" ", make("span", { class: "state" }, "firm")] : []))];
}
function drawOrders({ name, orders }) {
  const heads = ["Order", "Until", "Holds"];
  redraw(at("orders-table"), tableOf(listWords(name, orders.length), heads, orders.map(rowOf)));
  at("orders-next").hidden = orders.length < MOST_ORDERS || name.startsWith("due");
  at("orders-all").setAttribute("aria-pressed", name.startsWith("open"));
  at("orders-due").setAttribute("aria-pressed", name.startsWith("due"));
}
export function nextOrders() {
  at("orders-table").scrollTop = 0;
  return show("orders", `open/${seen.orders.orders.at(-1).number}`, "orders-part");
}
export const dueName = () => `due/${Math.min(NO_END, Math.max(minuteNow(), seen.desk?.clock ?? 0) + DAY)}`;
// An order's number alone tells whose it is.
function ownerWords(number) {
  if (number >= FIRST_OF_DEALS) return "By its number it is of a deal between desks.";
  if (number >= FIRST_OF_OFFICE && user.group !== "shops") return "By its number it is head office's.";
  const owner = user.group === "shops" && isOwn(number) ? "one of yours" : "of a shop";
  return `By its number it is ${owner} (range ${Math.floor(number / RANGE)}).`;
}
export function drawOrder(order) {
  const shown = at("order"), hadFocus = shown.contains(document.activeElement);
  const { number, kind, until, lines, state: stands } = order;
  const name = make("h3", { tabindex: "-1" }, `Order ${number} `, make("span", { class: "state" }, stands));
  const sort = kind === "plain" ? "A plain order" : "A transfer";
  const about = make("p", {}, `${sort} ${endWords(until)} `, ...markOf(order));
  const rows = lines.map(({ way, branch, article, held, used }, index) => [`Line ${index + 1}`, way, branch, article,
    count(held), count(used), isOpen(order) ? count(held - used) : "–"]);
  const heads = ["Line", "Way", "Branch", "Article", "Held", "Used", "Left"];
  const table = tableOf(`The lines of order ${number}`, heads, rows);
  shown.replaceChildren(name, about, make("p", {}, `${ownerWords(number)} ${STATES[stands]}`), table);
  behind.order(order);
  if (hadFocus) name.focus();
}

// ---- how full the desk is

function barOf({ title, taken, aside, most }) {
  const share = number => `${Math.min(100, 100 * number / most)}%`;
  const also = aside ? `, and ${count(aside)} set aside for the ends of open orders` : "";
  const words = `${count(taken)} of ${count(most)}${also}`;
  const picture = make("svg", { role: "img", "aria-label": `${title}: ${words}` },
    make("rect", { class: "bounds", width: "100%", y: 9, height: 10 }),
    make("rect", { class: "span", width: share(taken), y: 5, height: 18 }),
    make("rect", { class: "free", x: share(taken), width: share(Math.min(aside, most - taken)), y: 9, height: 10 }));
  return make("div", { class: "part" }, make("h3", {}, title), picture, make("small", {}, words));
}
function fullWords({ title, taken, aside, most, stops }) {
  const all = taken + aside;
  if (all < most * 0.9) return [];
  const taking = aside ? "taken or set aside" : "taken";
  return [all < most ? `Nearly full: ${count(all)} of ${count(most)} ${title.toLowerCase()} are ${taking}.`
    : `Full: all ${title.toLowerCase()} are taken; the desk takes ${stops}.`];
}
export function tellClock(note) {
  if (seen.desk) note.textContent = `The desk's clock: ${clockWords(seen.desk.clock)}.`;
}
function drawDesk({ fields, open, orders, places }) {
  const parts = [
    { title: "Places", taken: places, aside: open, most: MOST.places, stops: "nothing but the ends of open orders" },
    { title: "Fields", taken: fields, aside: 0, most: MOST.fields, stops: "no new article at any branch" },
    { title: "Orders", taken: orders, aside: 0, most: MOST.orders, stops: "no new order" },
  ];
  const words = parts.flatMap(fullWords);
  const advice = "Whoever runs the desk sees to it that places and orders get free again; fields do not.";
  at("desk-bars").replaceChildren(...parts.map(barOf));
  at("fullness").replaceChildren(...[...words, advice].map(each => make("p", {}, each)));
  at("fullness").hidden = !words.length;
  document.querySelectorAll(".clock").forEach(tellClock);
}

// ---- all of them

const VIEWS = {
  stock: { titleOf: name => `Branch ${name}`, path: "/v1/sheets/", read: readSheet, drawn: drawStock },
  article: { titleOf: name => `Article ${name}`, path: "/v1/articles/", read: readSheet, drawn: drawArticle },
  order: { titleOf: name => `Order ${name}`, path: "/v1/orders/", read: parsed, drawn: drawOrder },
  orders: { titleOf: () => "Open orders", path: "/v1/", read: parsed, drawn: drawOrders },
  desk: { titleOf: () => "The desk", path: "/v1/", read: parsed, drawn: drawDesk },
};
function bringTo(part) {
  part.scrollIntoView();
  part.focus({ preventScroll: true });
}
// Shows it; where a part of the page is named, the user is brought there.
export async function show(kind, name, part = null) {
  const { titleOf, path, read, drawn } = VIEWS[kind], say = text => { at(`${kind}-told`).textContent = text; };
  const title = titleOf(name), input = at(`show-${kind}`)?.querySelector("[name]");
  // what is typed there is left alone where the same is shown again
  if (input && state[kind] !== name) input.value = name;
  state[kind] = name;
  save();
  if (part) bringTo(at(part));
  if (kind === "article") behind.asked(name);
  const { status, text } = await look(path + name, say);
  if (state[kind] !== name) return;
  if (status === 200) {
    seen[kind] = { name, moment: timeNow(), ...read(text) };
    drawn(seen[kind]);
    at(kind).hidden = false;
    return say(`${title} as of ${seen[kind].moment}.`);
  }
  at(kind).hidden = status === 404 || seen[kind]?.name !== name;
  return say(`${title}: ${lookWords(status)}`);
}
export async function showAgain() {
  for (const kind of ["stock", "article", "order"]) if (state[kind]) show(kind, state[kind]);
  await show("desk", "desk");
  show("orders", state.orders.startsWith("due") ? dueName() : state.orders);
}
