// How the page begins, and the way of a command to the desk: it is asked for under its key until there is an answer.
import { BARRED, NOT_YOURS, REFUSALS } from "./words.js";
import { RANGE, afterOf, at, count, fetched, isOwn, laterWait, look, meaningOf, parsed, pause, recall, restore, save,
  state, user, zone } from "./tools.js";
import { drawOrder, drawStock, dueName, nextOrders, seen, show, showAgain, showBranches } from "./views.js";
import { listDesks } from "./desks.js";
import { empty, listenToForms, noteOpened, offer, partOf, propose, putUser, sending, wordOf } from "./forms.js";

const LONGEST_ANSWER = 60000;
let asking = null, source = null, isLost = true;

// ---- what is said of the last command

function markSenders() {
  document.querySelectorAll(".sends").forEach(button => button.setAttribute("aria-disabled", state.pending !== null));
}
function say(kind, words) {
  const { pending } = state, hadFocus = at("choices").contains(document.activeElement);
  at("answer").dataset.kind = kind;
  at("said").textContent = words;
  at("stop").hidden = kind !== "waiting";
  at("again").hidden = at("forget").hidden = kind !== "unknown";
  at("choices").hidden = !pending;
  if (hadFocus) (pending ? at("choices").querySelector("button:not([hidden])") : at("answer")).focus();
  markSenders();
}
function faultOf(command, line) {
  const [verb, , , ...words] = command.split(" "), [moved, from, to, amount] = words;
  const halves = [["take", from, moved, amount], ["add", to, moved, amount]];
  const [way, branch, article, quantity] = verb === "open" ? words.slice(4 * line - 4) : halves[line - 1];
  return `line ${line} (${way} ${quantity} of ${article} at ${branch})`;
}
function outcomeOf(status, text, command) {
  const { place, code, refused, line, error } = parsed(text);
  if (status === 200 && place) return { kind: "done", words: `Done, at place ${count(place)}.` };
  const fault = line ? `Refused, ${faultOf(command, line)}` : "Refused";
  if ((status === 400 || status === 409) && REFUSALS[refused])
    return { kind: "refused", refused, words: `${fault}: ${REFUSALS[refused]} (${code} ${refused})` };
  if (BARRED[status]) return { kind: "barred", words: NOT_YOURS[error] ?? BARRED[status] };
  return { kind: "again", words: status === 429 ? "Too much was asked in one second." : "No answer yet." };
}

// ---- a command on its way

async function ask() {
  const { key, command } = state.pending, stopper = asking = new AbortController();
  const body = JSON.stringify({ key, command });
  const told = { line: command, key, meaning: meaningOf(command) };
  for (const [id, text] of Object.entries(told)) at(id).textContent = text;
  at("sent").hidden = false;
  say("waiting", "Asking the desk …");
  for (let turn = 1, wait = laterWait(0); !stopper.signal.aborted; turn += 1, wait = laterWait(wait)) {
    const signal = AbortSignal.any([stopper.signal, AbortSignal.timeout(LONGEST_ANSWER)]);
    const headers = { "content-type": "application/json", ...afterOf() };
    const { status, text } = await fetched("/v1/commands", { method: "POST", headers, body, signal });
    const { kind, words, refused } = outcomeOf(status, text, command);
    if (kind === "done" || kind === "refused") return settle(kind, words, refused);
    // what the front holds back now it may have let through before
    if (kind === "barred") return isLost ? hold(words) : settle("refused", `Not done: ${words}`);
    isLost ||= status !== 429;
    if (stopper.signal.aborted) break;
    say("waiting", `${words} Attempt ${turn + 1} comes in ${wait / 1000} s, with the same key.`);
    await pause(wait, stopper.signal);
  }
  return hold("Stopped asking.");
}
function hold(words) {
  const fate = "The command may be done or not. “Ask again” tells: under its key it is done once at most.";
  say("unknown", `${words} ${fate}`);
}
function settle(kind, words, refused = "") {
  const [verb, number] = state.pending.command.split(" "), isNew = verb === "open" || verb === "transfer";
  const isOpened = kind === "done" && isNew;
  state.pending = null;
  if (isOpened) {
    noteOpened(number);
    state.order = at("show-order").querySelector("input").value = number;
  }
  save();
  say(kind, words);
  if (kind === "done" && source?.isConnected) empty(source);
  if (isOpened || refused === "OrderThere") propose();
  if (kind === "done" && verb === "field") showBranches();
  showAgain();
}
function send(command, form = null) {
  if (state.pending) return say(at("answer").dataset.kind, "One at a time: the command below has no answer yet.");
  source = form;
  isLost = false;
  state.pending = { key: crypto.randomUUID(), command };
  save();
  return ask();
}

// ---- how the page begins

function userWords() {
  const { name, group, first, branches } = user, range = isOwn(first) ? `, range ${Math.floor(first / RANGE)}` : "";
  const held = branches.length ? `, held to ${branches.join(", ")}` : "";
  return `${name}, group: ${group}${group === "shops" ? range + held : ""}`;
}
async function learnUser() {
  const { status, text } = await look("/user", words => { at("user").textContent = words; }, Infinity);
  if (status !== 200) { at("user").textContent = BARRED[status] ?? `The front answered ${status}.`; return; }
  putUser(parsed(text));
  recall();
  at("user").textContent = userWords();
  listDesks();
  offer();
  if (seen.order) drawOrder(seen.order);
}
function listen() {
  listenToForms();
  at("stop").onclick = () => asking.abort();
  at("again").onclick = ask;
  at("forget").onclick = () => settle("unknown", "Let go: it is not known whether it was done.");
  at("filter").oninput = () => drawStock();
  at("orders-all").onclick = () => show("orders", "open/0");
  at("orders-next").onclick = nextOrders;
  at("orders-due").onclick = () => show("orders", dueName());
  at("refresh").onclick = () => { showBranches(); showAgain(); };
}
function makeShows() {
  for (const [kind, name] of [["stock", "branch"], ["article", "article"], ["order", "number"]]) {
    const form = at(`show-${kind}`), part = partOf(name), input = part.querySelector("input");
    form.prepend(part);
    form.addEventListener("submit", event => { event.preventDefault(); show(kind, wordOf(input)); });
    input.value = state[kind];
  }
}
async function begin() {
  Object.assign(sending, { send, mark: markSenders });
  restore();
  listen();
  makeShows();
  at("zone").textContent = `Times: ${zone}`;
  if (state.pending) ask();
  showAgain();
  await learnUser();
  await showBranches();
  propose();
}
begin();
