// What all parts of the page share: elements, moments, what is kept in the browser, and asking the desk.
export const NO_END = 4000000000, DAY = 24 * 60, RANGE = 1000000, FIRST_OF_OFFICE = 899000000;
// Orders from here on are of deals between desks.
export const FIRST_OF_DEALS = 900000000;
const FIRST_WAIT = 500, LAST_WAIT = 16000, MOST_LOOKS = 6;

// Where one front has several desks, the page lies behind its desk's name, as /north/.
export const desk = location.pathname.split("/")[1];
const placeOf = name => name && `/${name}`;
// What is shown, and the command that has no answer yet: it is kept with its key, so that a reload asks for it again.
// Where machines hold the desk, `revision` is the greatest of their log that an answer told.
export const state = { stock: "", article: "", order: "", orders: "open/0", pending: null, revision: "" };
// Who asks: the orders from `first` to `last` are the user's own; where there are `branches`, the user is held to them.
export const user = { name: "", group: "none", first: 1, last: 0, branches: [], desks: [] };
export const isOwn = number => user.first <= number && number <= user.last;
// What stays for the user's next visit: the branch that was shown, and the last number that was proposed and taken.
export const kept = { branch: "", number: 0 };
// Where the browser keeps nothing the page still works. What is kept is this desk's.
const STORE = `desk${placeOf(desk)}`;
export function save() { try { sessionStorage.setItem(STORE, JSON.stringify(state)); } catch { return; } }
export function restore() {
  try { Object.assign(state, JSON.parse(sessionStorage.getItem(STORE))); } catch { return; }
}
export function keep(changes) {
  Object.assign(kept, changes);
  if (!user.name) return;
  try { localStorage.setItem(`${STORE} ${user.name}`, JSON.stringify(kept)); } catch { return; }
}
export function recall() {
  try { Object.assign(kept, JSON.parse(localStorage.getItem(`${STORE} ${user.name}`))); } catch { return; }
}

export const at = id => document.getElementById(id);
export const count = number => number.toLocaleString("en");
export function parsed(text) { try { return JSON.parse(text) ?? {}; } catch { return {}; } }
export function make(tag, attributes = {}, ...children) {
  const space = ["svg", "rect", "line"].includes(tag) ? "http://www.w3.org/2000/svg" : "http://www.w3.org/1999/xhtml";
  const element = document.createElementNS(space, tag);
  for (const [name, value] of Object.entries(attributes)) element.setAttribute(name, value);
  element.append(...children);
  return element;
}
export const buttonOf = (attributes, onclick, ...children) =>
  Object.assign(make("button", { type: "button", ...attributes }, ...children), { onclick });

// A moment is a number of minutes since 1970-01-01 UTC. It is shown, and asked for, in the browser's own zone.
const TIMES = new Intl.DateTimeFormat("en-GB", { dateStyle: "medium", timeStyle: "short" });
export const zone = TIMES.resolvedOptions().timeZone;
export const timeNow = () => new Date().toLocaleTimeString("en-GB");
export const minuteNow = () => Math.floor(Date.now() / 60000);
export const minuteOf = text => Math.floor(new Date(text).getTime() / 60000);
export function inputOf(minute) {
  const moment = new Date(minute * 60000);
  return new Date(moment.getTime() - moment.getTimezoneOffset() * 60000).toISOString().slice(0, 16);
}
export const momentWords = minute => minute === NO_END ? "no end" : TIMES.format(minute * 60000);
export const clockWords = clock => clock === 0 ? "no moment has come yet" : momentWords(clock);
// What the moment in a command means, if it has one.
export function meaningOf(command) {
  const [verb, ...words] = command.split(" "), word = words[{ open: 1, transfer: 1, expire: 0 }[verb]];
  return /^[0-9]{1,10}$/.test(word) && Number(word) <= NO_END ? `${word} means: ${momentWords(Number(word))}` : "";
}

export const isPassing = status => status === 0 || status === 408 || status === 429 || status >= 500;
export const laterWait = wait => wait === 0 ? FIRST_WAIT : Math.min(LAST_WAIT, 2 * wait);
export const pause = (wait, signal) =>
  new Promise(done => { setTimeout(done, wait); signal?.addEventListener("abort", done); });
function learn(revision) {
  if (!/^[0-9]{1,19}$/.test(revision) || BigInt(revision) <= BigInt(state.revision)) return;
  state.revision = revision;
  save();
}
// With it the machines know a copy of a command that comes late.
export const afterOf = () => state.revision ? { "asked-after": state.revision } : {};
// An answer counts with its whole body: one that broke off, or never came, has the status 0.
export async function fetched(path, options, name = desk) {
  try {
    const answer = await fetch(location.origin + placeOf(name) + path, { cache: "no-store", ...options });
    const text = await answer.text();
    if (name === desk) learn(answer.headers.get("log-revision"));
    return { status: answer.status, text };
  } catch { return { status: 0, text: "" }; }
}
export async function look(path, say = () => {}, most = MOST_LOOKS, name = desk) {
  for (let turn = 1, wait = FIRST_WAIT; ; turn += 1, wait = laterWait(wait)) {
    const found = await fetched(path, {}, name);
    if (!isPassing(found.status) || turn === most) return found;
    say("The desk does not answer now; it is asked again …");
    await pause(wait);
  }
}
