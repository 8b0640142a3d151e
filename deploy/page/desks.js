// Where one front has several desks: which one this page is of, and an article at all of them that the user may see.
import { at, count, desk, look, make, state, timeNow, user } from "./tools.js";
import { articleOf, behind, lookWords, readSheet, seen } from "./views.js";

// What each other desk told of an article, with the moment at which it did.
const beside = { name: "", parts: [] };

function sumWords() {
  const { name, parts } = beside, own = seen.article?.name === name ? [{ ...seen.article, from: desk }] : [];
  const told = [...own, ...parts.filter(part => part.fields)], lacking = user.desks.length - told.length;
  const sum = told.reduce((all, part) => all + part.total, 0);
  const moments = told.map(({ from, moment }) => `${from} as of ${moment}`).join(", ");
  const words = `${name} at ${told.length} of ${user.desks.length} desks: ${count(sum)} pieces in all.`;
  const why = "what goes from desk to desk meanwhile may be missing in it, or count twice.";
  const lack = lacking ? " It lacks the desks that have not answered." : "";
  return `${words}${lack} It is a sum of different moments (${moments}): ${why}`;
}
function partOf(part) {
  const { from, fields, moment, words } = part;
  if (!fields) return make("p", { class: "soft" }, `${from}: ${words}`);
  const table = articleOf(part, `${from} as of ${moment}`, `At ${moment} no branch of ${from}`);
  return make("div", { class: "scroll" }, table);
}
function draw() {
  at("article-others").replaceChildren(...beside.parts.map(partOf));
  at("article-sum").textContent = sumWords();
  at("article-beside").hidden = false;
}
async function ask(part, name) {
  const say = words => { part.words = words; draw(); };
  const { status, text } = await look(`/v1/articles/${name}`, say, undefined, part.from);
  if (status === 200) Object.assign(part, { moment: timeNow(), ...readSheet(text) });
  else part.words = lookWords(status);
  draw();
}
function askOthers(name) {
  const others = user.desks.filter(from => from !== desk);
  if (!others.length) return;
  Object.assign(beside, { name, parts: others.map(from => ({ name, from, words: "it is asked …" })) });
  draw();
  for (const part of beside.parts) ask(part, name);
}
export function listDesks() {
  if (!user.desks.length) return;
  const linkOf = name =>
    make("a", { class: "chip", href: `/${name}/`, ...(name === desk ? { "aria-current": "page" } : {}) }, name);
  at("desks").replaceChildren(...user.desks.map(linkOf));
  at("desks").hidden = false;
  document.title = `${desk} – Stock desk`;
  document.querySelector("h1").textContent = `Stock desk ${desk}`;
  if (user.desks.length > 1) at("article-title").textContent = "An article at all desks";
  if (state.article) askOthers(state.article);
}
behind.asked = askOthers;
behind.article = () => { if (beside.parts.length) draw(); };
