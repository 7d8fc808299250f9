// A server for MySQL's clients, as it is now: asked for each second while this view is shown.
import { ask, Failure } from "./api.js";
import { literalText, xidText } from "./cards.js";
import { byId, el, fill, sessionClass } from "./dom.js";

const EACH = 1000; // milliseconds
const HOW = { HOLDS: "holds", SHARES: "shares" };
const NUMBERS = [["connections", "connections"], ["strangers", "not logged in yet"], ["lent", "sessions lent"],
  ["waiting", "statements that wait for a session"],
  ["entries", "entries of the history"]];

function ageText(seconds) {
  if (seconds === null) return null;
  return seconds < 120 ? `${Math.round(seconds)} s` : `${Math.round(seconds / 60)} min`;
}

function owner(branch) {
  const who = branch.connection === null ? "no connection" : `connection ${branch.connection}`;
  return branch.session === null
    ? el("span.owner", {}, branch.state === "PREPARED" ? `no owner; prepared by ${who}` : who)
    : el(`span.owner.${sessionClass(branch.session)}`, {}, `${who}, session ${branch.session}`);
}

// A local transaction is a branch of the server's own, and as active as others.
function card(branch) {
  const phase = branch.state === "LOCAL" ? "active" : branch.state.toLowerCase();
  const rows = Object.entries(branch.rows);
  return el(`article.card.${phase}`, { "data-xid": branch.xid },
    el("h3", {}, xidText(branch.xid)),
    el("p", {}, el("span.phase", {}, branch.state), " ", owner(branch)),
    branch.age === null ? null : el("p.hint", {}, `since ${ageText(branch.age)}`),
    rows.length ? el("ul", {}, rows.map(([key, how]) => el("li", {}, `${HOW[how] ?? how} `, literalText(key))))
      : el("p.hint", {}, "holds no row"));
}

function counts(title, entries, none) {
  return el("table", {}, el("caption", {}, title),
    entries.length ? el("tbody", {},
      entries.map(([name, count]) => el("tr", {}, el("th", { scope: "row" }, name), el("td", {}, String(count)))))
      : el("tbody", {}, el("tr", {}, el("td.hint", {}, none))));
}

function section(store) {
  const numbers = NUMBERS.map(([name, said]) => [said, store[name]]);
  const statements = Object.entries(store.statements).filter(([, count]) => count > 0);
  return el("section.store", { "data-store": store.name, "aria-label": store.name },
    el("h2", {}, store.name, store.out ? el("span.out", {}, " is out: it refuses connections") : null),
    el("div.watched", {},
      el("div.cards", {},
        store.branches.length ? store.branches.map(card) : el("p.hint", {}, "No branch is open or prepared.")),
      el("div.tables", {}, counts("Now", numbers, ""), counts("Statements", statements, "none yet"),
        counts("Refused", Object.entries(store.refusals), "none yet"))));
}

export class Server {
  constructor(app) {
    this.app = app;
    this.timer = null;
  }

  offer() {}

  enter() {
    this.app.keep("server", {});
    if (this.timer === null) this.look();
  }

  // Asks once more after each answer, as long as this view is shown.
  async look() {
    this.timer = 0;
    try {
      this.show(await ask("server", {}));
    } catch (fault) {
      if (!(fault instanceof Failure)) throw fault;
      this.say(fault.message);
    }
    this.timer = this.app.current === "server" ? setTimeout(() => this.look(), EACH) : null;
  }

  show({ stores, fault, age, silent }) {
    byId("server-welcome").hidden = Boolean(stores);
    this.say(fault ?? (silent ? `The server has written nothing for ${ageText(age)}: it has ended, or hangs.` : ""));
    fill(byId("server-stores"), (stores ?? []).map(section));
    byId("server-stores").classList.toggle("silent", Boolean(silent));
  }

  // What is said already isn't said again, so that a screen reader reads it once.
  say(text) {
    if (byId("server-said").textContent !== text) byId("server-said").textContent = text;
  }
}
