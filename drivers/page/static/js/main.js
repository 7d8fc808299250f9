// The page: five views, of which the address says which is shown and in which state.
import * as address from "./address.js";
import { ask, Failure, fetched } from "./api.js";
import { Commit } from "./commit.js";
import { listenToHelp, listenToMenus } from "./controls.js";
import { byId, el, fill } from "./dom.js";
import { endingText } from "./ending.js";
import { Judge } from "./judge.js";
import { copy } from "./links.js";
import { listen } from "./projector.js";
import { Race } from "./race.js";
import * as rules from "./rules.js";
import { Server } from "./server.js";
import { Sessions } from "./sessions.js";

const FIRST = "sessions";
const LOCAL = /^(localhost|127\..*)$/; // what leads each machine to itself
const LONGEST = 1_000_000; // characters of an address: browsers take about twice as many
const TOO_LONG = "This is too long for an address, which has a million characters at most.";

class App {
  constructor() {
    this.views = { sessions: new Sessions(this), race: new Race(this), commit: new Commit(this), judge: new Judge(this),
      server: new Server(this) };
    this.current = null;
    addEventListener("hashchange", () => this.enter());
    listen(() => this.enter());
    listenToMenus();
    listenToHelp();
    byId("copy-link").addEventListener("click", (event) => copy(this.link(), event.target));
  }

  async begin() {
    const [examples, outside] = await Promise.all([fetched("examples"), fetched("outside"), rules.load()]);
    this.outside = outside.addresses[0];
    for (const view of Object.values(this.views)) view.offer(examples);
    this.enter();
    const program = await ask("program", {});
    fill(byId("program"), program.version || "the program prints no version");
    this.help = program.help;
  }

  // Shows the view that the address names, as it says.
  enter() {
    const { view, state } = address.read(location.hash);
    this.current = Object.hasOwn(this.views, view) ? view : FIRST;
    this.linkOf(this.current).setAttribute("href", location.hash || `#${this.current}`);
    for (const name of Object.keys(this.views)) byId(name).hidden = name !== this.current;
    for (const link of document.querySelectorAll("nav a")) {
      if (link.dataset.view === this.current) link.setAttribute("aria-current", "page");
      else link.removeAttribute("aria-current");
    }
    document.title = `${document.querySelector("nav [aria-current]").textContent} – Classroom`;
    fill(byId("notices"));
    this.views[this.current].enter(state);
  }

  // Goes to a view in a state, as a link does.
  visit(view, state) {
    const wanted = address.write(view, state);
    if (wanted.length > LONGEST) this.notify({ fault: TOO_LONG });
    else if (location.hash === wanted) this.enter();
    else location.hash = wanted;
  }

  // The address of what is shown, as it leads here from another machine too, where other machines can come at all.
  link() {
    return this.outside && LOCAL.test(location.hostname) ? this.outside + location.hash : location.href;
  }

  linkOf(view) {
    return document.querySelector(`nav [data-view="${view}"]`);
  }

  // The address of the view that is shown follows its state; its link does so also where it isn't shown.
  keep(view, state) {
    const whole = address.write(view, state);
    const wanted = whole.length > LONGEST ? `#${view}` : whole;
    this.linkOf(view).setAttribute("href", wanted);
    if (view === this.current && location.hash !== wanted) history.replaceState(null, "", wanted);
  }

  // Says how a child ended, why one was given all lines anew, or what couldn't be asked; what was said before is gone.
  notify({ ended, note, fault }) {
    const said = [];
    if (ended) said.push(el("p.notice.ended", {}, endingText(ended), " The next step gives all lines to a new one."));
    if (note)
      said.push(el("p.notice", {},
        `The program's child had been ended, since ${note}; a new one was given the same lines.`));
    if (fault) said.push(el("p.notice.ended", {}, fault));
    fill(byId("notices"), said);
  }

  // How long it took from a question to its answer on the screen, and from the answer's return, for who measures.
  measured({ asked, returned }) {
    requestAnimationFrame(() => setTimeout(() => {
      performance.measure("question answered", { start: asked });
      performance.measure("answer shown", { start: returned });
    }));
  }
}

const app = new App();
app.begin().catch((fault) => {
  if (!(fault instanceof Failure)) throw fault;
  app.notify({ fault: fault.message });
});
window.addEventListener("unhandledrejection", (event) => app.notify({ fault: String(event.reason) }));
