// Where a call goes, by the words that it is written with, and what it is answered: all else about it is the program's.
import { isBlank } from "./bytes.js";

const BLANKS = /[ \t\r]+/;

// What a remark tells of a manager that is shown in its own place: it is drawn, and is a step of its own.
const EVENT = /^#@[ \t]*(crash|restart|lost|unanswered|outage|verdict)\b/;
const NAMES = /^#@[ \t]*(manager|other)\b/;

// {kind, store, said}: `kind` is "remark", "blank", "event", "stranger", "store", "crash" or "coordinator"; `said` what
// the arrow says.
export function readCall(line) {
  const trimmed = line.replace(/^[ \t\r]+|[ \t\r]+$/g, "");
  if (isBlank(line)) return { kind: "blank", store: null, said: "" };
  if (EVENT.test(trimmed)) return { kind: "event", store: null, said: trimmed.replace(/^#@[ \t]*/, "") };
  if (NAMES.test(trimmed)) return { kind: "blank", store: null, said: "" };
  if (trimmed.startsWith("#")) return { kind: "remark", store: null, said: trimmed.slice(1).trim() };
  const [word, ...words] = trimmed.split(BLANKS);
  const store = (at) => (/^\d{1,2}$/.test(words[at] ?? "") ? Number(words[at]) : null);
  if (word === "WORK") return { kind: "store", store: store(1), said: trimmed };
  if (word === "AT") return { kind: "stranger", store: store(0), said: trimmed };
  if (word === "FAIL") return { kind: "crash", store: store(0), said: trimmed };
  if (word === "STOP") return { kind: "crash", store: null, said: trimmed };
  return { kind: "coordinator", store: null, said: trimmed };
}

// Whether the coordinator may ask its sessions something for this line.
export const asksStores = (line) => /^[ \t]*(WORK|PREPARE|FINISH|ABANDON|RECOVER)\b/.test(line);

const BAD = /^(ERROR|FAULT|NOT STARTED|LOST|NO \d|HAZARD|UNFINISHED|UNRECOVERED|STILL PREPARED|UNKNOWN|WRONG STAGE|CLOSED|NUMBERS SPENT)/;

// Whether an answer says that something wasn't done.
export const isBad = (answer) => BAD.test(answer);

// The number of the transaction that was begun last, as the program answered.
export function lastBegun(answers) {
  const begun = answers.map((answer) => /^TRANSACTION (\d+)\n/.exec(answer)).filter(Boolean);
  return begun.length ? begun.at(-1)[1] : null;
}

const CAPTIONS = ["remark", "blank"];

// Whether a line is read in passing: a step doesn't end behind it.
export const isCaption = (line) => CAPTIONS.includes(readCall(line).kind);

// Whether a line isn't a call, but tells what happens.
export const isEvent = (line) => readCall(line).kind === "event";
