// What is asked of the server. A question that can't be answered is a Failure with a text for the page.

export class Failure extends Error {}

async function answerOf(response) {
  if (response.ok) return response.json();
  throw new Failure((await response.text()).trim() || `status ${response.status}`);
}

async function sent(path, settings) {
  try {
    return await fetch(path, settings);
  } catch {
    throw new Failure("the page's server doesn't answer: it may have been ended");
  }
}

export async function ask(job, question) {
  return answerOf(await sent(`/api/${job}`, {
    method: "POST", headers: { "Content-Type": "application/json" }, body: JSON.stringify(question),
  }));
}

export async function fetched(name) {
  return answerOf(await sent(`/api/${name}`));
}

// This page's own name among those that talk with the server. (A page from another machine has no crypto.randomUUID.)
export const NAME = Array.from(crypto.getRandomValues(new Uint8Array(16)), (byte) => byte.toString(16).padStart(2, "0"))
  .join("");

addEventListener("pagehide", () => {
  navigator.sendBeacon("/api/end", new Blob([JSON.stringify({ talk: NAME })], { type: "application/json" }));
});
