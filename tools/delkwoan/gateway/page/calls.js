// Calls of the gateway. The token is here alone, and goes in a header.

const TRIES = 3;
const SECOND = 1000;

let token = "";
let whenOver = () => {};

export class Refused extends Error {
  constructor(status, content) {
    super(words(status, content));
    this.status = status;
    this.content = content;
  }
}

/** What went wrong, in words. */
function words(status, content) {
  switch (content.error) {
    case "refused": return `Refused: ${content.name} ${content.value}`.trim();
    case "bad-field": return `This can't be: ${content.field}.`;
    case "unknown": {
      const why = content.number ? "The service's disk may have failed: look whether this was done, after a new start." : "The reply was lost: look whether it was done.";
      return `${why} To send it again ${content.again}.`;
    }
    case "no-seat": return "The service has no seat free, or does not answer. Nothing was sent: try again.";
    case "bad-key": return "This name and key are not known.";
    case "slowed": return "Too many keys of this name are being tried: wait a while, and try again.";
    case "no-stage": return "This gateway can not rehearse: it was given no --journal, no --roster, or finds no program.";
    case "no-rehearsal": return "Not rehearsed: the journal or the roster can not be read, or its keys are others.";
    case "fault": return content.told;
    default: return content.error ? `Not done: ${content.error}` : `Not done: status ${status}`;
  }
}

/** A word for a call, so that it counts once even where it is sent twice. */
function fresh() {
  return [...crypto.getRandomValues(new Uint8Array(16))].map((it) => it.toString(16).padStart(2, "0")).join("");
}

const pause = (time) => new Promise((resolve) => setTimeout(resolve, time));

async function sent(path, options) {
  for (let left = TRIES; ; left--) {
    try {
      return await fetch(path, options);
    } catch {
      if (left === 1) throw new Refused(0, { error: "the gateway does not answer" });
      await pause(SECOND);
    }
  }
}

export async function call(method, path, body = null) {
  const headers = token ? { Authorization: `Bearer ${token}` } : {};
  if (method !== "GET" && token) headers["Idempotency-Key"] = fresh();
  if (body !== null) headers["Content-Type"] = "application/json";
  const options = { method, headers, cache: "no-store", credentials: "omit", referrerPolicy: "no-referrer" };
  const response = await sent(path, body === null ? options : { ...options, body: JSON.stringify(body) });
  const content = response.status === 204 ? {} : await response.json().catch(() => ({}));
  if (response.ok) return content;
  if (response.status === 401 && token) {
    token = "";
    whenOver();
  }
  throw new Refused(response.status, content);
}

export async function signIn(name, key) {
  const told = await call("POST", "/api/session", { name, key });
  token = told.token;
  return told;
}

export async function signOut() {
  try {
    if (token) await call("DELETE", "/api/session");
  } finally {
    token = "";
  }
}

export const onOver = (act) => { whenOver = act; };

export const sayToken = (socket) => socket.send(token);
