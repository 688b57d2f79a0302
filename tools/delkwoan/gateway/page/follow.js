// The history's length, as the gateway tells it: over a WebSocket, or else asked for.

import { sayToken } from "/page/calls.js";

const AGAIN = 2000;
const NOT_SIGNED_IN = 4401;
const LOST = 3;

/** Calls `moved` with each new length, or null while the service does not answer, until the function that is given is called. */
export function follow(moved, over) {
  let isOver = false;
  let failures = 0;
  let last;
  let socket = null;
  const told = (position) => {
    if (!isOver && position !== last) moved(last = position);
  };

  async function ask() {
    if (isOver) return;
    try {
      const response = await fetch("/healthz", { cache: "no-store" });
      told(response.ok ? (await response.json()).position : null);
    } catch {
      told(null);
    }
    setTimeout(ask, AGAIN);
  }

  function listen() {
    if (isOver) return;
    socket = new WebSocket(new URL("/api/follow", location.href.replace(/^http/, "ws")));
    socket.onopen = () => sayToken(socket);
    socket.onmessage = (event) => {
      failures = 0;
      told(JSON.parse(event.data).position);
    };
    socket.onclose = (event) => {
      if (isOver) return;
      if (event.code === NOT_SIGNED_IN) return over();
      if (++failures >= LOST) return ask();
      setTimeout(listen, AGAIN / 4);
    };
  }

  listen();
  return () => {
    isOver = true;
    if (socket !== null) socket.close();
  };
}
