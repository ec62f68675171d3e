/** A transport over TCP, for node. Its module is loaded when somebody dials, so that browsers may have this file. */
import { LinkEnded, Unreachable } from "./faults.js";

/**
 * How to dial HOST:PORT.
 * @param {string} address @returns {import("./dsd.js").Dial}
 */
export function tcp(address) {
  const at = address.lastIndexOf(":");
  const host = address.slice(0, at).replace(/^\[|\]$/g, ""), port = Number(address.slice(at + 1));
  return async (listener) => {
    const { connect } = await import("node:net");
    return new Promise((resolve, reject) => {
      // a server that ends its half has ended the link, and what we send into it then is lost
      const socket = connect({ host, port, noDelay: true });
      let fault;
      socket.on("connect", () => resolve(transport(socket)));
      socket.on("data", (bytes) => listener.bytes(bytes));
      socket.on("error", (error) => (fault = error));
      socket.on("close", () => {
        reject(new Unreachable(`${address}: ${fault?.message}`, { cause: fault }));
        listener.end(new LinkEnded(fault === undefined ? "the server left" : fault.message, { cause: fault }));
      });
    });
  };
}

/** @param {import("node:net").Socket} socket @returns {import("./dsd.js").Transport} */
function transport(socket) {
  return {
    send: (bytes) => void socket.write(bytes),
    finish: () => void socket.end(),
    close: () => void socket.destroy(),
  };
}
