// Sends batches of none by node's fetch or http.request, and prints the status of each reply.
//
//     node fetch.mjs URL KEY WAY COUNT      WAY: turn, once, pause, stream, end, write, length
import http from "node:http";
import { setTimeout } from "node:timers/promises";

const [url, key, way, count] = process.argv.slice(2);
const headers = { "x-ledger-key": key };
const none = "[]";

// Of a text or a Buffer fetch states the length; a stream it sends in chunks.
async function byFetch(body) {
  const reply = await fetch(url, { method: "POST", headers, body, duplex: "half" });
  await reply.text();
  return reply.status;
}

// Behind a pause the service has ended the connection.
async function behindPause() {
  await setTimeout(3000);
  return byFetch(none);
}

function pieces() {
  return new ReadableStream({
    start(to) {
      to.enqueue(Buffer.from(none));
      to.close();
    },
  });
}

// Of a body in the call of `end` node states the length; what is written it sends in chunks, unless
// a header has its length.
function byRequest(send, more = {}) {
  return new Promise((done, failed) => {
    const options = { method: "POST", headers: { ...headers, ...more } };
    const sent = http.request(url, options, (reply) => {
      reply.resume();
      reply.on("end", () => done(reply.statusCode));
    });
    sent.on("error", failed);
    send(sent);
  });
}

function write(sent) {
  sent.write(none);
  sent.end();
}

const ways = {
  turn: () => byFetch(none),
  once: () => byFetch(Buffer.from(none)),
  pause: behindPause,
  stream: () => byFetch(pieces()),
  end: () => byRequest((sent) => sent.end(none)),
  write: () => byRequest(write),
  length: () => byRequest(write, { "content-length": none.length }),
};
const places = Array.from({ length: Number(count) });
if (way === "once") {
  for (const status of await Promise.all(places.map(ways.once))) console.log(status);
} else {
  for (const _ of places) console.log(await ways[way]());
}
