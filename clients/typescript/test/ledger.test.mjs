// What cases cannot tell: calls beside each other, calls that are ended, and what names say.
import assert from "node:assert/strict";
import { readFileSync } from "node:fs";
import { createServer } from "node:http";
import { test } from "node:test";

import { Ledger, MAX_128, Unanswered, accountResults, newId, transferResults } from "../dist/index.js";

const KEY = "0f".repeat(32);

/** Serves a handler as long as a function runs, which is given the address. */
async function serving(handler, use) {
  const server = createServer(handler);
  await new Promise((resolve) => server.listen(0, "127.0.0.1", resolve));
  try {
    await use(`http://127.0.0.1:${server.address().port}`);
  } finally {
    server.closeAllConnections();
    await new Promise((resolve) => server.close(resolve));
  }
}

async function bodyOf(request) {
  let body = "";
  for await (const part of request) body += part;
  return body;
}

test("each call gets its own reply, over so many connections", async () => {
  let [now, most, meet] = [0, 0];
  // The first four requests are answered once all four are there.
  const met = new Promise((resolve) => { meet = resolve; });
  const echo = async (request, response) => {
    most = Math.max(most, ++now);
    if (now === 4) meet();
    const [id] = JSON.parse(await bodyOf(request));
    await met;
    await new Promise((resolve) => setTimeout(resolve, 2));
    now--;
    response.end(JSON.stringify({ clock: "5", pending: [{ id, due: "0", state: "open" }] }));
  };
  await serving(echo, async (url) => {
    const ledger = new Ledger(url, KEY, { connections: 4 });
    const ids = Array.from({ length: 200 }, (_, place) => BigInt(place + 1));
    const found = await Promise.all(ids.map((id) => ledger.lookupPending([id])));
    assert.deepEqual(found.map((page) => page.items[0].id), ids);
  });
  assert.equal(most, 4);
});

test("a call that is ended while it waits for a connection has sent nothing", async () => {
  let requests = 0;
  await serving(() => requests++, async (url) => {
    const ledger = new Ledger(url, KEY, { connections: 1, deadline: 400 });
    const ending = new AbortController();
    const first = ledger.createTransfers([{ id: 1n }]);
    const other = ledger.createTransfers([{ id: 2n }], { signal: ending.signal });
    setTimeout(() => ending.abort(new Error("over")), 100);
    await assert.rejects(other, /over/);
    await assert.rejects(first, (error) => error instanceof Unanswered && error.mayBeBooked);
  });
  assert.equal(requests, 1);
});

test("a call that is ended throws its reason, and gives its connection up", async () => {
  let left;
  const silent = (request) => (left = new Promise((resolve) => request.socket.on("close", resolve)));
  await serving(silent, async (url) => {
    const ending = new AbortController();
    const call = new Ledger(url, KEY).createTransfers([{ id: 1n }], { signal: ending.signal });
    while (left === undefined) await new Promise((resolve) => setTimeout(resolve, 5));
    const reason = new Error("the customer has left");
    ending.abort(reason);
    await assert.rejects(call, reason);
    await left;
  });
});

test("a call that is ended between two sendings throws its reason", async () => {
  const ending = new AbortController();
  const call = new Ledger("http://127.0.0.1:1", KEY).lookupAccounts([1n], { signal: ending.signal });
  setTimeout(() => ending.abort(new Error("over")), 120);
  await assert.rejects(call, /over/);
});

test("ids ascend", () => {
  let last = 0n;
  for (let i = 0; i < 20_000; i++) {
    const id = newId();
    assert.ok(id > last && id < MAX_128);
    last = id;
  }
});

test("results are those of docs/RESULTS.md", () => {
  const page = readFileSync(new URL("../../../docs/RESULTS.md", import.meta.url), "utf8");
  const [, accounts, transfers] = page.split(/^## (?:Accounts|Transfers)$/m);
  const rows = (part) => [...part.matchAll(/^\| (\d+) \| `(\w+)`/gm)].map((row) => [row[2], +row[1]]);
  assert.deepEqual(accountResults, Object.fromEntries(rows(accounts)));
  assert.deepEqual(transferResults, Object.fromEntries(rows(transfers)));
});

test("what is no ledger is refused at once, and the key is not told", () => {
  for (const url of ["127.0.0.1:8080", "ftp://host", "http://", "http://u:p@host", "http://h/?x"]) {
    assert.throws(() => new Ledger(url, KEY), TypeError);
  }
  for (const key of [KEY.slice(1), KEY + "0", "g".repeat(64)]) {
    assert.throws(() => new Ledger("http://127.0.0.1:1", key), (error) => !error.message.includes(key));
  }
});
