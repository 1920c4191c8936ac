// The client as a process that clients/harness drives: one call per line, and its result.
//
//     node clients/typescript/harness/driver.mjs

import { createInterface } from "node:readline";

import {
  BadReply,
  EventsRefused,
  Ledger,
  LedgerError,
  Refused,
  Unanswered,
  balanceOf,
} from "../dist/index.js";

const WIDE =
  /^(id|amount|number|due|timestamp.*|user_data_(128|64)|.*_id|(debits|credits)_(pending|posted))$/;
const KINDS = new Map([
  [Refused, "refused"],
  [Unanswered, "unanswered"],
  [BadReply, "bad_reply"],
  [EventsRefused, "events_refused"],
  [LedgerError, "older_ledger"],
]);

const camel = (name) => name.replace(/_(\w)/g, (_, first) => first.toUpperCase());
const snake = (name) => name.replace(/[A-Z]|\d+/g, (part) => `_${part.toLowerCase()}`);

/** A record of a case as one of the client's. */
function record(told) {
  const entries = Object.entries(told);
  return Object.fromEntries(
    entries.map(([name, value]) => [camel(name), WIDE.test(name) ? BigInt(value) : value]),
  );
}

/** A record of the client as a reply shows it. */
function shown(value) {
  const told = Object.entries(value).map(([name, it]) => [
    snake(name),
    typeof it === "bigint" ? String(it) : it,
  ]);
  const balance = "debitsPosted" in value && "code" in value ? { balance: String(balanceOf(value)) } : {};
  return { ...Object.fromEntries(told), ...balance };
}

function batch(results, allStand) {
  if (allStand) results.throwIfRefused();
  return {
    clock: String(results.clock),
    results: [...results].map(({ number, name, timestamp, outcome, stands }) => {
      if (stands !== (outcome !== "refused")) throw new Error(`${outcome}, and stands: ${stands}`);
      return { number, result: name, timestamp: String(timestamp), outcome };
    }),
  };
}

function page({ clock, items, next }) {
  const told = { clock: String(clock), items: items.map(shown) };
  return next === undefined ? told : { ...told, next: String(next) };
}

async function all(iterator) {
  const items = [];
  for await (const each of iterator) items.push(each);
  return items;
}

async function answer(ledger, asked) {
  const call = camel(asked.call);
  if (call.startsWith("lint")) return { events: await ledger[call](asked.events.map(record)) };
  if (asked.events) return batch(await ledger[call](asked.events.map(record)), asked.all);
  if (asked.ids) return page(await ledger[call](asked.ids.map(BigInt)));
  if (call === "statement") return { items: (await ledger.statement(BigInt(asked.account))).map(shown) };
  if (call === "health") return { serving: await ledger.health() };
  if (call === "follow") {
    const pages = await all(ledger.follow(BigInt(asked.number), { limit: asked.limit }));
    return {
      pages: pages.map((it) => ({ items: it.transfers.map(shown), number: String(it.number) })),
    };
  }
  const asks = record(asked.asked);
  if (call.startsWith("iter")) return { items: (await all(ledger[call](asks))).map(shown) };
  return page(await ledger[call](asks));
}

function failure(error) {
  if (error instanceof TypeError || error instanceof RangeError) {
    return { kind: "invalid", text: error.message };
  }
  if (!(error instanceof LedgerError)) throw error;
  const told = { text: error.message, may_be_booked: error.mayBeBooked };
  if (error instanceof Refused) {
    Object.assign(told, { name: error.refusal, status: error.status }, error.detail);
  }
  if (error instanceof EventsRefused) {
    Object.assign(told, { event: error.first.place, name: error.first.result.name });
  }
  return { kind: KINDS.get(error.constructor), ...told };
}

let ledger;
for await (const line of createInterface({ input: process.stdin })) {
  const asked = JSON.parse(line);
  let given = {};
  try {
    if (asked.open) {
      const { url, key, deadline } = asked.open;
      ledger = new Ledger(url, key, { deadline: deadline * 1000 });
    } else {
      given = await answer(ledger, asked);
    }
  } catch (error) {
    given = { error: failure(error) };
  }
  process.stdout.write(JSON.stringify(given) + "\n");
}
