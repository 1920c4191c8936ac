/** Bodies of requests and replies (docs/MESSAGES.md). */

import { MAX_EVENTS } from "./records.js";
import type { Account, Balance, Entry, Hold, HoldState, OpenHold, Transfer } from "./records.js";
import type { Result } from "./results.js";

type Json = Record<string, unknown>;

/** The bits of each number of a record. Those above 32 are `bigint`, and strings in a message. */
const BITS: Readonly<Record<string, number>> = {
  id: 128,
  accountId: 128,
  debitAccountId: 128,
  creditAccountId: 128,
  pendingId: 128,
  transferId: 128,
  amount: 128,
  debitsPending: 128,
  debitsPosted: 128,
  creditsPending: 128,
  creditsPosted: 128,
  userData128: 128,
  userData64: 64,
  userData32: 32,
  timestamp: 64,
  timestampMin: 64,
  timestampMax: 64,
  due: 64,
  timeout: 32,
  ledger: 32,
  code: 16,
  flags: 16,
  limit: 16,
};

const BALANCE = ["timestamp", "debitsPending", "debitsPosted", "creditsPending", "creditsPosted"];
const MARKS = ["id", "userData128", "userData64", "userData32", "ledger", "code", "flags"];
const ACCOUNT = [...MARKS, ...BALANCE];
const TRANSFER = [
  ...MARKS,
  "debitAccountId",
  "creditAccountId",
  "amount",
  "pendingId",
  "timeout",
  "timestamp",
];

/** The body is not one that a ledger sends. */
export class Unreadable extends Error {}

/** `debitAccountId` is `debit_account_id` in a message. */
function wireName(name: string): string {
  return name.replace(/[A-Z]|\d+/g, (part) => `_${part.toLowerCase()}`);
}

/** Throws unless the value is a number of the field's width. */
function checkNumber(place: string, name: string, value: unknown): asserts value is bigint | number {
  const bits = BITS[name];
  if (bits === undefined) throw new TypeError(`${place}${name}: no field is named so`);
  const kind = bits > 32 ? "bigint" : "number";
  if (typeof value !== kind) throw new TypeError(`${place}${name}: ${String(value)} is no ${kind}`);
  if (typeof value === "number" && !Number.isInteger(value)) {
    throw new RangeError(`${place}${name}: ${value} is not whole`);
  }
  const number = BigInt(value as bigint | number);
  if (number < 0n || number >> BigInt(bits) > 0n) {
    throw new RangeError(`${place}${name}: ${value} is not from 0 to 2^${bits} - 1`);
  }
}

/** A record as JSON. Fields that are 0 are omitted, which means the same. */
function recordJson(place: string, record: object): Json {
  const json: Json = {};
  for (const [name, value] of Object.entries(record)) {
    if (value === undefined) continue;
    checkNumber(place, name, value);
    if (value != 0) json[wireName(name)] = typeof value === "bigint" ? String(value) : value;
  }
  return json;
}

function checkCount(count: number, what: string): void {
  if (count > MAX_EVENTS) {
    throw new RangeError(`${count} ${what}, and at most ${MAX_EVENTS} may be sent at once`);
  }
}

/** The body of a batch. */
export function eventsBody(events: readonly object[]): string {
  checkCount(events.length, "events");
  return JSON.stringify(events.map((event, place) => recordJson(`event ${place}: `, event)));
}

/** The body of a look-up. */
export function idsBody(ids: readonly bigint[]): string {
  checkCount(ids.length, "ids");
  ids.forEach((id, place) => checkNumber(`ids[${place}]: `, "id", id));
  return JSON.stringify(ids.map(String));
}

/** The body of a history or a query. */
export function filterBody(asked: { limit: number; flags: number }, mostFlags: number): string {
  if (!(asked.limit >= 1 && asked.limit <= MAX_EVENTS)) {
    throw new RangeError(`limit: ${asked.limit} is not from 1 to ${MAX_EVENTS}`);
  }
  if (asked.flags > mostFlags) throw new RangeError(`flags: ${asked.flags} is above ${mostFlags}`);
  return JSON.stringify(recordJson("", asked));
}

/** The path of an account's statement. */
export function statementPath(accountId: bigint): string {
  checkNumber("", "accountId", accountId);
  return `/statement/${accountId}`;
}

/** The object of a reply. */
export function objectIn(body: string): Json {
  let value: unknown;
  try {
    value = JSON.parse(body);
  } catch (error) {
    throw new Unreadable("no JSON", { cause: error });
  }
  return asObject(value);
}

function asObject(value: unknown): Json {
  if (typeof value !== "object" || value === null || Array.isArray(value)) {
    throw new Unreadable("no object");
  }
  return value as Json;
}

/** The number in a string of decimal digits. */
export function digitsIn(value: unknown): bigint {
  if (typeof value !== "string" || !/^\d+$/.test(value)) {
    throw new Unreadable(`no digits: ${String(value)}`);
  }
  return BigInt(value);
}

/** The whole number in a reply. */
export function wholeIn(value: unknown): number {
  if (!Number.isSafeInteger(value)) throw new Unreadable(`no whole number: ${String(value)}`);
  return value as number;
}

function wordIn<Word extends string>(value: unknown, words: readonly Word[]): Word {
  if (!words.includes(value as Word)) throw new Unreadable(`no ${words.join(", ")}: ${value}`);
  return value as Word;
}

function numbersIn(told: Json, names: readonly string[]): Record<string, bigint | number> {
  return Object.fromEntries(
    names.map((name) => {
      const value = told[wireName(name)];
      return [name, BITS[name] > 32 ? digitsIn(value) : wholeIn(value)];
    }),
  );
}

export function accountIn(told: Json): Account {
  return numbersIn(told, ACCOUNT) as unknown as Account;
}

export function transferIn(told: Json): Transfer {
  return numbersIn(told, TRANSFER) as unknown as Transfer;
}

export function balanceIn(told: Json): Balance {
  return numbersIn(told, BALANCE) as unknown as Balance;
}

export function holdIn(told: Json): Hold {
  const states: readonly HoldState[] = ["open", "posted", "voided", "expired"];
  return { id: digitsIn(told.id), due: digitsIn(told.due), state: wordIn(told.state, states) };
}

export function openHoldIn(told: Json): OpenHold {
  return { ...holdIn(told), timestamp: digitsIn(told.timestamp) };
}

/** The result of an event, as if it had not been sent before. */
export function resultIn(told: Json): Result {
  const number = wholeIn(told.number);
  if (typeof told.result !== "string") throw new Unreadable("a result without a name");
  const outcome = number === 0 ? "accepted" : "refused";
  const timestamp = digitsIn(told.timestamp);
  return { number, name: told.result, timestamp, outcome, stands: number === 0 };
}

/** The records of the list with that name. */
export function listIn<T>(told: Json, name: string, read: (each: Json) => T): T[] {
  const listed = told[name];
  if (!Array.isArray(listed)) throw new Unreadable(`${name} is no list`);
  return listed.map((each) => read(asObject(each)));
}

/** The entries of a statement. */
export function entriesIn(body: string): Entry[] {
  const [first, ...lines] = body.split("\n");
  const names = first.split(",");
  if (lines.pop() !== "") throw new Unreadable("a statement without an end");
  return lines.map((line) => {
    const told = Object.fromEntries(line.split(",").map((value, place) => [names[place], value]));
    return {
      ...(numbersIn(told, ["transferId", "amount", ...BALANCE]) as unknown as Entry),
      side: wordIn(told.side, ["debit", "credit"] as const),
      kind: wordIn(told.kind, ["single", "pending", "post", "void"] as const),
    };
  });
}
