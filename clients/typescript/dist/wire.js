/** Bodies of requests and replies (docs/MESSAGES.md). */
import { MAX_EVENTS } from "./records.js";
/** The bits of each number of a record. Those above 32 are `bigint`, and strings in a message. */
const BITS = {
    id: 128,
    accountId: 128,
    debitAccountId: 128,
    creditAccountId: 128,
    pendingId: 128,
    transferId: 128,
    amount: 128,
    debitsPending: 128,
    debitsPosted: 128,
    creditsPending: 128,
    creditsPosted: 128,
    userData128: 128,
    userData64: 64,
    userData32: 32,
    timestamp: 64,
    timestampMin: 64,
    timestampMax: 64,
    due: 64,
    timeout: 32,
    ledger: 32,
    code: 16,
    flags: 16,
    limit: 16,
};
const BALANCE = ["timestamp", "debitsPending", "debitsPosted", "creditsPending", "creditsPosted"];
const MARKS = ["id", "userData128", "userData64", "userData32", "ledger", "code", "flags"];
const ACCOUNT = [...MARKS, ...BALANCE];
const TRANSFER = [
    ...MARKS,
    "debitAccountId",
    "creditAccountId",
    "amount",
    "pendingId",
    "timeout",
    "timestamp",
];
/** The body is not one that a ledger sends. */
export class Unreadable extends Error {
}
/** `debitAccountId` is `debit_account_id` in a message. */
function wireName(name) {
    return name.replace(/[A-Z]|\d+/g, (part) => `_${part.toLowerCase()}`);
}
/** Throws unless the value is a number of the field's width. */
function checkNumber(place, name, value) {
    const bits = BITS[name];
    if (bits === undefined)
        throw new TypeError(`${place}${name}: no field is named so`);
    const kind = bits > 32 ? "bigint" : "number";
    if (typeof value !== kind)
        throw new TypeError(`${place}${name}: ${String(value)} is no ${kind}`);
    if (typeof value === "number" && !Number.isInteger(value)) {
        throw new RangeError(`${place}${name}: ${value} is not whole`);
    }
    const number = BigInt(value);
    if (number < 0n || number >> BigInt(bits) > 0n) {
        throw new RangeError(`${place}${name}: ${value} is not from 0 to 2^${bits} - 1`);
    }
}
/** A record as JSON. Fields that are 0 are omitted, which means the same. */
function recordJson(place, record) {
    const json = {};
    for (const [name, value] of Object.entries(record)) {
        if (value === undefined)
            continue;
        checkNumber(place, name, value);
        if (value != 0)
            json[wireName(name)] = typeof value === "bigint" ? String(value) : value;
    }
    return json;
}
function checkCount(count, what) {
    if (count > MAX_EVENTS) {
        throw new RangeError(`${count} ${what}, and at most ${MAX_EVENTS} may be sent at once`);
    }
}
/** The body of a batch. */
export function eventsBody(events) {
    checkCount(events.length, "events");
    return JSON.stringify(events.map((event, place) => recordJson(`event ${place}: `, event)));
}
/** The body of a look-up. */
export function idsBody(ids) {
    checkCount(ids.length, "ids");
    ids.forEach((id, place) => checkNumber(`ids[${place}]: `, "id", id));
    return JSON.stringify(ids.map(String));
}
/** The body of a history or a query. */
export function filterBody(asked, mostFlags) {
    if (!(asked.limit >= 1 && asked.limit <= MAX_EVENTS)) {
        throw new RangeError(`limit: ${asked.limit} is not from 1 to ${MAX_EVENTS}`);
    }
    if (asked.flags > mostFlags)
        throw new RangeError(`flags: ${asked.flags} is above ${mostFlags}`);
    return JSON.stringify(recordJson("", asked));
}
/** The path of an account's statement. */
export function statementPath(accountId) {
    checkNumber("", "accountId", accountId);
    return `/statement/${accountId}`;
}
/** The object of a reply. */
export function objectIn(body) {
    let value;
    try {
        value = JSON.parse(body);
    }
    catch (error) {
        throw new Unreadable("no JSON", { cause: error });
    }
    return asObject(value);
}
function asObject(value) {
    if (typeof value !== "object" || value === null || Array.isArray(value)) {
        throw new Unreadable("no object");
    }
    return value;
}
/** The number in a string of decimal digits. */
export function digitsIn(value) {
    if (typeof value !== "string" || !/^\d+$/.test(value)) {
        throw new Unreadable(`no digits: ${String(value)}`);
    }
    return BigInt(value);
}
/** The whole number in a reply. */
export function wholeIn(value) {
    if (!Number.isSafeInteger(value))
        throw new Unreadable(`no whole number: ${String(value)}`);
    return value;
}
function wordIn(value, words) {
    if (!words.includes(value))
        throw new Unreadable(`no ${words.join(", ")}: ${value}`);
    return value;
}
function numbersIn(told, names) {
    return Object.fromEntries(names.map((name) => {
        const value = told[wireName(name)];
        return [name, BITS[name] > 32 ? digitsIn(value) : wholeIn(value)];
    }));
}
export function accountIn(told) {
    return numbersIn(told, ACCOUNT);
}
export function transferIn(told) {
    return numbersIn(told, TRANSFER);
}
export function balanceIn(told) {
    return numbersIn(told, BALANCE);
}
export function holdIn(told) {
    const states = ["open", "posted", "voided", "expired"];
    return { id: digitsIn(told.id), due: digitsIn(told.due), state: wordIn(told.state, states) };
}
export function openHoldIn(told) {
    return { ...holdIn(told), timestamp: digitsIn(told.timestamp) };
}
/** The result of an event, as if it had not been sent before. */
export function resultIn(told) {
    const number = wholeIn(told.number);
    if (typeof told.result !== "string")
        throw new Unreadable("a result without a name");
    const outcome = number === 0 ? "accepted" : "refused";
    const timestamp = digitsIn(told.timestamp);
    return { number, name: told.result, timestamp, outcome, stands: number === 0 };
}
/** The records of the list with that name. */
export function listIn(told, name, read) {
    const listed = told[name];
    if (!Array.isArray(listed))
        throw new Unreadable(`${name} is no list`);
    return listed.map((each) => read(asObject(each)));
}
/** The entries of a statement. */
export function entriesIn(body) {
    const [first, ...lines] = body.split("\n");
    const names = first.split(",");
    if (lines.pop() !== "")
        throw new Unreadable("a statement without an end");
    return lines.map((line) => {
        const told = Object.fromEntries(line.split(",").map((value, place) => [names[place], value]));
        return {
            ...numbersIn(told, ["transferId", "amount", ...BALANCE]),
            side: wordIn(told.side, ["debit", "credit"]),
            kind: wordIn(told.kind, ["single", "pending", "post", "void"]),
        };
    });
}
