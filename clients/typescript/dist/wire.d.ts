/** Bodies of requests and replies (docs/MESSAGES.md). */
import type { Account, Balance, Entry, Hold, OpenHold, Transfer } from "./records.js";
import type { Result } from "./results.js";
declare type Json = Record<string, unknown>;
/** The body is not one that a ledger sends. */
export declare class Unreadable extends Error {
}
/** The body of a batch. */
export declare function eventsBody(events: readonly object[]): string;
/** The body of a look-up. */
export declare function idsBody(ids: readonly bigint[]): string;
/** The body of a history or a query. */
export declare function filterBody(asked: {
    limit: number;
    flags: number;
}, mostFlags: number): string;
/** The path of an account's statement. */
export declare function statementPath(accountId: bigint): string;
/** The object of a reply. */
export declare function objectIn(body: string): Json;
/** The number in a string of decimal digits. */
export declare function digitsIn(value: unknown): bigint;
/** The whole number in a reply. */
export declare function wholeIn(value: unknown): number;
export declare function accountIn(told: Json): Account;
export declare function transferIn(told: Json): Transfer;
export declare function balanceIn(told: Json): Balance;
export declare function holdIn(told: Json): Hold;
export declare function openHoldIn(told: Json): OpenHold;
/** The result of an event, as if it had not been sent before. */
export declare function resultIn(told: Json): Result;
/** The records of the list with that name. */
export declare function listIn<T>(told: Json, name: string, read: (each: Json) => T): T[];
/** The entries of a statement. */
export declare function entriesIn(body: string): Entry[];
export {};
