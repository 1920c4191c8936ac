/**
 * A client for `ledgerd`, the double-entry ledger service of the project Cegarront.
 *
 * It needs nothing but `fetch`. Numbers of 64 and 128 bits are `bigint`: amounts are whole numbers in a
 * currency's smallest unit, timestamps are nanoseconds since 1970, ids have 128 bits.
 */

export { BadReply, EventsRefused, LedgerError, Refused, Unanswered } from "./errors.js";
export type { Detail } from "./errors.js";
export { newId } from "./ids.js";
export { Ledger } from "./ledger.js";
export type { CallOptions, LedgerOptions } from "./ledger.js";
export {
  AccountFlag,
  FilterFlag,
  MAX_128,
  MAX_EVENTS,
  QueryFlag,
  TransferFlag,
  balanceOf,
} from "./records.js";
export type {
  Account,
  AccountEvent,
  AccountFilter,
  Balance,
  Entry,
  Hold,
  HoldState,
  OpenHold,
  Page,
  PageFilter,
  QueryFilter,
  QueryPage,
  Transfer,
  TransferEvent,
} from "./records.js";
export { Results, accountResults, transferResults } from "./results.js";
export type { AccountResultName, Outcome, Result, TransferResultName } from "./results.js";
