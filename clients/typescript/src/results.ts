/** The results of events (docs/RESULTS.md). */

import { EventsRefused } from "./errors.js";

/** The results of an account event and their numbers, in the order in which they are judged. */
export const accountResults = {
  ok: 0,
  linked_event_chain_open: 1,
  linked_event_failed: 2,
  timestamp_must_be_zero: 3,
  reserved_flag: 4,
  id_must_not_be_zero: 5,
  id_must_not_be_int_max: 6,
  exists_with_different_flags: 7,
  exists_with_different_user_data_128: 8,
  exists_with_different_user_data_64: 9,
  exists_with_different_user_data_32: 10,
  exists_with_different_ledger: 11,
  exists_with_different_code: 12,
  exists: 13,
  flags_are_mutually_exclusive: 14,
  debits_pending_must_be_zero: 15,
  debits_posted_must_be_zero: 16,
  credits_pending_must_be_zero: 17,
  credits_posted_must_be_zero: 18,
  ledger_must_not_be_zero: 19,
  code_must_not_be_zero: 20,
} as const;

/** The results of a transfer event and their numbers, in the order in which they are judged. */
export const transferResults = {
  ok: 0,
  linked_event_chain_open: 1,
  linked_event_failed: 2,
  timestamp_must_be_zero: 3,
  reserved_flag: 4,
  id_must_not_be_zero: 5,
  id_must_not_be_int_max: 6,
  exists_with_different_flags: 7,
  exists_with_different_pending_id: 8,
  exists_with_different_timeout: 9,
  exists_with_different_debit_account_id: 10,
  exists_with_different_credit_account_id: 11,
  exists_with_different_amount: 12,
  exists_with_different_user_data_128: 13,
  exists_with_different_user_data_64: 14,
  exists_with_different_user_data_32: 15,
  exists_with_different_ledger: 16,
  exists_with_different_code: 17,
  exists: 18,
  id_already_failed: 60,
  flags_are_mutually_exclusive: 19,
  pending_id_must_not_be_zero: 20,
  pending_id_must_not_be_int_max: 21,
  pending_id_must_be_different: 22,
  timeout_reserved_for_pending_transfer: 23,
  pending_transfer_not_found: 24,
  pending_transfer_not_pending: 25,
  pending_transfer_has_different_debit_account_id: 26,
  pending_transfer_has_different_credit_account_id: 27,
  pending_transfer_has_different_ledger: 28,
  pending_transfer_has_different_code: 29,
  exceeds_pending_transfer_amount: 30,
  pending_transfer_has_different_amount: 31,
  pending_transfer_already_posted: 32,
  pending_transfer_already_voided: 33,
  pending_transfer_expired: 34,
  debit_account_id_must_not_be_zero: 35,
  debit_account_id_must_not_be_int_max: 36,
  credit_account_id_must_not_be_zero: 37,
  credit_account_id_must_not_be_int_max: 38,
  accounts_must_be_different: 39,
  pending_id_must_be_zero: 40,
  ledger_must_not_be_zero: 42,
  code_must_not_be_zero: 43,
  debit_account_not_found: 44,
  credit_account_not_found: 45,
  accounts_must_have_the_same_ledger: 46,
  transfer_must_have_the_same_ledger_as_accounts: 47,
  overflows_debits_pending: 48,
  overflows_credits_pending: 49,
  overflows_debits_posted: 50,
  overflows_credits_posted: 51,
  overflows_debits: 52,
  overflows_credits: 53,
  exceeds_credits: 55,
  exceeds_debits: 56,
} as const;

export type AccountResultName = keyof typeof accountResults;
export type TransferResultName = keyof typeof transferResults;

/**
 * What happened to an event:
 *
 * - `accepted`: it was accepted now.
 * - `found`: an earlier attempt of this call got no answer, and the event exists.
 * - `existed`: it existed before this call, because its id was sent before.
 * - `refused`: this call did not book it; `number` and `name` say why.
 */
export type Outcome = "accepted" | "found" | "existed" | "refused";

/**
 * The answer to one event. `number` and `name` are the ledger's own. In a chain that was found whole they
 * stay `exists` for the first event and `linked_event_failed` for the others, and `outcome` says what that
 * means. `timestamp` (nanoseconds) is that of the event's place in the batch. So it is the stored record's
 * only if the event was accepted now; else look the id up.
 */
export interface Result<Name extends string = string> {
  readonly number: number;
  /** A name of the table, or one of a later version. */
  readonly name: Name | (string & {});
  readonly timestamp: bigint;
  readonly outcome: Outcome;
  /** Whether the event stands in the ledger with the fields sent, by whichever attempt. */
  readonly stands: boolean;
}

/** The results of a batch, one for each event in its order, and the clock after the batch. */
export class Results<Name extends string = string> implements Iterable<Result<Name>> {
  constructor(
    readonly clock: bigint,
    readonly items: readonly Result<Name>[],
  ) {}

  [Symbol.iterator](): Iterator<Result<Name>> {
    return this.items[Symbol.iterator]();
  }

  /** The place (from 0) and the result of each event that was refused. */
  get refused(): readonly { readonly place: number; readonly result: Result<Name> }[] {
    return this.items.map((result, place) => ({ place, result })).filter((it) => !it.result.stands);
  }

  /** Throws `EventsRefused` if an event was refused. */
  throwIfRefused(): this {
    if (this.refused.length > 0) throw new EventsRefused(this.refused);
    return this;
  }
}
