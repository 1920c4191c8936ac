/** The results of events (docs/RESULTS.md). */
/** The results of an account event and their numbers, in the order in which they are judged. */
export declare const accountResults: {
    readonly ok: 0;
    readonly linked_event_chain_open: 1;
    readonly linked_event_failed: 2;
    readonly timestamp_must_be_zero: 3;
    readonly reserved_flag: 4;
    readonly id_must_not_be_zero: 5;
    readonly id_must_not_be_int_max: 6;
    readonly exists_with_different_flags: 7;
    readonly exists_with_different_user_data_128: 8;
    readonly exists_with_different_user_data_64: 9;
    readonly exists_with_different_user_data_32: 10;
    readonly exists_with_different_ledger: 11;
    readonly exists_with_different_code: 12;
    readonly exists: 13;
    readonly flags_are_mutually_exclusive: 14;
    readonly debits_pending_must_be_zero: 15;
    readonly debits_posted_must_be_zero: 16;
    readonly credits_pending_must_be_zero: 17;
    readonly credits_posted_must_be_zero: 18;
    readonly ledger_must_not_be_zero: 19;
    readonly code_must_not_be_zero: 20;
};
/** The results of a transfer event and their numbers, in the order in which they are judged. */
export declare const transferResults: {
    readonly ok: 0;
    readonly linked_event_chain_open: 1;
    readonly linked_event_failed: 2;
    readonly timestamp_must_be_zero: 3;
    readonly reserved_flag: 4;
    readonly id_must_not_be_zero: 5;
    readonly id_must_not_be_int_max: 6;
    readonly exists_with_different_flags: 7;
    readonly exists_with_different_pending_id: 8;
    readonly exists_with_different_timeout: 9;
    readonly exists_with_different_debit_account_id: 10;
    readonly exists_with_different_credit_account_id: 11;
    readonly exists_with_different_amount: 12;
    readonly exists_with_different_user_data_128: 13;
    readonly exists_with_different_user_data_64: 14;
    readonly exists_with_different_user_data_32: 15;
    readonly exists_with_different_ledger: 16;
    readonly exists_with_different_code: 17;
    readonly exists: 18;
    readonly id_already_failed: 60;
    readonly flags_are_mutually_exclusive: 19;
    readonly pending_id_must_not_be_zero: 20;
    readonly pending_id_must_not_be_int_max: 21;
    readonly pending_id_must_be_different: 22;
    readonly timeout_reserved_for_pending_transfer: 23;
    readonly pending_transfer_not_found: 24;
    readonly pending_transfer_not_pending: 25;
    readonly pending_transfer_has_different_debit_account_id: 26;
    readonly pending_transfer_has_different_credit_account_id: 27;
    readonly pending_transfer_has_different_ledger: 28;
    readonly pending_transfer_has_different_code: 29;
    readonly exceeds_pending_transfer_amount: 30;
    readonly pending_transfer_has_different_amount: 31;
    readonly pending_transfer_already_posted: 32;
    readonly pending_transfer_already_voided: 33;
    readonly pending_transfer_expired: 34;
    readonly debit_account_id_must_not_be_zero: 35;
    readonly debit_account_id_must_not_be_int_max: 36;
    readonly credit_account_id_must_not_be_zero: 37;
    readonly credit_account_id_must_not_be_int_max: 38;
    readonly accounts_must_be_different: 39;
    readonly pending_id_must_be_zero: 40;
    readonly ledger_must_not_be_zero: 42;
    readonly code_must_not_be_zero: 43;
    readonly debit_account_not_found: 44;
    readonly credit_account_not_found: 45;
    readonly accounts_must_have_the_same_ledger: 46;
    readonly transfer_must_have_the_same_ledger_as_accounts: 47;
    readonly overflows_debits_pending: 48;
    readonly overflows_credits_pending: 49;
    readonly overflows_debits_posted: 50;
    readonly overflows_credits_posted: 51;
    readonly overflows_debits: 52;
    readonly overflows_credits: 53;
    readonly exceeds_credits: 55;
    readonly exceeds_debits: 56;
};
export declare type AccountResultName = keyof typeof accountResults;
export declare type TransferResultName = keyof typeof transferResults;
/**
 * What happened to an event:
 *
 * - `accepted`: it was accepted now.
 * - `found`: an earlier attempt of this call got no answer, and the event exists.
 * - `existed`: it existed before this call, because its id was sent before.
 * - `refused`: this call did not book it; `number` and `name` say why.
 */
export declare type Outcome = "accepted" | "found" | "existed" | "refused";
/**
 * The answer to one event. `number` and `name` are the ledger's own. In a chain that was found whole they
 * stay `exists` for the first event and `linked_event_failed` for the others, and `outcome` says what that
 * means. `timestamp` (nanoseconds) is that of the event's place in the batch. So it is the stored record's
 * only if the event was accepted now; else look the id up.
 */
export interface Result<Name extends string = string> {
    readonly number: number;
    /** A name of the table, or one of a later version. */
    readonly name: Name | (string & {});
    readonly timestamp: bigint;
    readonly outcome: Outcome;
    /** Whether the event stands in the ledger with the fields sent, by whichever attempt. */
    readonly stands: boolean;
}
/** The results of a batch, one for each event in its order, and the clock after the batch. */
export declare class Results<Name extends string = string> implements Iterable<Result<Name>> {
    readonly clock: bigint;
    readonly items: readonly Result<Name>[];
    constructor(clock: bigint, items: readonly Result<Name>[]);
    [Symbol.iterator](): Iterator<Result<Name>>;
    /** The place (from 0) and the result of each event that was refused. */
    get refused(): readonly {
        readonly place: number;
        readonly result: Result<Name>;
    }[];
    /** Throws `EventsRefused` if an event was refused. */
    throwIfRefused(): this;
}
