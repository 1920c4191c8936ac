/**
 * Chains that were sent again, and whether they stand.
 *
 * A chain stands or falls whole, and inside it `exists` is a failure. So a chain that was accepted, sent
 * again, answers `exists` for its first event and `linked_event_failed` for all others. So does a chain
 * of which another request has booked an event or two. A look-up of all its ids shows which it is.
 */
import type { Account, AccountEvent, Transfer, TransferEvent } from "./records.js";
/** The places of each chain of a batch, without its end. An unlinked event is a chain of its own. */
export declare function chainsOf(events: readonly {
    flags?: number;
}[]): [from: number, to: number][];
/** Whether these are the results of a chain of several events that may have been accepted. */
export declare function mayStand(numbers: readonly number[], exists: number): boolean;
/** Whether an account exists with the fields sent. */
export declare function accountStands(sent: AccountEvent, there: Account | undefined): boolean;
/** The ids of transfers, and of the holds that they post in full. */
export declare function idsToLookUp(sent: readonly TransferEvent[]): bigint[];
/**
 * Whether a transfer exists with the fields sent, by the rules with which the ledger answers `exists`.
 * `found` has the transfers of `idsToLookUp`.
 */
export declare function transferStands(sent: TransferEvent, found: ReadonlyMap<bigint, Transfer>): boolean;
