/** Accounts, transfers, filters, and what the ledger shows of them (docs/MODEL.md). */
/** The greatest amount: in a post the whole pending amount, in a balancing transfer all there is. */
export const MAX_128 = (1n << 128n) - 1n;
/** The most events of a batch, ids of a look-up, and records of a page. */
export const MAX_EVENTS = 1000;
/** The flags of an account. The two limits exclude each other. */
export const AccountFlag = {
    /** The event stands or falls with the next one of its batch. */
    linked: 1,
    debitsMustNotExceedCredits: 2,
    creditsMustNotExceedDebits: 4,
    /** The balances after each entry may be asked for. */
    history: 8,
};
/** The flags of a transfer. Pending, post and void exclude each other. */
export const TransferFlag = {
    /** The event stands or falls with the next one of its batch. */
    linked: 1,
    /** A hold: the amount is set aside. */
    pending: 2,
    /** Ends the hold `pendingId`, and posts its amount or a part; the rest is released. */
    postPendingTransfer: 4,
    /** Ends the hold `pendingId`, and posts nothing. */
    voidPendingTransfer: 8,
    /** The amount is lowered to what the debit account has left. */
    balancingDebit: 16,
    /** The amount is lowered to what the credit account has left. */
    balancingCredit: 32,
};
/** Which entries of an account a filter matches, and in which order. */
export const FilterFlag = { debits: 1, credits: 2, newestFirst: 4 };
/** The order of records. */
export const QueryFlag = { newestFirst: 1 };
/**
 * An account's posted credits minus its posted debits: what a wallet holds. A bank's account is usually
 * negative.
 */
export function balanceOf(account) {
    return account.creditsPosted - account.debitsPosted;
}
