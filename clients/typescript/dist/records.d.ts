/** Accounts, transfers, filters, and what the ledger shows of them (docs/MODEL.md). */
/** The greatest amount: in a post the whole pending amount, in a balancing transfer all there is. */
export declare const MAX_128: bigint;
/** The most events of a batch, ids of a look-up, and records of a page. */
export declare const MAX_EVENTS = 1000;
/** The flags of an account. The two limits exclude each other. */
export declare const AccountFlag: {
    /** The event stands or falls with the next one of its batch. */
    readonly linked: 1;
    readonly debitsMustNotExceedCredits: 2;
    readonly creditsMustNotExceedDebits: 4;
    /** The balances after each entry may be asked for. */
    readonly history: 8;
};
/** The flags of a transfer. Pending, post and void exclude each other. */
export declare const TransferFlag: {
    /** The event stands or falls with the next one of its batch. */
    readonly linked: 1;
    /** A hold: the amount is set aside. */
    readonly pending: 2;
    /** Ends the hold `pendingId`, and posts its amount or a part; the rest is released. */
    readonly postPendingTransfer: 4;
    /** Ends the hold `pendingId`, and posts nothing. */
    readonly voidPendingTransfer: 8;
    /** The amount is lowered to what the debit account has left. */
    readonly balancingDebit: 16;
    /** The amount is lowered to what the credit account has left. */
    readonly balancingCredit: 32;
};
/** Which entries of an account a filter matches, and in which order. */
export declare const FilterFlag: {
    readonly debits: 1;
    readonly credits: 2;
    readonly newestFirst: 4;
};
/** The order of records. */
export declare const QueryFlag: {
    readonly newestFirst: 1;
};
/**
 * An account. The four balances and the timestamp (nanoseconds) are the ledger's to fill: leave them
 * out of an account to be opened.
 */
export interface Account {
    /** Neither 0 nor `MAX_128`. */
    readonly id: bigint;
    /** Not 0: only accounts of one ledger transfer to each other. */
    readonly ledger: number;
    /** Not 0, and yours: what kind of account it is. */
    readonly code: number;
    readonly flags: number;
    readonly userData128: bigint;
    readonly userData64: bigint;
    readonly userData32: number;
    readonly debitsPending: bigint;
    readonly debitsPosted: bigint;
    readonly creditsPending: bigint;
    readonly creditsPosted: bigint;
    readonly timestamp: bigint;
}
/** An account to open: omitted fields are 0. */
export declare type AccountEvent = Pick<Account, "id" | "ledger" | "code"> & Partial<Account>;
/**
 * A transfer. `amount` is in the ledger's smallest unit, `timeout` of a pending transfer in seconds (0
 * is never), and `timestamp` in nanoseconds (the ledger's to fill).
 */
export interface Transfer {
    /** Neither 0 nor `MAX_128`. */
    readonly id: bigint;
    readonly debitAccountId: bigint;
    readonly creditAccountId: bigint;
    readonly amount: bigint;
    /** The hold that a post or void ends, else 0. */
    readonly pendingId: bigint;
    readonly userData128: bigint;
    readonly userData64: bigint;
    readonly userData32: number;
    readonly timeout: number;
    readonly ledger: number;
    readonly code: number;
    readonly flags: number;
    readonly timestamp: bigint;
}
/**
 * A transfer to send: omitted fields are 0. In a post or void an account, ledger, code or user data of 0
 * takes the hold's value.
 */
export declare type TransferEvent = Pick<Transfer, "id"> & Partial<Transfer>;
/** A range of times in nanoseconds, inclusive; 0 is no bound. */
export interface PageFilter {
    readonly timestampMin?: bigint;
    readonly timestampMax?: bigint;
    /** Records per page, 1 to 1,000, which is the default. */
    readonly limit?: number;
    readonly flags?: number;
}
/** Which entries of an account to return: those of both sides, if `flags` are omitted. */
export interface AccountFilter extends PageFilter {
    readonly accountId: bigint;
}
/** Which accounts or transfers to return: those with each value given. 0 matches any. */
export interface QueryFilter extends PageFilter {
    readonly userData128?: bigint;
    readonly userData64?: bigint;
    readonly userData32?: number;
    readonly ledger?: number;
    readonly code?: number;
}
export declare type HoldState = "open" | "posted" | "voided" | "expired";
/** The state of a pending transfer. `due` is when it expires (nanoseconds), 0 for never. */
export interface Hold {
    readonly id: bigint;
    readonly due: bigint;
    readonly state: HoldState;
}
/** An open hold, with the time at which it was accepted. */
export interface OpenHold extends Hold {
    readonly timestamp: bigint;
}
/** An account's balances after the entry with this timestamp. */
export interface Balance {
    readonly timestamp: bigint;
    readonly debitsPending: bigint;
    readonly debitsPosted: bigint;
    readonly creditsPending: bigint;
    readonly creditsPosted: bigint;
}
/** A line of an account's statement: a transfer, and the account's balances after it. */
export interface Entry extends Balance {
    readonly transferId: bigint;
    readonly side: "debit" | "credit";
    readonly kind: "single" | "pending" | "post" | "void";
    readonly amount: bigint;
}
/** The items of a reply, and the ledger's clock (nanoseconds) at that time. */
export interface Page<T> {
    readonly clock: bigint;
    readonly items: readonly T[];
}
/**
 * A page of a query. `next` is the `timestampMin` of the next page, or with `newestFirst` its
 * `timestampMax`. It is 0 after the last page. A page may have fewer items than its limit, or none, and
 * still have a next one.
 */
export interface QueryPage<T> extends Page<T> {
    readonly next: bigint;
}
/**
 * An account's posted credits minus its posted debits: what a wallet holds. A bank's account is usually
 * negative.
 */
export declare function balanceOf(account: Account): bigint;
