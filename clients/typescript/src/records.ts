/** Accounts, transfers, filters, and what the ledger shows of them (docs/MODEL.md). */

/** The greatest amount: in a post the whole pending amount, in a balancing transfer all there is. */
export const MAX_128 = (1n << 128n) - 1n;

/** The most events of a batch, ids of a look-up, and records of a page. */
export const MAX_EVENTS = 1000;

/** The flags of an account. The two limits exclude each other. */
export const AccountFlag = {
  /** The event stands or falls with the next one of its batch. */
  linked: 1,
  debitsMustNotExceedCredits: 2,
  creditsMustNotExceedDebits: 4,
  /** The balances after each entry may be asked for. */
  history: 8,
} as const;

/** The flags of a transfer. Pending, post and void exclude each other. */
export const TransferFlag = {
  /** The event stands or falls with the next one of its batch. */
  linked: 1,
  /** A hold: the amount is set aside. */
  pending: 2,
  /** Ends the hold `pendingId`, and posts its amount or a part; the rest is released. */
  postPendingTransfer: 4,
  /** Ends the hold `pendingId`, and posts nothing. */
  voidPendingTransfer: 8,
  /** The amount is lowered to what the debit account has left. */
  balancingDebit: 16,
  /** The amount is lowered to what the credit account has left. */
  balancingCredit: 32,
} as const;

/** Which entries of an account a filter matches, and in which order. */
export const FilterFlag = { debits: 1, credits: 2, newestFirst: 4 } as const;

/** The order of records. */
export const QueryFlag = { newestFirst: 1 } as const;

/**
 * An account. The four balances and the timestamp (nanoseconds) are the ledger's to fill: leave them
 * out of an account to be opened.
 */
export interface Account {
  /** Neither 0 nor `MAX_128`. */
  readonly id: bigint;
  /** Not 0: only accounts of one ledger transfer to each other. */
  readonly ledger: number;
  /** Not 0, and yours: what kind of account it is. */
  readonly code: number;
  readonly flags: number;
  readonly userData128: bigint;
  readonly userData64: bigint;
  readonly userData32: number;
  readonly debitsPending: bigint;
  readonly debitsPosted: bigint;
  readonly creditsPending: bigint;
  readonly creditsPosted: bigint;
  readonly timestamp: bigint;
}

/** An account to open: omitted fields are 0. */
export type AccountEvent = Pick<Account, "id" | "ledger" | "code"> & Partial<Account>;

/**
 * A transfer. `amount` is in the ledger's smallest unit, `timeout` of a pending transfer in seconds (0
 * is never), and `timestamp` in nanoseconds (the ledger's to fill).
 */
export interface Transfer {
  /** Neither 0 nor `MAX_128`. */
  readonly id: bigint;
  readonly debitAccountId: bigint;
  readonly creditAccountId: bigint;
  readonly amount: bigint;
  /** The hold that a post or void ends, else 0. */
  readonly pendingId: bigint;
  readonly userData128: bigint;
  readonly userData64: bigint;
  readonly userData32: number;
  readonly timeout: number;
  readonly ledger: number;
  readonly code: number;
  readonly flags: number;
  readonly timestamp: bigint;
}

/**
 * A transfer to send: omitted fields are 0. In a post or void an account, ledger, code or user data of 0
 * takes the hold's value.
 */
export type TransferEvent = Pick<Transfer, "id"> & Partial<Transfer>;

/** A range of times in nanoseconds, inclusive; 0 is no bound. */
export interface PageFilter {
  readonly timestampMin?: bigint;
  readonly timestampMax?: bigint;
  /** Records per page, 1 to 1,000, which is the default. */
  readonly limit?: number;
  readonly flags?: number;
}

/** Which entries of an account to return: those of both sides, if `flags` are omitted. */
export interface AccountFilter extends PageFilter {
  readonly accountId: bigint;
}

/** Which accounts or transfers to return: those with each value given. 0 matches any. */
export interface QueryFilter extends PageFilter {
  readonly userData128?: bigint;
  readonly userData64?: bigint;
  readonly userData32?: number;
  readonly ledger?: number;
  readonly code?: number;
}

export type HoldState = "open" | "posted" | "voided" | "expired";

/** The state of a pending transfer. `due` is when it expires (nanoseconds), 0 for never. */
export interface Hold {
  readonly id: bigint;
  readonly due: bigint;
  readonly state: HoldState;
}

/** An open hold, with the time at which it was accepted. */
export interface OpenHold extends Hold {
  readonly timestamp: bigint;
}

/** An account's balances after the entry with this timestamp. */
export interface Balance {
  readonly timestamp: bigint;
  readonly debitsPending: bigint;
  readonly debitsPosted: bigint;
  readonly creditsPending: bigint;
  readonly creditsPosted: bigint;
}

/** A line of an account's statement: a transfer, and the account's balances after it. */
export interface Entry extends Balance {
  readonly transferId: bigint;
  readonly side: "debit" | "credit";
  readonly kind: "single" | "pending" | "post" | "void";
  readonly amount: bigint;
}

/** The items of a reply, and the ledger's clock (nanoseconds) at that time. */
export interface Page<T> {
  readonly clock: bigint;
  readonly items: readonly T[];
}

/**
 * A page of a query. `next` is the `timestampMin` of the next page, or with `newestFirst` its
 * `timestampMax`. It is 0 after the last page. A page may have fewer items than its limit, or none, and
 * still have a next one.
 */
export interface QueryPage<T> extends Page<T> {
  readonly next: bigint;
}

/**
 * An account's posted credits minus its posted debits: what a wallet holds. A bank's account is usually
 * negative.
 */
export function balanceOf(account: Account): bigint {
  return account.creditsPosted - account.debitsPosted;
}
