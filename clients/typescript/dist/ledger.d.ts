/** The routes of the service, as methods. */
import type { Account, AccountEvent, AccountFilter, Balance, Entry, Hold, OpenHold, Page, PageFilter, QueryFilter, QueryPage, Transfer, TransferEvent } from "./records.js";
import { Results } from "./results.js";
import type { AccountResultName, TransferResultName } from "./results.js";
export interface LedgerOptions {
    /** Milliseconds that a whole call may take, 60,000 by default. */
    readonly deadline?: number;
    /** The most requests that run at once, 16 by default. */
    readonly connections?: number;
}
export interface CallOptions {
    /** Aborts the call, which then throws the signal's reason. Its batch may be booked all the same. */
    readonly signal?: AbortSignal;
}
/**
 * A tenant's ledger, at an address and with the tenant's key (64 hexadecimal digits).
 *
 * A call waits for its answer until its deadline, as long as the connection stands. It resends the same
 * bytes, after growing pauses, if the connection was cut or refused, if the service is `unavailable`, and
 * if it replies `busy` or `too_much`. That never books an event twice.
 *
 * Calls throw `Unanswered` if no answer came before the deadline, `Refused` with the refusal's name if the
 * service refuses the request, `BadReply` if something other than a ledger answers, and `TypeError` or
 * `RangeError`, before anything is sent, for invalid arguments.
 */
export declare class Ledger {
    #private;
    constructor(url: string, key: string, options?: LedgerOptions);
    /** Opens accounts, as one batch of at most 1,000, and returns a result for each. */
    createAccounts(accounts: readonly AccountEvent[], options?: CallOptions): Promise<Results<AccountResultName>>;
    /**
     * Sends transfers, posts and voids, as one batch of at most 1,000, and returns a result for each. An
     * empty batch moves the clock, so that holds that are due expire.
     */
    createTransfers(transfers: readonly TransferEvent[], options?: CallOptions): Promise<Results<TransferResultName>>;
    /**
     * Has the service judge accounts as `createAccounts` sends them, and books nothing. Returns how many there
     * are. The `detail` of a `Refused` says which field of which one is wrong.
     */
    lintAccounts(accounts: readonly AccountEvent[], options?: CallOptions): Promise<number>;
    /** Has the service judge transfers as `createTransfers` sends them, and books nothing. */
    lintTransfers(transfers: readonly TransferEvent[], options?: CallOptions): Promise<number>;
    /**
     * The accounts that exist among at most 1,000 ids, in the order asked. Balances are those at the
     * ledger's clock: they include a hold that is due until the next batch, or until the service releases
     * it, within seconds.
     */
    lookupAccounts(ids: readonly bigint[], options?: CallOptions): Promise<Page<Account>>;
    /**
     * The transfers that exist among at most 1,000 ids, in the order asked. A missing one may still be on
     * its way, if its batch got no answer.
     */
    lookupTransfers(ids: readonly bigint[], options?: CallOptions): Promise<Page<Transfer>>;
    /** The state of the pending transfers with these ids. Other ids are omitted. */
    lookupPending(ids: readonly bigint[], options?: CallOptions): Promise<Page<Hold>>;
    /** A page of an account's transfers. `Refused`: `no_account`. */
    getAccountTransfers(asked: AccountFilter, options?: CallOptions): Promise<Page<Transfer>>;
    /** A page of an account's balances after its transfers. `Refused`: `no_account`, `no_history`. */
    getAccountBalances(asked: AccountFilter, options?: CallOptions): Promise<Page<Balance>>;
    /** A page of the accounts that match the filter, in the order in which they were opened. */
    queryAccounts(asked?: QueryFilter, options?: CallOptions): Promise<QueryPage<Account>>;
    /** A page of the transfers that match the filter, in the order in which they were accepted. */
    queryTransfers(asked?: QueryFilter, options?: CallOptions): Promise<QueryPage<Transfer>>;
    /** A page of the open pending transfers, in the order in which they were accepted. */
    openPending(asked?: PageFilter, options?: CallOptions): Promise<QueryPage<OpenHold>>;
    /** All transfers of an account that match the filter. Pages are fetched as needed. */
    iterAccountTransfers(asked: AccountFilter, options?: CallOptions): AsyncGenerator<Transfer>;
    /** All balances of an account that match the filter, fetched in the same way. */
    iterAccountBalances(asked: AccountFilter, options?: CallOptions): AsyncGenerator<Balance>;
    /** All accounts that match the filter; each page has the balances of its own time. */
    iterAccounts(asked?: QueryFilter, options?: CallOptions): AsyncGenerator<Account>;
    /** All transfers that match the filter. */
    iterTransfers(asked?: QueryFilter, options?: CallOptions): AsyncGenerator<Transfer>;
    /** All pending transfers that are open. */
    iterOpenPending(asked?: PageFilter, options?: CallOptions): AsyncGenerator<OpenHold>;
    /**
     * The transfers accepted since `number`, each once and in order, in pages of at most `limit`. Each page
     * has the next number to store. Start with 0.
     *
     * It ends when there is no more for now; call it again later, with the number stored last. Store the
     * number together with your own work, in one step: then a crash neither loses nor repeats anything.
     *
     * `LedgerError` if the ledger's clock is before the number: an older copy of its file was restored, and
     * the follower has to start over.
     */
    follow(number?: bigint, options?: CallOptions & {
        readonly limit?: number;
    }): AsyncGenerator<{
        readonly transfers: readonly Transfer[];
        readonly number: bigint;
    }>;
    /** All entries of an account, oldest first, fetched at once: some 100 bytes per entry. */
    statement(accountId: bigint, options?: CallOptions): Promise<readonly Entry[]>;
    /** Whether the service serves. It asks once; `Unanswered` if nothing answers within 10 seconds. */
    health(options?: CallOptions): Promise<boolean>;
}
