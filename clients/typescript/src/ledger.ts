/** The routes of the service, as methods. */

import { accountStands, chainsOf, idsToLookUp, mayStand, transferStands } from "./chains.js";
import { BadReply, LedgerError, Refused } from "./errors.js";
import { allOf, allPages, limitOf, ofAccount } from "./pages.js";
import { MAX_EVENTS } from "./records.js";
import type {
  Account,
  AccountEvent,
  AccountFilter,
  Balance,
  Entry,
  Hold,
  OpenHold,
  Page,
  PageFilter,
  QueryFilter,
  QueryPage,
  Transfer,
  TransferEvent,
} from "./records.js";
import { Results, accountResults, transferResults } from "./results.js";
import type { AccountResultName, Result, TransferResultName } from "./results.js";
import { Transport, detailIn, failureIn, refusalIn } from "./transport.js";
import type { Message, Reply, Until } from "./transport.js";
import * as wire from "./wire.js";

const HEALTH_WITHIN = 10_000;

export interface LedgerOptions {
  /** Milliseconds that a whole call may take, 60,000 by default. */
  readonly deadline?: number;
  /** The most requests that run at once, 16 by default. */
  readonly connections?: number;
}

export interface CallOptions {
  /** Aborts the call, which then throws the signal's reason. Its batch may be booked all the same. */
  readonly signal?: AbortSignal;
}

type Json = Record<string, unknown>;

/**
 * A tenant's ledger, at an address and with the tenant's key (64 hexadecimal digits).
 *
 * A call waits for its answer until its deadline, as long as the connection stands. It resends the same
 * bytes, after growing pauses, if the connection was cut or refused, if the service is `unavailable`, and
 * if it replies `busy` or `too_much`. That never books an event twice.
 *
 * Calls throw `Unanswered` if no answer came before the deadline, `Refused` with the refusal's name if the
 * service refuses the request, `BadReply` if something other than a ledger answers, and `TypeError` or
 * `RangeError`, before anything is sent, for invalid arguments.
 */
export class Ledger {
  readonly #transport: Transport;
  readonly #deadline: number;

  constructor(url: string, key: string, options: LedgerOptions = {}) {
    const { deadline = 60_000, connections = 16 } = options;
    if (!/^[0-9A-Fa-f]{64}$/.test(key)) throw new TypeError("the key is not 64 hexadecimal digits");
    if (!(deadline > 0) || !(connections >= 1)) {
      throw new RangeError("deadline is above 0, and connections are at least 1");
    }
    this.#transport = new Transport(url, key, connections);
    this.#deadline = deadline;
  }

  /** Opens accounts, as one batch of at most 1,000, and returns a result for each. */
  async createAccounts(
    accounts: readonly AccountEvent[],
    options: CallOptions = {},
  ): Promise<Results<AccountResultName>> {
    const until = this.#until(options);
    return this.#batch("/accounts", accounts, accountResults.exists, until, async (chain) => {
      const ids = chain.map((each) => each.id);
      const found = await this.#found("/accounts/lookup", ids, "accounts", wire.accountIn, until);
      return chain.every((each) => accountStands(each, found.get(each.id)));
    });
  }

  /**
   * Sends transfers, posts and voids, as one batch of at most 1,000, and returns a result for each. An
   * empty batch moves the clock, so that holds that are due expire.
   */
  async createTransfers(
    transfers: readonly TransferEvent[],
    options: CallOptions = {},
  ): Promise<Results<TransferResultName>> {
    const until = this.#until(options);
    return this.#batch("/transfers", transfers, transferResults.exists, until, async (chain) => {
      const ids = idsToLookUp(chain);
      const found = await this.#found("/transfers/lookup", ids, "transfers", wire.transferIn, until);
      return chain.every((each) => transferStands(each, found));
    });
  }

  /**
   * Has the service judge accounts as `createAccounts` sends them, and books nothing. Returns how many there
   * are. The `detail` of a `Refused` says which field of which one is wrong.
   */
  lintAccounts(accounts: readonly AccountEvent[], options: CallOptions = {}): Promise<number> {
    return this.#judged("/lint/accounts", accounts, options);
  }

  /** Has the service judge transfers as `createTransfers` sends them, and books nothing. */
  lintTransfers(transfers: readonly TransferEvent[], options: CallOptions = {}): Promise<number> {
    return this.#judged("/lint/transfers", transfers, options);
  }

  /**
   * The accounts that exist among at most 1,000 ids, in the order asked. Balances are those at the
   * ledger's clock: they include a hold that is due until the next batch, or until the service releases
   * it, within seconds.
   */
  lookupAccounts(ids: readonly bigint[], options: CallOptions = {}): Promise<Page<Account>> {
    const body = () => wire.idsBody(ids);
    return this.#page("/accounts/lookup", body, "accounts", wire.accountIn, this.#until(options));
  }

  /**
   * The transfers that exist among at most 1,000 ids, in the order asked. A missing one may still be on
   * its way, if its batch got no answer.
   */
  lookupTransfers(ids: readonly bigint[], options: CallOptions = {}): Promise<Page<Transfer>> {
    const body = () => wire.idsBody(ids);
    return this.#page("/transfers/lookup", body, "transfers", wire.transferIn, this.#until(options));
  }

  /** The state of the pending transfers with these ids. Other ids are omitted. */
  lookupPending(ids: readonly bigint[], options: CallOptions = {}): Promise<Page<Hold>> {
    const body = () => wire.idsBody(ids);
    return this.#page("/pending/lookup", body, "pending", wire.holdIn, this.#until(options));
  }

  /** A page of an account's transfers. `Refused`: `no_account`. */
  getAccountTransfers(asked: AccountFilter, options: CallOptions = {}): Promise<Page<Transfer>> {
    const body = () => wire.filterBody(ofAccount(asked), 7);
    return this.#page("/history/transfers", body, "transfers", wire.transferIn, this.#until(options));
  }

  /** A page of an account's balances after its transfers. `Refused`: `no_account`, `no_history`. */
  getAccountBalances(asked: AccountFilter, options: CallOptions = {}): Promise<Page<Balance>> {
    const body = () => wire.filterBody(ofAccount(asked), 7);
    return this.#page("/history/balances", body, "balances", wire.balanceIn, this.#until(options));
  }

  /** A page of the accounts that match the filter, in the order in which they were opened. */
  queryAccounts(asked: QueryFilter = {}, options: CallOptions = {}): Promise<QueryPage<Account>> {
    return this.#query("/query/accounts", asked, "accounts", wire.accountIn, options);
  }

  /** A page of the transfers that match the filter, in the order in which they were accepted. */
  queryTransfers(asked: QueryFilter = {}, options: CallOptions = {}): Promise<QueryPage<Transfer>> {
    return this.#query("/query/transfers", asked, "transfers", wire.transferIn, options);
  }

  /** A page of the open pending transfers, in the order in which they were accepted. */
  openPending(asked: PageFilter = {}, options: CallOptions = {}): Promise<QueryPage<OpenHold>> {
    return this.#query("/pending/open", asked, "pending", wire.openHoldIn, options);
  }

  /** All transfers of an account that match the filter. Pages are fetched as needed. */
  iterAccountTransfers(asked: AccountFilter, options: CallOptions = {}): AsyncGenerator<Transfer> {
    return allOf(asked, (page) => this.getAccountTransfers(page, options));
  }

  /** All balances of an account that match the filter, fetched in the same way. */
  iterAccountBalances(asked: AccountFilter, options: CallOptions = {}): AsyncGenerator<Balance> {
    return allOf(asked, (page) => this.getAccountBalances(page, options));
  }

  /** All accounts that match the filter; each page has the balances of its own time. */
  iterAccounts(asked: QueryFilter = {}, options: CallOptions = {}): AsyncGenerator<Account> {
    return allPages(asked, (page) => this.queryAccounts(page, options));
  }

  /** All transfers that match the filter. */
  iterTransfers(asked: QueryFilter = {}, options: CallOptions = {}): AsyncGenerator<Transfer> {
    return allPages(asked, (page) => this.queryTransfers(page, options));
  }

  /** All pending transfers that are open. */
  iterOpenPending(asked: PageFilter = {}, options: CallOptions = {}): AsyncGenerator<OpenHold> {
    return allPages(asked, (page) => this.openPending(page, options));
  }

  /**
   * The transfers accepted since `number`, each once and in order, in pages of at most `limit`. Each page
   * has the next number to store. Start with 0.
   *
   * It ends when there is no more for now; call it again later, with the number stored last. Store the
   * number together with your own work, in one step: then a crash neither loses nor repeats anything.
   *
   * `LedgerError` if the ledger's clock is before the number: an older copy of its file was restored, and
   * the follower has to start over.
   */
  async *follow(
    number = 0n,
    options: CallOptions & { readonly limit?: number } = {},
  ): AsyncGenerator<{ readonly transfers: readonly Transfer[]; readonly number: bigint }> {
    const { limit = MAX_EVENTS } = options;
    for (;;) {
      const page = await this.queryTransfers({ timestampMin: number, limit }, options);
      const later = page.next || page.clock + 1n;
      if (later < number) {
        throw new LedgerError(`the clock ${page.clock} is before ${number}: an older ledger`);
      }
      if (later > number) yield { transfers: page.items, number: later };
      if (page.next === 0n) return;
      number = later;
    }
  }

  /** All entries of an account, oldest first, fetched at once: some 100 bytes per entry. */
  async statement(accountId: bigint, options: CallOptions = {}): Promise<readonly Entry[]> {
    const path = wire.statementPath(accountId);
    const message: Message = { method: "GET", path, isBatch: false };
    const reply = await this.#transport.ask(message, this.#until(options));
    return readBody(message, reply, wire.entriesIn);
  }

  /** Whether the service serves. It asks once; `Unanswered` if nothing answers within 10 seconds. */
  async health(options: CallOptions = {}): Promise<boolean> {
    const message: Message = { method: "GET", path: "/health", isBatch: false };
    const until = this.#until(options);
    const deadline = Math.min(until.deadline, performance.now() + HEALTH_WITHIN);
    const answer = await this.#transport.askOnce(message, { ...until, deadline });
    if (failureIn(answer) !== undefined) return false;
    const reply = { ...answer, isRepeated: false };
    if (readBody(message, reply, wire.objectIn).serving !== true) {
      throw new BadReply("/health: not what is told of health");
    }
    return true;
  }

  #until(options: CallOptions): Until {
    return { deadline: performance.now() + this.#deadline, signal: options.signal };
  }

  async #batch<Event extends { id: bigint; flags?: number }, Name extends string>(
    path: string,
    events: readonly Event[],
    exists: number,
    until: Until,
    stands: (chain: readonly Event[]) => Promise<boolean>,
  ): Promise<Results<Name>> {
    const body = wire.eventsBody(events);
    const message: Message = { method: "POST", path, body, isBatch: true };
    const reply = await this.#transport.ask(message, until);
    const { clock, results } = readBody(message, reply, (text) => {
      const told = wire.objectIn(text);
      const listed = wire.listIn(told, "results", wire.resultIn) as Result<Name>[];
      return { clock: wire.digitsIn(told.clock), results: listed };
    });
    if (results.length !== events.length) {
      throw new BadReply(`${results.length} results for ${events.length} events`, true);
    }
    const outcome = reply.isRepeated ? "found" : "existed";
    for (const [from, to] of chainsOf(events)) {
      const numbers = results.slice(from, to).map((each) => each.number);
      const isThere = numbers.length === 1 && numbers[0] === exists;
      if (isThere || (mayStand(numbers, exists) && (await stands(events.slice(from, to))))) {
        for (let at = from; at < to; at++) results[at] = { ...results[at], outcome, stands: true };
      }
    }
    return new Results(clock, results);
  }

  /**
   * The records that exist of a chain that was answered, by their ids. If the look-up fails, its error
   * says that the chain may be booked.
   */
  async #found<T extends { id: bigint }>(
    path: string,
    ids: readonly bigint[],
    name: string,
    read: (told: Json) => T,
    until: Until,
  ): Promise<Map<bigint, T>> {
    const found = new Map<bigint, T>();
    try {
      for (let first = 0; first < ids.length; first += MAX_EVENTS) {
        const body = () => wire.idsBody(ids.slice(first, first + MAX_EVENTS));
        const page = await this.#page(path, body, name, read, until);
        for (const each of page.items) found.set(each.id, each);
      }
    } catch (error) {
      if (error instanceof LedgerError) error.mayBeBooked = true;
      throw error;
    }
    return found;
  }

  async #judged(path: string, events: readonly object[], options: CallOptions): Promise<number> {
    const message: Message = { method: "POST", path, body: wire.eventsBody(events), isBatch: false };
    const reply = await this.#transport.ask(message, this.#until(options));
    return readBody(message, reply, (text) => wire.wholeIn(wire.objectIn(text).events));
  }

  async #page<T>(
    path: string,
    body: () => string,
    name: string,
    read: (told: Json) => T,
    until: Until,
  ): Promise<Page<T>> {
    const message: Message = { method: "POST", path, body: body(), isBatch: false };
    const reply = await this.#transport.ask(message, until);
    return readBody(message, reply, (text) => {
      const told = wire.objectIn(text);
      return { clock: wire.digitsIn(told.clock), items: wire.listIn(told, name, read) };
    });
  }

  async #query<T>(
    path: string,
    asked: PageFilter,
    name: string,
    read: (told: Json) => T,
    options: CallOptions,
  ): Promise<QueryPage<T>> {
    const body = wire.filterBody({ ...asked, limit: limitOf(asked), flags: asked.flags ?? 0 }, 1);
    const message: Message = { method: "POST", path, body, isBatch: false };
    const reply = await this.#transport.ask(message, this.#until(options));
    return readBody(message, reply, (text) => {
      const told = wire.objectIn(text);
      const items = wire.listIn(told, name, read);
      return { clock: wire.digitsIn(told.clock), items, next: wire.digitsIn(told.next) };
    });
  }
}

/** What the reply to a message says. */
function readBody<T>(message: Message, reply: Reply, read: (body: string) => T): T {
  if (reply.status !== 200) {
    const name = refusalIn(reply.status, reply.body);
    if (name !== undefined) {
      const isOpen = message.isBatch && reply.isRepeated;
      throw new Refused(reply.status, name, isOpen, detailIn(reply.body));
    }
    throw new BadReply(`status ${reply.status} without a refusal's name`, message.isBatch);
  }
  try {
    return read(reply.body);
  } catch (error) {
    if (!(error instanceof wire.Unreadable)) throw error;
    throw new BadReply(`${message.path}: ${error.message}`, message.isBatch, { cause: error });
  }
}
