// What the compiler takes of a program that uses the client, and what it refuses.
import { AccountFlag, Ledger, TransferFlag, balanceOf, newId, transferResults } from "../dist/index.js";
import type { Transfer, TransferEvent, TransferResultName } from "../dist/index.js";

export async function book(ledger: Ledger): Promise<bigint> {
  const event: TransferEvent = { id: newId(), amount: 10n, flags: TransferFlag.pending };
  const results = await ledger.createTransfers([event]);
  for (const { name, number } of results) {
    if (name === "exceeds_credits" || number === transferResults.id_already_failed) return 0n;
  }
  const name: TransferResultName = "exists";
  // @ts-expect-error: no result is named so
  const wrong: TransferResultName = "exist";
  // @ts-expect-error: amounts are bigint
  await ledger.createTransfers([{ id: 1n, amount: 10, code: name.length + wrong.length }]);
  // @ts-expect-error: a transfer has an id
  await ledger.createTransfers([{ amount: 10n }]);
  // @ts-expect-error: a field that nobody knows
  await ledger.createTransfers([{ id: 1n, currency: "EUR" }]);
  const judged: number = await ledger.lintTransfers([event]);
  if (judged !== 1) return BigInt(judged);
  // @ts-expect-error: a field that nobody knows is not judged either
  await ledger.lintAccounts([{ id: 1n, ledger: 978, code: 1, currency: "EUR" }]);
  // @ts-expect-error: an account has a ledger and a code
  await ledger.createAccounts([{ id: 1n, flags: AccountFlag.history }]);
  // @ts-expect-error: a filter of an account names it
  await ledger.getAccountTransfers({ limit: 10 });
  for await (const { transfers, number } of ledger.follow(0n)) {
    const first: Transfer | undefined = transfers[0];
    if (first !== undefined && number > first.timestamp) break;
  }
  // @ts-expect-error: what is told is not changed
  results.clock = 0n;
  const { items } = await ledger.lookupAccounts([1n]);
  return balanceOf(items[0]);
}
