// A wallet: money comes in, some is set aside for an order, and a part of that is paid.
import { AccountFlag, Ledger, TransferFlag, Unanswered, balanceOf, newId } from "../dist/index.js";

const [EURO, BANK, SHOP] = [978, 1n, 2n];
const ledger = new Ledger(process.env.LEDGER_URL, process.env.LEDGER_KEY);

async function main() {
  const flags = AccountFlag.debitsMustNotExceedCredits; // a wallet that cannot be overdrawn
  const wallet = { id: newId(), ledger: EURO, code: 3, flags };
  const accounts = [{ id: BANK, ledger: EURO, code: 1 }, { id: SHOP, ledger: EURO, code: 2 }, wallet];
  (await ledger.createAccounts(accounts)).throwIfRefused();

  // 50.00 come in. Draw an id once, and keep it with the order before you send it.
  const topUp = { id: newId(), debitAccountId: BANK, creditAccountId: wallet.id, amount: 50_00n,
                  ledger: EURO, code: 1 };
  (await ledger.createTransfers([topUp])).throwIfRefused();

  // 20.00 are set aside for an hour, and 15.00 of them are paid; the rest is free again.
  const hold = { id: newId(), debitAccountId: wallet.id, creditAccountId: SHOP, amount: 20_00n,
                 ledger: EURO, code: 2, timeout: 3600, flags: TransferFlag.pending };
  const payment = { id: newId(), pendingId: hold.id, amount: 15_00n,
                    flags: TransferFlag.postPendingTransfer };
  (await ledger.createTransfers([hold])).throwIfRefused();
  (await ledger.createTransfers([payment])).throwIfRefused();

  // Sent again, it is there, and nothing is added.
  const [again] = await ledger.createTransfers([payment]);
  const { items: [now] } = await ledger.lookupAccounts([wallet.id]);
  console.log(`again: ${again.outcome}, balance: ${balanceOf(now)}`);
}

try {
  await main();
} catch (error) {
  if (error instanceof Unanswered) {
    console.error(error.mayBeBooked ? "send the same again" : "nothing was sent");
  }
  throw error;
}
