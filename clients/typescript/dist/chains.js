/**
 * Chains that were sent again, and whether they stand.
 *
 * A chain stands or falls whole, and inside it `exists` is a failure. So a chain that was accepted, sent
 * again, answers `exists` for its first event and `linked_event_failed` for all others. So does a chain
 * of which another request has booked an event or two. A look-up of all its ids shows which it is.
 */
import { MAX_128, TransferFlag } from "./records.js";
const LINKED = 1;
const LINKED_EVENT_FAILED = 2;
const POST_OR_VOID = TransferFlag.postPendingTransfer | TransferFlag.voidPendingTransfer;
const BALANCING = TransferFlag.balancingDebit | TransferFlag.balancingCredit;
// The fields that a retry is compared in, besides a transfer's amount. A post or void compares those of the
// last list only if they were given: 0 takes the hold's value.
const MARKS = ["userData128", "userData64", "userData32", "ledger", "code"];
const OF_ACCOUNTS = ["flags", ...MARKS];
const OF_TRANSFERS = ["flags", "pendingId", "timeout"];
const GIVEN_OR_THE_HOLDS = ["debitAccountId", "creditAccountId", ...MARKS];
/** The places of each chain of a batch, without its end. An unlinked event is a chain of its own. */
export function chainsOf(events) {
    const chains = [];
    let from = 0;
    events.forEach((event, place) => {
        if (((event.flags ?? 0) & LINKED) === 0 || place + 1 === events.length) {
            chains.push([from, place + 1]);
            from = place + 1;
        }
    });
    return chains;
}
/** Whether these are the results of a chain of several events that may have been accepted. */
export function mayStand(numbers, exists) {
    const [first, ...others] = numbers;
    return first === exists && others.length > 0 && others.every((it) => it === LINKED_EVENT_FAILED);
}
/** Whether an account exists with the fields sent. */
export function accountStands(sent, there) {
    return there !== undefined && areEqual(sent, there, OF_ACCOUNTS);
}
/** The ids of transfers, and of the holds that they post in full. */
export function idsToLookUp(sent) {
    const holds = sent.filter(postsWhole).map((each) => each.pendingId ?? 0n);
    return [...new Set([...sent.map((each) => each.id), ...holds])];
}
/**
 * Whether a transfer exists with the fields sent, by the rules with which the ledger answers `exists`.
 * `found` has the transfers of `idsToLookUp`.
 */
export function transferStands(sent, found) {
    const there = found.get(sent.id);
    if (there === undefined || !areEqual(sent, there, OF_TRANSFERS))
        return false;
    const isEnd = ((sent.flags ?? 0) & POST_OR_VOID) !== 0;
    const given = GIVEN_OR_THE_HOLDS.filter((name) => !isEnd || isGiven(sent[name]));
    return areEqual(sent, there, given) && amountStands(sent, there, found);
}
function amountStands(sent, there, found) {
    const amount = sent.amount ?? 0n;
    const flags = sent.flags ?? 0;
    if ((flags & BALANCING) !== 0)
        return there.amount <= amount;
    if (postsWhole(sent))
        return there.amount === found.get(sent.pendingId ?? 0n)?.amount;
    if ((flags & TransferFlag.voidPendingTransfer) !== 0 && amount === 0n)
        return true;
    return there.amount === amount;
}
function postsWhole(sent) {
    return ((sent.flags ?? 0) & TransferFlag.postPendingTransfer) !== 0 && sent.amount === MAX_128;
}
function isGiven(value) {
    return value !== undefined && value != 0;
}
/** Whether two records are equal in these fields. An omitted field is 0. */
function areEqual(sent, there, names) {
    return names.every((name) => (isGiven(sent[name]) ? sent[name] === there[name] : there[name] == 0));
}
