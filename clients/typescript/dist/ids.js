/** Ids for accounts and transfers. */
const RANDOM_BITS = 80n;
let last = 0n;
function random(bytes) {
    const drawn = crypto.getRandomValues(new Uint8Array(bytes));
    return drawn.reduce((number, byte) => (number << 8n) | BigInt(byte), 0n);
}
/**
 * A new id of 128 bits: 48 bits of milliseconds since 1970, and 80 random ones.
 *
 * Ids ascend with time, and within a process each is above all before it. Draw an id once for a payment,
 * and store it before you send it. Resending the same id never books twice; a new id does.
 */
export function newId() {
    const drawn = (BigInt(Date.now()) << RANDOM_BITS) | random(10);
    const above = last + 1n + random(8);
    last = drawn > above ? drawn : above;
    return last;
}
