/** Ids for accounts and transfers. */
/**
 * A new id of 128 bits: 48 bits of milliseconds since 1970, and 80 random ones.
 *
 * Ids ascend with time, and within a process each is above all before it. Draw an id once for a payment,
 * and store it before you send it. Resending the same id never books twice; a new id does.
 */
export declare function newId(): bigint;
