/** What a call throws, besides `TypeError` and `RangeError` for invalid arguments. */
import type { Result } from "./results.js";
/**
 * What went wrong with a call.
 *
 * `mayBeBooked` is true if an attempt to send the call's batch got no answer, so that the batch may stand
 * in the ledger all the same. Then send the same events with the same ids again: only an answer is
 * conclusive. A look-up that finds nothing is not, since the batch may still be on its way.
 */
export declare class LedgerError extends Error {
    mayBeBooked: boolean;
    readonly name: string;
    constructor(text: string, mayBeBooked?: boolean, options?: ErrorOptions);
}
/**
 * Where the body of a request is refused. `want` says what is wanted there, and `place` is that of the event
 * or id in the call's list, counted from 0.
 */
export interface Detail {
    readonly place?: number;
    readonly field?: string;
    readonly want?: string;
}
/**
 * The service has refused the request, by a name of docs/MESSAGES.md such as `no_account`. `detail` says where
 * the body is refused, if it is.
 */
export declare class Refused extends LedgerError {
    readonly status: number;
    readonly refusal: string;
    readonly detail: Detail;
    readonly name = "Refused";
    constructor(status: number, refusal: string, mayBeBooked?: boolean, detail?: Detail);
}
/** No answer came before the deadline; the last failure is the error's `cause`. */
export declare class Unanswered extends LedgerError {
    readonly name = "Unanswered";
}
/** A reply that no ledger sends: another service answers at this address, or a proxy. */
export declare class BadReply extends LedgerError {
    readonly name = "BadReply";
}
/**
 * Events of a batch were refused. `refused` has the place and the result of each, and `first` the one that
 * caused the first failure, not one that fell with its chain. The batch was answered, so its other events
 * stand if their results say so.
 */
export declare class EventsRefused extends LedgerError {
    readonly refused: readonly {
        readonly place: number;
        readonly result: Result;
    }[];
    readonly name = "EventsRefused";
    readonly first: {
        readonly place: number;
        readonly result: Result;
    };
    constructor(refused: readonly {
        readonly place: number;
        readonly result: Result;
    }[]);
}
