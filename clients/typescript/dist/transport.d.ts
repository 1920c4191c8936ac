/**
 * Messages and their replies, and the rule for resending.
 *
 * A call waits for an answer until its deadline, as long as the connection stands. It resends the same
 * bytes if the answer is not known: the connection was cut or refused, the service was `unavailable`, or a
 * proxy reports that it got no answer. It also resends if the service refused the message for now, with
 * `busy` or `too_much`. The ledger allows that for every message: it never books an id twice. Every other
 * reply is final.
 */
import type { Detail } from "./errors.js";
/** A request. `isBatch`: after a lost answer it may be booked. */
export interface Message {
    readonly method: "GET" | "POST";
    readonly path: string;
    readonly body?: string;
    readonly isBatch: boolean;
}
/** The reply to one attempt. */
export interface Answer {
    readonly status: number;
    readonly body: string;
    readonly retryAfter: string | null;
}
/** A final reply. `isRepeated`: an earlier attempt to send the message may have been executed. */
export interface Reply {
    readonly status: number;
    readonly body: string;
    readonly isRepeated: boolean;
}
/** An attempt without a final answer. `wasSent`: the service may have executed it. */
interface Failure {
    readonly text: string;
    readonly wasSent: boolean;
    /** Milliseconds that the service asks to wait. */
    readonly retryAfter: number;
    readonly cause?: unknown;
}
/** When a call has to end, by `performance.now()`, and what aborts it before. */
export interface Until {
    readonly deadline: number;
    readonly signal: AbortSignal | undefined;
}
/** The name of the ledger's refusal, if the reply is one. */
export declare function refusalIn(status: number, body: string): string | undefined;
/** Where the body of the request is refused, as the reply of a refusal says. */
export declare function detailIn(body: string): Detail;
/** The failure that an answer reports, or undefined if the answer is final. */
export declare function failureIn(answer: Answer): Failure | undefined;
/** Sends messages to one address with one key, at most `connections` at once. */
export declare class Transport {
    #private;
    constructor(url: string, key: string, connections: number);
    /** The final reply to a message. `Unanswered` if none came in time. */
    ask(message: Message, until: Until): Promise<Reply>;
    /** The answer to one attempt. `Unanswered` if none came. */
    askOnce(message: Message, until: Until): Promise<Answer>;
}
export {};
