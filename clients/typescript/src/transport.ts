/**
 * Messages and their replies, and the rule for resending.
 *
 * A call waits for an answer until its deadline, as long as the connection stands. It resends the same
 * bytes if the answer is not known: the connection was cut or refused, the service was `unavailable`, or a
 * proxy reports that it got no answer. It also resends if the service refused the message for now, with
 * `busy` or `too_much`. The ledger allows that for every message: it never books an id twice. Every other
 * reply is final.
 */

import { Unanswered } from "./errors.js";
import type { Detail } from "./errors.js";
import { Unreadable, objectIn } from "./wire.js";

const FIRST_PAUSE = 50;
const LONGEST_PAUSE = 2000;
// A proxy uses these if it got no answer from the service, or accepts no more for now.
const PROXY_STATUSES = [408, 429, 502, 503, 504];
// These book nothing.
const NOT_NOW = ["busy", "too_much"];
// With these no connection was made, so nothing was sent.
const NOT_CONNECTED = [
  "ECONNREFUSED",
  "ENOTFOUND",
  "EAI_AGAIN",
  "EHOSTUNREACH",
  "ENETUNREACH",
  "UND_ERR_CONNECT_TIMEOUT",
];

/** A request. `isBatch`: after a lost answer it may be booked. */
export interface Message {
  readonly method: "GET" | "POST";
  readonly path: string;
  readonly body?: string;
  readonly isBatch: boolean;
}

/** The reply to one attempt. */
export interface Answer {
  readonly status: number;
  readonly body: string;
  readonly retryAfter: string | null;
}

/** A final reply. `isRepeated`: an earlier attempt to send the message may have been executed. */
export interface Reply {
  readonly status: number;
  readonly body: string;
  readonly isRepeated: boolean;
}

/** An attempt without a final answer. `wasSent`: the service may have executed it. */
interface Failure {
  readonly text: string;
  readonly wasSent: boolean;
  /** Milliseconds that the service asks to wait. */
  readonly retryAfter: number;
  readonly cause?: unknown;
}

/** When a call has to end, by `performance.now()`, and what aborts it before. */
export interface Until {
  readonly deadline: number;
  readonly signal: AbortSignal | undefined;
}

/** The name of the ledger's refusal, if the reply is one. */
export function refusalIn(status: number, body: string): string | undefined {
  if (status === 200) return undefined;
  try {
    const name = objectIn(body).error;
    return typeof name === "string" ? name : undefined;
  } catch (error) {
    if (error instanceof Unreadable) return undefined;
    throw error;
  }
}

/** Where the body of the request is refused, as the reply of a refusal says. */
export function detailIn(body: string): Detail {
  const { event, field, want } = objectIn(body);
  return {
    ...(typeof event === "number" && event > 0 ? { place: event - 1 } : {}),
    ...(typeof field === "string" ? { field } : {}),
    ...(typeof want === "string" ? { want } : {}),
  };
}

/** The failure that an answer reports, or undefined if the answer is final. */
export function failureIn(answer: Answer): Failure | undefined {
  const name = refusalIn(answer.status, answer.body);
  const isNotNow = name !== undefined && NOT_NOW.includes(name);
  const isFinal = name ? name !== "unavailable" && !isNotNow : !PROXY_STATUSES.includes(answer.status);
  if (isFinal) return undefined;
  const seconds = /^\d+$/.test(answer.retryAfter ?? "") ? Number(answer.retryAfter) : 0;
  const text = `${name ?? "no answer"} (${answer.status})`;
  return { text, wasSent: !isNotNow, retryAfter: seconds * 1000 };
}

/** The pause after a number of failures. Pauses grow, and are random so that clients spread out. */
function pauseAfter(failures: number, retryAfter: number): number {
  const longest = Math.min(LONGEST_PAUSE, FIRST_PAUSE * 2 ** Math.min(failures - 1, 16));
  return Math.max(longest * (0.5 + Math.random() / 2), retryAfter * (1 + Math.random() / 2));
}

/** Sends messages to one address with one key, at most `connections` at once. */
export class Transport {
  readonly #base: string;
  readonly #key: string;
  readonly #waiting: (() => void)[] = [];
  #free: number;

  constructor(url: string, key: string, connections: number) {
    const parsed = new URL(url);
    if (!/^https?:$/.test(parsed.protocol)) throw new TypeError(`${url} is no http(s) address`);
    if (parsed.search || parsed.hash || parsed.username || parsed.password) {
      throw new TypeError("the address has more than scheme, host, port and path");
    }
    this.#base = parsed.origin + parsed.pathname.replace(/\/+$/, "");
    this.#key = key;
    this.#free = connections;
  }

  /** The final reply to a message. `Unanswered` if none came in time. */
  async ask(message: Message, until: Until): Promise<Reply> {
    let wasSent = false;
    for (let failures = 1; ; failures++) {
      const brought = await this.#send(message, until);
      const failure = "status" in brought ? failureIn(brought) : brought;
      if (failure === undefined) {
        const { status, body } = brought as Answer;
        return { status, body, isRepeated: wasSent };
      }
      wasSent ||= failure.wasSent;
      const pause = pauseAfter(failures, failure.retryAfter);
      if (performance.now() + pause >= until.deadline) {
        const text = `${message.method} ${message.path}: no answer in time, ${failures} times tried; `;
        throw new Unanswered(text + `the last time: ${failure.text}`, message.isBatch && wasSent, {
          cause: failure.cause,
        });
      }
      await sleep(pause, until.signal);
    }
  }

  /** The answer to one attempt. `Unanswered` if none came. */
  async askOnce(message: Message, until: Until): Promise<Answer> {
    const brought = await this.#send(message, until);
    if ("status" in brought) return brought;
    const text = `${message.method} ${message.path}: ${brought.text}`;
    throw new Unanswered(text, false, { cause: brought.cause });
  }

  async #send(message: Message, until: Until): Promise<Answer | Failure> {
    const ending = new AbortController();
    const end = () => ending.abort(until.signal?.reason);
    const timer = setTimeout(end, Math.max(0, until.deadline - performance.now()));
    until.signal?.addEventListener("abort", end, { once: true });
    if (until.signal?.aborted) end();
    try {
      if (!(await this.#enter(ending.signal))) {
        until.signal?.throwIfAborted();
        return { text: "all connections were busy", wasSent: false, retryAfter: 0 };
      }
      try {
        if (performance.now() >= until.deadline) {
          return { text: "no time was left", wasSent: false, retryAfter: 0 };
        }
        return await this.#exchange(message, ending.signal);
      } catch (error) {
        until.signal?.throwIfAborted();
        if (!ending.signal.aborted) return failureOf(error);
        const text = "no answer before the deadline";
        return { text, wasSent: true, retryAfter: 0, cause: error };
      } finally {
        this.#leave();
      }
    } finally {
      clearTimeout(timer);
      until.signal?.removeEventListener("abort", end);
    }
  }

  async #exchange(message: Message, signal: AbortSignal): Promise<Answer> {
    const response = await fetch(this.#base + message.path, {
      method: message.method,
      headers: { "x-ledger-key": this.#key, "x-ledger-detail": "1" },
      body: message.body,
      redirect: "manual",
      signal,
    });
    const retryAfter = response.headers.get("retry-after");
    return { status: response.status, body: await response.text(), retryAfter };
  }

  /** Waits for one of the connections. False if the signal was first. */
  async #enter(signal: AbortSignal): Promise<boolean> {
    if (signal.aborted) return false;
    if (this.#free > 0) {
      this.#free--;
      return true;
    }
    return new Promise((resolve) => {
      const enter = () => {
        signal.removeEventListener("abort", giveUp);
        resolve(true);
      };
      const giveUp = () => {
        this.#waiting.splice(this.#waiting.indexOf(enter), 1);
        resolve(false);
      };
      this.#waiting.push(enter);
      signal.addEventListener("abort", giveUp, { once: true });
    });
  }

  #leave(): void {
    const next = this.#waiting.shift();
    if (next) next();
    else this.#free++;
  }
}

/** The failure that an error of `fetch` reports. Only some mean that nothing was sent. */
function failureOf(error: unknown): Failure {
  const cause = (error as { cause?: { code?: string; message?: string } }).cause;
  const text = `${(error as Error).message}${cause ? `: ${cause.message || cause.code}` : ""}`;
  const wasSent = !NOT_CONNECTED.includes(cause?.code ?? "");
  return { text, wasSent, retryAfter: 0, cause: error };
}

function sleep(milliseconds: number, signal: AbortSignal | undefined): Promise<void> {
  return new Promise((resolve, reject) => {
    const end = () => {
      clearTimeout(timer);
      reject(signal?.reason);
    };
    const timer = setTimeout(() => {
      signal?.removeEventListener("abort", end);
      resolve();
    }, milliseconds);
    signal?.addEventListener("abort", end, { once: true });
  });
}
