/** What a call throws, besides `TypeError` and `RangeError` for invalid arguments. */

import type { Result } from "./results.js";

const LINKED_EVENT_FAILED = 2;

/**
 * What went wrong with a call.
 *
 * `mayBeBooked` is true if an attempt to send the call's batch got no answer, so that the batch may stand
 * in the ledger all the same. Then send the same events with the same ids again: only an answer is
 * conclusive. A look-up that finds nothing is not, since the batch may still be on its way.
 */
export class LedgerError extends Error {
  override readonly name: string = "LedgerError";

  constructor(
    text: string,
    public mayBeBooked = false,
    options?: ErrorOptions,
  ) {
    super(text, options);
  }
}

/**
 * Where the body of a request is refused. `want` says what is wanted there, and `place` is that of the event
 * or id in the call's list, counted from 0.
 */
export interface Detail {
  readonly place?: number;
  readonly field?: string;
  readonly want?: string;
}

/**
 * The service has refused the request, by a name of docs/MESSAGES.md such as `no_account`. `detail` says where
 * the body is refused, if it is.
 */
export class Refused extends LedgerError {
  override readonly name = "Refused";

  constructor(
    readonly status: number,
    readonly refusal: string,
    mayBeBooked = false,
    readonly detail: Detail = {},
  ) {
    super(`${refusal} (${status})${textOf(detail)}`, mayBeBooked);
  }
}

function textOf({ place, field, want }: Detail): string {
  const event = place === undefined ? "" : `event ${place}: `;
  return want === undefined ? "" : `: ${event}${field === undefined ? "" : `${field}: `}want ${want}`;
}

/** No answer came before the deadline; the last failure is the error's `cause`. */
export class Unanswered extends LedgerError {
  override readonly name = "Unanswered";
}

/** A reply that no ledger sends: another service answers at this address, or a proxy. */
export class BadReply extends LedgerError {
  override readonly name = "BadReply";
}

/**
 * Events of a batch were refused. `refused` has the place and the result of each, and `first` the one that
 * caused the first failure, not one that fell with its chain. The batch was answered, so its other events
 * stand if their results say so.
 */
export class EventsRefused extends LedgerError {
  override readonly name = "EventsRefused";
  readonly first: { readonly place: number; readonly result: Result };

  constructor(readonly refused: readonly { readonly place: number; readonly result: Result }[]) {
    const first = refused.find((it) => it.result.number !== LINKED_EVENT_FAILED) ?? refused[0];
    const more = refused.length > 1 ? `, one of ${refused.length} events refused` : "";
    super(`event ${first.place}: ${first.result.name}${more}`);
    this.first = first;
  }
}
