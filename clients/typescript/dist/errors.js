/** What a call throws, besides `TypeError` and `RangeError` for invalid arguments. */
const LINKED_EVENT_FAILED = 2;
/**
 * What went wrong with a call.
 *
 * `mayBeBooked` is true if an attempt to send the call's batch got no answer, so that the batch may stand
 * in the ledger all the same. Then send the same events with the same ids again: only an answer is
 * conclusive. A look-up that finds nothing is not, since the batch may still be on its way.
 */
export class LedgerError extends Error {
    mayBeBooked;
    name = "LedgerError";
    constructor(text, mayBeBooked = false, options) {
        super(text, options);
        this.mayBeBooked = mayBeBooked;
    }
}
/**
 * The service has refused the request, by a name of docs/MESSAGES.md such as `no_account`. `detail` says where
 * the body is refused, if it is.
 */
export class Refused extends LedgerError {
    status;
    refusal;
    detail;
    name = "Refused";
    constructor(status, refusal, mayBeBooked = false, detail = {}) {
        super(`${refusal} (${status})${textOf(detail)}`, mayBeBooked);
        this.status = status;
        this.refusal = refusal;
        this.detail = detail;
    }
}
function textOf({ place, field, want }) {
    const event = place === undefined ? "" : `event ${place}: `;
    return want === undefined ? "" : `: ${event}${field === undefined ? "" : `${field}: `}want ${want}`;
}
/** No answer came before the deadline; the last failure is the error's `cause`. */
export class Unanswered extends LedgerError {
    name = "Unanswered";
}
/** A reply that no ledger sends: another service answers at this address, or a proxy. */
export class BadReply extends LedgerError {
    name = "BadReply";
}
/**
 * Events of a batch were refused. `refused` has the place and the result of each, and `first` the one that
 * caused the first failure, not one that fell with its chain. The batch was answered, so its other events
 * stand if their results say so.
 */
export class EventsRefused extends LedgerError {
    refused;
    name = "EventsRefused";
    first;
    constructor(refused) {
        const first = refused.find((it) => it.result.number !== LINKED_EVENT_FAILED) ?? refused[0];
        const more = refused.length > 1 ? `, one of ${refused.length} events refused` : "";
        super(`event ${first.place}: ${first.result.name}${more}`);
        this.refused = refused;
        this.first = first;
    }
}
