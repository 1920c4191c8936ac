package cegarront

import (
	"errors"
	"fmt"
)

var (
	// ErrUnanswered: no answer came before the deadline, or before the context ended.
	ErrUnanswered = errors.New("no answer in time")
	// ErrBadReply: a reply that no ledger gives. Another service answers at this address, or a proxy.
	ErrBadReply = errors.New("no reply of a ledger")
	// ErrEventsRefused: events of a batch were refused.
	ErrEventsRefused = errors.New("events refused")
	// ErrOlderLedger: the ledger's clock is before a follower's number, so an older copy of its file was
	// restored.
	ErrOlderLedger = errors.New("an older ledger")
	// ErrInvalid: it cannot be sent, and nothing was.
	ErrInvalid = errors.New("it cannot be sent")
)

// Refusal is the name with which the service refuses a request (docs/MESSAGES.md). errors.Is finds it in
// what a call returns:
//
//	if errors.Is(err, cegarront.NoAccount) { ... }
type Refusal string

func (r Refusal) Error() string { return string(r) }

// Refusals that a program may want to distinguish. Compare others as Refusal("bad_field").
const (
	UnknownKey     = Refusal("unknown_key")
	NoAccount      = Refusal("no_account")
	NoHistory      = Refusal("no_history")
	ClockExhausted = Refusal("clock_exhausted")
)

// Error is what went wrong with a call. errors.Is compares it with a Refusal or one of the Err values,
// and finds its cause, such as context.Canceled.
type Error struct {
	// Kind is a Refusal, or one of the Err values.
	Kind error
	// Status is the HTTP status of a Refusal.
	Status int
	// Detail says where the body is refused, or is nil if it is not.
	Detail *Detail
	// MayBeBooked is true if an attempt to send the call's batch got no answer, so that the batch may
	// stand in the ledger all the same. Then send the same events with the same ids again:
	// only an answer is conclusive. A look-up that finds nothing is not, since the batch may still be on
	// its way.
	MayBeBooked bool
	// Cause is the last failure, or nil.
	Cause error
}

func (e *Error) Error() string {
	text := e.Kind.Error()
	if e.Status != 0 {
		text = fmt.Sprintf("%s (%d)", text, e.Status)
	}
	if e.Detail != nil {
		text += ": " + e.Detail.String()
	}
	if e.Cause != nil {
		text += ": " + e.Cause.Error()
	}
	return text
}

func (e *Error) Unwrap() error { return e.Cause }

// Is reports whether the error is of this kind.
func (e *Error) Is(target error) bool { return e.Kind == target }

// Detail says where the body of a request is refused.
type Detail struct {
	// Place is the place of the event or id in the call's list, from 0, or -1 if it is none of them.
	Place int
	// Field is the name of the field, or "".
	Field string
	// Want says what is wanted there.
	Want string
}

func (d *Detail) String() string {
	text := "want " + d.Want
	if d.Field != "" {
		text = d.Field + ": " + text
	}
	if d.Place >= 0 {
		text = fmt.Sprintf("event %d: %s", d.Place, text)
	}
	return text
}

// MayBeBooked reports whether an error leaves open that the call's batch stands in the ledger.
func MayBeBooked(err error) bool {
	var failed *Error
	return errors.As(err, &failed) && failed.MayBeBooked
}

// RefusedEvent is the place, from 0, and the result of an event that was refused.
type RefusedEvent struct {
	Place  int
	Result Result
}

// EventsRefusedError has the events of a batch that were refused. The batch was answered, so its other
// events stand where their results say so.
type EventsRefusedError struct{ Refused []RefusedEvent }

// First is the event that caused the first failure, not one that fell with its chain.
func (e *EventsRefusedError) First() RefusedEvent {
	for _, each := range e.Refused {
		if each.Result.Number != linkedEventFailed {
			return each
		}
	}
	return e.Refused[0]
}

func (e *EventsRefusedError) Error() string {
	first := e.First()
	text := fmt.Sprintf("event %d: %s", first.Place, first.Result.Name)
	if len(e.Refused) > 1 {
		text += fmt.Sprintf(", one of %d events refused", len(e.Refused))
	}
	return text
}

// Is reports that the error is ErrEventsRefused.
func (e *EventsRefusedError) Is(target error) bool { return target == ErrEventsRefused }

func invalid(format string, words ...any) error {
	return &Error{Kind: ErrInvalid, Cause: fmt.Errorf(format, words...)}
}
