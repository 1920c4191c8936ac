package cegarront

// Outcome says what happened to an event: all but Refused stand in the ledger with the fields sent.
type Outcome string

const (
	// Accepted: it was accepted now.
	Accepted Outcome = "accepted"
	// Found: an earlier attempt of this call got no answer, and the event exists.
	Found Outcome = "found"
	// Existed: it existed before this call, because its id was sent before.
	Existed Outcome = "existed"
	// Refused: this call did not book it; the result's number and name say why.
	Refused Outcome = "refused"
)

// Result is the answer to one event. Number and Name are the ledger's own (docs/RESULTS.md). In a chain
// that was found whole they stay exists for the first event and linked_event_failed for the others, and
// Outcome says what that means. Timestamp (nanoseconds) is that of the event's place in the batch. So it
// is the stored record's only if the event was accepted now; else look the id up.
type Result struct {
	Number    int
	Name      string
	Timestamp uint64
	Outcome   Outcome
}

// Stands reports whether the event stands in the ledger with the fields sent, by whichever attempt.
func (r Result) Stands() bool { return r.Outcome != Refused }

// Results are those of a batch, one for each event in its order, and the clock after the batch.
type Results struct {
	Clock uint64
	Items []Result
}

// Err is nil if all events stand, else an *EventsRefusedError.
func (r Results) Err() error {
	var refused []RefusedEvent
	for place, each := range r.Items {
		if !each.Stands() {
			refused = append(refused, RefusedEvent{place, each})
		}
	}
	if refused == nil {
		return nil
	}
	return &EventsRefusedError{Refused: refused}
}
