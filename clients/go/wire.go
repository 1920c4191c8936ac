package cegarront

import (
	"encoding/csv"
	"encoding/json"
	"fmt"
	"strconv"
	"strings"
)

// object writes a JSON object. Fields that are 0 are left out, which means the same.
type object struct{ bytes []byte }

func (o *object) name(name string) {
	if len(o.bytes) > 0 {
		o.bytes = append(o.bytes, ',')
	}
	o.bytes = append(strconv.AppendQuote(o.bytes, name), ':')
}

// wide writes a number of 128 bits, which is a string.
func (o *object) wide(name string, n Uint128) {
	if !n.IsZero() {
		o.name(name)
		o.bytes = strconv.AppendQuote(o.bytes, n.String())
	}
}

// long writes a number of 64 bits, which is a string.
func (o *object) long(name string, n uint64) { o.wide(name, U128(n)) }

// short writes a number of at most 32 bits.
func (o *object) short(name string, n uint32) {
	if n != 0 {
		o.name(name)
		o.bytes = strconv.AppendUint(o.bytes, uint64(n), 10)
	}
}

func (o *object) json() string { return "{" + string(o.bytes) + "}" }

func accountJSON(a Account) string {
	var o object
	o.wide("id", a.ID)
	o.wide("debits_pending", a.DebitsPending)
	o.wide("debits_posted", a.DebitsPosted)
	o.wide("credits_pending", a.CreditsPending)
	o.wide("credits_posted", a.CreditsPosted)
	o.wide("user_data_128", a.UserData128)
	o.long("user_data_64", a.UserData64)
	o.short("user_data_32", a.UserData32)
	o.short("ledger", a.Ledger)
	o.short("code", uint32(a.Code))
	o.short("flags", uint32(a.Flags))
	o.long("timestamp", a.Timestamp)
	return o.json()
}

func transferJSON(t Transfer) string {
	var o object
	o.wide("id", t.ID)
	o.wide("debit_account_id", t.DebitAccountID)
	o.wide("credit_account_id", t.CreditAccountID)
	o.wide("amount", t.Amount)
	o.wide("pending_id", t.PendingID)
	o.wide("user_data_128", t.UserData128)
	o.long("user_data_64", t.UserData64)
	o.short("user_data_32", t.UserData32)
	o.short("timeout", t.Timeout)
	o.short("ledger", t.Ledger)
	o.short("code", uint32(t.Code))
	o.short("flags", uint32(t.Flags))
	o.long("timestamp", t.Timestamp)
	return o.json()
}

// listJSON writes the body of a batch or a look-up.
func listJSON[T any](items []T, what string, write func(T) string) ([]byte, error) {
	if len(items) > MaxEvents {
		return nil, invalid("%d %s, and at most %d may be sent at once", len(items), what, MaxEvents)
	}
	written := make([]string, len(items))
	for place, each := range items {
		written[place] = write(each)
	}
	return []byte("[" + strings.Join(written, ",") + "]"), nil
}

func quoted(id Uint128) string { return strconv.Quote(id.String()) }

func checkLimit(limit int) error {
	if limit < 1 || limit > MaxEvents {
		return invalid("limit: %d is not from 1 to %d", limit, MaxEvents)
	}
	return nil
}

func (f AccountFilter) body() ([]byte, error) {
	var o object
	o.wide("account_id", f.AccountID)
	o.long("timestamp_min", f.TimestampMin)
	o.long("timestamp_max", f.TimestampMax)
	o.short("limit", uint32(f.Limit))
	o.short("flags", uint32(f.Flags))
	return []byte(o.json()), checkLimit(f.Limit)
}

func (f PageFilter) write(o *object) {
	o.long("timestamp_min", f.TimestampMin)
	o.long("timestamp_max", f.TimestampMax)
	o.short("limit", uint32(f.Limit))
	if f.NewestFirst {
		o.short("flags", 1)
	}
}

func (f PageFilter) body() ([]byte, error) {
	var o object
	f.write(&o)
	return []byte(o.json()), checkLimit(f.Limit)
}

func (f QueryFilter) body() ([]byte, error) {
	var o object
	f.write(&o)
	o.wide("user_data_128", f.UserData128)
	o.long("user_data_64", f.UserData64)
	o.short("user_data_32", f.UserData32)
	o.short("ledger", f.Ledger)
	o.short("code", uint32(f.Code))
	return []byte(o.json()), checkLimit(f.Limit)
}

// told is the body of a reply to a batch, a look-up, a history or a query.
type told[T any] struct {
	clock, next uint64
	items       []T
}

// read reads the clock, the list with the given name, and the next time if there has to be one.
func read[T any](body []byte, name string, hasNext bool) (told[T], error) {
	var fields map[string]json.RawMessage
	if err := json.Unmarshal(body, &fields); err != nil {
		return told[T]{}, err
	}
	clock, err := digitsIn(fields["clock"])
	if err != nil {
		return told[T]{}, fmt.Errorf("clock: %w", err)
	}
	page := told[T]{clock: clock}
	if hasNext {
		if page.next, err = digitsIn(fields["next"]); err != nil {
			return told[T]{}, fmt.Errorf("next: %w", err)
		}
	}
	if err := json.Unmarshal(fields[name], &page.items); err != nil {
		return told[T]{}, fmt.Errorf("%s: %w", name, err)
	}
	return page, nil
}

func digitsIn(value json.RawMessage) (uint64, error) {
	var text string
	if err := json.Unmarshal(value, &text); err != nil {
		return 0, err
	}
	return strconv.ParseUint(text, 10, 64)
}

// resultJSON is a result as a reply has it.
type resultJSON struct {
	Number    *int    `json:"number"`
	Result    *string `json:"result"`
	Timestamp *uint64 `json:"timestamp,string"`
}

// result is that of an event, as if it had not been sent before.
func (r resultJSON) result() (Result, error) {
	if r.Number == nil || r.Result == nil || r.Timestamp == nil {
		return Result{}, fmt.Errorf("a result lacks a field")
	}
	outcome := Refused
	if *r.Number == 0 {
		outcome = Accepted
	}
	return Result{*r.Number, *r.Result, *r.Timestamp, outcome}, nil
}

var statementColumns = []string{"timestamp", "transfer_id", "side", "kind", "amount",
	"debits_pending", "debits_posted", "credits_pending", "credits_posted"}

// entriesIn reads a statement.
func entriesIn(body []byte) ([]Entry, error) {
	lines, err := csv.NewReader(strings.NewReader(string(body))).ReadAll()
	if err != nil {
		return nil, err
	}
	if len(lines) == 0 || strings.Join(lines[0], ",") != strings.Join(statementColumns, ",") {
		return nil, fmt.Errorf("no statement")
	}
	entries := make([]Entry, len(lines)-1)
	for place, line := range lines[1:] {
		if entries[place], err = entryIn(line); err != nil {
			return nil, fmt.Errorf("line %d: %w", place+2, err)
		}
	}
	return entries, nil
}

func entryIn(line []string) (Entry, error) {
	entry := Entry{Side: line[2], Kind: line[3]}
	timestamp, err := strconv.ParseUint(line[0], 10, 64)
	if err != nil {
		return entry, err
	}
	entry.Timestamp = timestamp
	numbers := map[int]*Uint128{1: &entry.TransferID, 4: &entry.Amount, 5: &entry.DebitsPending,
		6: &entry.DebitsPosted, 7: &entry.CreditsPending, 8: &entry.CreditsPosted}
	for column, number := range numbers {
		if *number, err = ParseUint128(line[column]); err != nil {
			return entry, fmt.Errorf("%s: %w", statementColumns[column], err)
		}
	}
	return entry, nil
}
