// The client as a process that clients/harness drives: one call per line, and its result.
package main

import (
	"bufio"
	"context"
	"encoding/json"
	"errors"
	"fmt"
	"os"
	"strconv"
	"time"

	"cegarront"
)

// request is a line: a ledger to open, or a call with its arguments.
type request struct {
	Open *struct {
		URL, Key string
		Deadline float64
	}
	Call    string
	Events  json.RawMessage
	IDs     []cegarront.Uint128
	Asked   filter
	Account cegarront.Uint128
	Number  uint64 `json:",string"`
	Limit   int
	All     bool
}

type filter struct {
	AccountID    cegarront.Uint128 `json:"account_id"`
	TimestampMin uint64            `json:"timestamp_min,string"`
	TimestampMax uint64            `json:"timestamp_max,string"`
	UserData64   uint64            `json:"user_data_64,string"`
	Code         uint16
	Flags        uint16
	Limit        *int
}

// limit is -1 for a limit of 0, which for the client is the default.
func (f filter) limit() int {
	switch {
	case f.Limit == nil:
		return 0
	case *f.Limit == 0:
		return -1
	}
	return *f.Limit
}

func (f filter) ofAccount() cegarront.AccountFilter {
	return cegarront.AccountFilter{AccountID: f.AccountID, TimestampMin: f.TimestampMin,
		TimestampMax: f.TimestampMax, Limit: f.limit(), Flags: cegarront.FilterFlags(f.Flags)}
}

func (f filter) page() cegarront.PageFilter {
	return cegarront.PageFilter{TimestampMin: f.TimestampMin, TimestampMax: f.TimestampMax,
		Limit: f.limit(), NewestFirst: f.Flags == 1}
}

func (f filter) query() cegarront.QueryFilter {
	return cegarront.QueryFilter{PageFilter: f.page(), UserData64: f.UserData64, Code: f.Code}
}

type object map[string]any

// account is one as a reply shows it, with its balance.
type account struct {
	cegarront.Account
	Balance string `json:"balance"`
}

type hold struct {
	ID    cegarront.Uint128 `json:"id"`
	Due   string            `json:"due"`
	State string            `json:"state"`
}

type openHold struct {
	hold
	Timestamp string `json:"timestamp"`
}

func withBalance(a cegarront.Account) any { return account{a, a.Balance().String()} }

func asHold(h cegarront.Hold) any {
	return hold{h.ID, strconv.FormatUint(h.Due, 10), string(h.State)}
}

func asOpenHold(h cegarront.Hold) any {
	return openHold{asHold(h).(hold), strconv.FormatUint(h.Timestamp, 10)}
}

func asItself[T any](item T) any { return item }

func asEntry(e cegarront.Entry) any {
	return object{"timestamp": strconv.FormatUint(e.Timestamp, 10), "transfer_id": e.TransferID,
		"side": e.Side, "kind": e.Kind, "amount": e.Amount, "debits_pending": e.DebitsPending,
		"debits_posted": e.DebitsPosted, "credits_pending": e.CreditsPending,
		"credits_posted": e.CreditsPosted}
}

func shown[T any](items []T, show func(T) any) []any {
	told := make([]any, len(items))
	for place, each := range items {
		told[place] = show(each)
	}
	return told
}

func page[T any](p cegarront.Page[T], err error, show func(T) any) (object, error) {
	return object{"clock": fmt.Sprint(p.Clock), "items": shown(p.Items, show)}, err
}

func queryPage[T any](p cegarront.QueryPage[T], err error, show func(T) any) (object, error) {
	told, err := page(p.Page, err, show)
	told["next"] = fmt.Sprint(p.Next)
	return told, err
}

func all[T any](ctx context.Context, it *cegarront.Iterator[T], show func(T) any) (object, error) {
	var items []T
	for it.Next(ctx) {
		items = append(items, it.Item())
	}
	return object{"items": shown(items, show)}, it.Err()
}

func batch[T any](ctx context.Context, r request,
	create func(context.Context, []T) (cegarront.Results, error)) (object, error) {
	var events []T
	if err := json.Unmarshal(r.Events, &events); err != nil {
		return nil, fmt.Errorf("%w: %v", cegarront.ErrInvalid, err)
	}
	results, err := create(ctx, events)
	if err == nil && r.All {
		err = results.Err()
	}
	told := make([]object, len(results.Items))
	for place, each := range results.Items {
		told[place] = object{"number": each.Number, "result": each.Name,
			"timestamp": fmt.Sprint(each.Timestamp), "outcome": each.Outcome}
	}
	return object{"clock": fmt.Sprint(results.Clock), "results": told}, err
}

// judged has events judged as a batch would send them.
func judged[T any](ctx context.Context, r request,
	lint func(context.Context, []T) (int, error)) (object, error) {
	var events []T
	if err := json.Unmarshal(r.Events, &events); err != nil {
		return nil, fmt.Errorf("%w: %v", cegarront.ErrInvalid, err)
	}
	count, err := lint(ctx, events)
	return object{"events": count}, err
}

func follow(ctx context.Context, l *cegarront.Ledger, r request) (object, error) {
	pages, told := l.Follow(r.Number), []object{}
	pages.Limit = r.Limit
	for pages.Next(ctx) {
		told = append(told, object{"items": shown(pages.Transfers(), asItself[cegarront.Transfer]),
			"number": fmt.Sprint(pages.Number())})
	}
	return object{"pages": told}, pages.Err()
}

func answer(ctx context.Context, l *cegarront.Ledger, r request) (object, error) {
	switch r.Call {
	case "create_accounts":
		return batch(ctx, r, l.CreateAccounts)
	case "create_transfers":
		return batch(ctx, r, l.CreateTransfers)
	case "lint_accounts":
		return judged(ctx, r, l.LintAccounts)
	case "lint_transfers":
		return judged(ctx, r, l.LintTransfers)
	case "lookup_accounts":
		p, err := l.LookupAccounts(ctx, r.IDs)
		return page(p, err, withBalance)
	case "lookup_transfers":
		p, err := l.LookupTransfers(ctx, r.IDs)
		return page(p, err, asItself[cegarront.Transfer])
	case "lookup_pending":
		p, err := l.LookupPending(ctx, r.IDs)
		return page(p, err, asHold)
	case "get_account_transfers":
		p, err := l.AccountTransfers(ctx, r.Asked.ofAccount())
		return page(p, err, asItself[cegarront.Transfer])
	case "get_account_balances":
		p, err := l.AccountBalances(ctx, r.Asked.ofAccount())
		return page(p, err, asItself[cegarront.Balance])
	case "query_accounts":
		p, err := l.QueryAccounts(ctx, r.Asked.query())
		return queryPage(p, err, withBalance)
	case "query_transfers":
		p, err := l.QueryTransfers(ctx, r.Asked.query())
		return queryPage(p, err, asItself[cegarront.Transfer])
	case "open_pending":
		p, err := l.OpenPending(ctx, r.Asked.page())
		return queryPage(p, err, asOpenHold)
	case "iter_account_transfers":
		return all(ctx, l.IterAccountTransfers(r.Asked.ofAccount()), asItself[cegarront.Transfer])
	case "iter_account_balances":
		return all(ctx, l.IterAccountBalances(r.Asked.ofAccount()), asItself[cegarront.Balance])
	case "iter_accounts":
		return all(ctx, l.IterAccounts(r.Asked.query()), withBalance)
	case "iter_transfers":
		return all(ctx, l.IterTransfers(r.Asked.query()), asItself[cegarront.Transfer])
	case "iter_open_pending":
		return all(ctx, l.IterOpenPending(r.Asked.page()), asOpenHold)
	case "follow":
		return follow(ctx, l, r)
	case "statement":
		entries, err := l.Statement(ctx, r.Account)
		return object{"items": shown(entries, asEntry)}, err
	case "health":
		serving, err := l.Health(ctx)
		return object{"serving": serving}, err
	}
	return nil, fmt.Errorf("no call %q", r.Call)
}

// failure is an error as clients/cases.json names it.
func failure(err error) object {
	told := object{"text": err.Error(), "may_be_booked": cegarront.MayBeBooked(err)}
	var refused cegarront.Refusal
	var events *cegarront.EventsRefusedError
	var failed *cegarront.Error
	switch {
	case errors.As(err, &events):
		first := events.First()
		told["kind"], told["event"], told["name"] = "events_refused", first.Place, first.Result.Name
	case errors.Is(err, cegarront.ErrUnanswered):
		told["kind"] = "unanswered"
	case errors.Is(err, cegarront.ErrBadReply):
		told["kind"] = "bad_reply"
	case errors.Is(err, cegarront.ErrOlderLedger):
		told["kind"] = "older_ledger"
	case errors.Is(err, cegarront.ErrInvalid):
		told["kind"] = "invalid"
	case errors.As(err, &failed):
		refused, _ = failed.Kind.(cegarront.Refusal)
		told["kind"], told["name"], told["status"] = "refused", refused, failed.Status
		if detail := failed.Detail; detail != nil {
			told["want"] = detail.Want
			if detail.Place >= 0 {
				told["place"] = detail.Place
			}
			if detail.Field != "" {
				told["field"] = detail.Field
			}
		}
	}
	return told
}

func main() {
	lines := bufio.NewScanner(os.Stdin)
	lines.Buffer(nil, 16<<20)
	out := json.NewEncoder(os.Stdout)
	var ledger *cegarront.Ledger
	for lines.Scan() {
		var r request
		given, err := object{}, json.Unmarshal(lines.Bytes(), &r)
		switch {
		case err != nil:
		case r.Open != nil:
			deadline := time.Duration(r.Open.Deadline * float64(time.Second))
			ledger, err = cegarront.New(r.Open.URL, r.Open.Key, &cegarront.Options{Deadline: deadline})
		default:
			given, err = answer(context.Background(), ledger, r)
		}
		if err != nil {
			given = object{"error": failure(err)}
		}
		if err := out.Encode(given); err != nil {
			os.Exit(1)
		}
	}
}
