package cegarront

import (
	"context"
	"crypto/tls"
	"encoding/json"
	"fmt"
	"net/http"
	"net/url"
	"regexp"
	"strings"
	"time"
)

const (
	defaultDeadline    = time.Minute
	defaultConnections = 16
)

var isKey = regexp.MustCompile(`^[0-9A-Fa-f]{64}$`).MatchString

// Options of a Ledger. The zero value has the defaults.
type Options struct {
	// Deadline limits a whole call, and is a minute by default. A context may end the call earlier.
	Deadline time.Duration
	// Connections is the most that are open at once, 16 by default.
	Connections int
	// TLS is for the https address of a proxy.
	TLS *tls.Config
}

// Ledger is a tenant's ledger. Goroutines may share it.
//
// A call waits for its answer until its deadline, as long as the connection stands. It resends the same
// bytes, after growing pauses, if the connection was cut or refused, if the service is unavailable, and
// if it replies busy or too_much. That never books an event twice.
//
// Calls return an *Error. It is ErrUnanswered if no answer came in time, and a Refusal if the service
// refuses the request. It is ErrBadReply if something other than a ledger answers, and ErrInvalid, before
// anything is sent, for invalid arguments.
type Ledger struct {
	transport *transport
	deadline  time.Duration
}

// New makes a ledger at an address, with the tenant's key (64 hexadecimal digits). Nothing is sent yet.
func New(address, key string, options *Options) (*Ledger, error) {
	if options == nil {
		options = &Options{}
	}
	parsed, err := url.Parse(address)
	switch {
	case err != nil, parsed.Scheme != "http" && parsed.Scheme != "https", parsed.Host == "":
		return nil, invalid("%q is no http:// or https:// address", address)
	case parsed.RawQuery != "" || parsed.Fragment != "" || parsed.User != nil:
		return nil, invalid("the address has more than scheme, host, port and path")
	case !isKey(key):
		return nil, invalid("the key is not 64 hexadecimal digits")
	}
	ledger := &Ledger{deadline: options.Deadline}
	if ledger.deadline <= 0 {
		ledger.deadline = defaultDeadline
	}
	connections := options.Connections
	if connections <= 0 {
		connections = defaultConnections
	}
	base := strings.TrimRight(address, "/")
	ledger.transport = newTransport(base, key, connections, options.TLS)
	return ledger, nil
}

// Close closes the connections that are idle. A later call opens new ones.
func (l *Ledger) Close() { l.transport.client.CloseIdleConnections() }

// CreateAccounts opens accounts, as one batch of at most 1,000, and returns a result for each.
func (l *Ledger) CreateAccounts(ctx context.Context, accounts []Account) (Results, error) {
	body, err := listJSON(accounts, "events", accountJSON)
	if err != nil {
		return Results{}, err
	}
	ctx, cancel := context.WithTimeout(ctx, l.deadline)
	defer cancel()
	isLinked := func(place int) bool { return accounts[place].Flags&AccountLinked != 0 }
	return l.batch(ctx, "/accounts", body, chainsOf(len(accounts), isLinked), accountExists,
		func(chain span) (bool, error) { return l.accountsStand(ctx, accounts[chain.from:chain.to]) })
}

// CreateTransfers sends transfers, posts and voids, as one batch of at most 1,000, and returns a result
// for each. An empty batch moves the clock, so that holds that are due expire.
func (l *Ledger) CreateTransfers(ctx context.Context, transfers []Transfer) (Results, error) {
	body, err := listJSON(transfers, "events", transferJSON)
	if err != nil {
		return Results{}, err
	}
	ctx, cancel := context.WithTimeout(ctx, l.deadline)
	defer cancel()
	isLinked := func(place int) bool { return transfers[place].Flags&Linked != 0 }
	return l.batch(ctx, "/transfers", body, chainsOf(len(transfers), isLinked), transferExists,
		func(chain span) (bool, error) { return l.transfersStand(ctx, transfers[chain.from:chain.to]) })
}

// LookupAccounts returns the accounts that exist among at most 1,000 ids, in the order asked. Sums are
// those at the ledger's clock: they include a hold that is due until the next batch, or until the service
// releases it, within seconds.
func (l *Ledger) LookupAccounts(ctx context.Context, ids []Uint128) (Page[Account], error) {
	return lookUp[Account](ctx, l, "/accounts/lookup", ids, "accounts")
}

// LookupTransfers returns the transfers that exist among at most 1,000 ids, in the order asked. A missing
// one may still be on its way, if its batch got no answer.
func (l *Ledger) LookupTransfers(ctx context.Context, ids []Uint128) (Page[Transfer], error) {
	return lookUp[Transfer](ctx, l, "/transfers/lookup", ids, "transfers")
}

// LookupPending returns the state of the pending transfers with these ids. It omits other ids.
func (l *Ledger) LookupPending(ctx context.Context, ids []Uint128) (Page[Hold], error) {
	return lookUp[Hold](ctx, l, "/pending/lookup", ids, "pending")
}

// AccountTransfers returns a page of an account's transfers. The service may refuse it with NoAccount.
func (l *Ledger) AccountTransfers(ctx context.Context, f AccountFilter) (Page[Transfer], error) {
	return history[Transfer](ctx, l, "/history/transfers", f, "transfers")
}

// AccountBalances returns a page of an account's sums after its transfers. The service may refuse it with
// NoAccount or NoHistory.
func (l *Ledger) AccountBalances(ctx context.Context, f AccountFilter) (Page[Balance], error) {
	return history[Balance](ctx, l, "/history/balances", f, "balances")
}

// QueryAccounts returns a page of the accounts that match the filter, in the order in which they were
// opened.
func (l *Ledger) QueryAccounts(ctx context.Context, f QueryFilter) (QueryPage[Account], error) {
	f.Limit = limitOr1000(f.Limit)
	return query[Account](ctx, l, "/query/accounts", f.body, "accounts")
}

// QueryTransfers returns a page of the transfers that match the filter, in the order in which they were
// accepted.
func (l *Ledger) QueryTransfers(ctx context.Context, f QueryFilter) (QueryPage[Transfer], error) {
	f.Limit = limitOr1000(f.Limit)
	return query[Transfer](ctx, l, "/query/transfers", f.body, "transfers")
}

// OpenPending returns a page of the open pending transfers, in the order in which they were accepted.
func (l *Ledger) OpenPending(ctx context.Context, f PageFilter) (QueryPage[Hold], error) {
	f.Limit = limitOr1000(f.Limit)
	return query[Hold](ctx, l, "/pending/open", f.body, "pending")
}

// Statement returns all entries of an account, oldest first. It fetches some 100 bytes per entry at once.
func (l *Ledger) Statement(ctx context.Context, account Uint128) ([]Entry, error) {
	m := message{method: http.MethodGet, path: "/statement/" + account.String()}
	body, _, err := l.ask(ctx, m)
	if err != nil {
		return nil, err
	}
	entries, err := entriesIn(body)
	if err != nil {
		return nil, &Error{Kind: ErrBadReply, Cause: err}
	}
	return entries, nil
}

// Health reports whether the service serves. It asks once, and waits for at most 10 seconds.
func (l *Ledger) Health(ctx context.Context) (bool, error) {
	ctx, cancel := context.WithTimeout(ctx, healthWithin)
	defer cancel()
	got, err := l.transport.askOnce(ctx, message{method: http.MethodGet, path: "/health"})
	if err != nil || got.failure() != nil {
		return false, err
	}
	var told struct{ Serving bool }
	if got.status != http.StatusOK || json.Unmarshal(got.body, &told) != nil || !told.Serving {
		return false, &Error{Kind: ErrBadReply, Status: got.status}
	}
	return true, nil
}

// batch sends a batch, and looks up the chains whose results may mean that they existed before.
func (l *Ledger) batch(ctx context.Context, path string, body []byte, chains []span, exists int,
	stands func(span) (bool, error)) (Results, error) {
	m := message{method: http.MethodPost, path: path, body: body, isBatch: true}
	replied, isRepeated, err := l.ask(ctx, m)
	if err != nil {
		return Results{}, err
	}
	results, err := resultsIn(replied, chains)
	if err != nil {
		return Results{}, &Error{Kind: ErrBadReply, MayBeBooked: true, Cause: err}
	}
	outcome := Existed
	if isRepeated {
		outcome = Found
	}
	for _, chain := range chains {
		part := results.Items[chain.from:chain.to]
		isThere := len(part) == 1 && part[0].Number == exists
		if !isThere && mayStand(part, exists) {
			if isThere, err = stands(chain); err != nil {
				return Results{}, mayBeBooked(err)
			}
		}
		if isThere {
			for place := range part {
				part[place].Outcome = outcome
			}
		}
	}
	return results, nil
}

// resultsIn reads the results of a batch, which has these chains.
func resultsIn(body []byte, chains []span) (Results, error) {
	page, err := read[resultJSON](body, "results", false)
	if err != nil {
		return Results{}, err
	}
	events := 0
	if len(chains) > 0 {
		events = chains[len(chains)-1].to
	}
	if len(page.items) != events {
		return Results{}, fmt.Errorf("%d results for %d events", len(page.items), events)
	}
	results := Results{Clock: page.clock, Items: make([]Result, events)}
	for place, each := range page.items {
		if results.Items[place], err = each.result(); err != nil {
			return Results{}, err
		}
	}
	return results, nil
}

func (l *Ledger) accountsStand(ctx context.Context, chain []Account) (bool, error) {
	ids := make([]Uint128, len(chain))
	for place, each := range chain {
		ids[place] = each.ID
	}
	found, err := inParts(ctx, ids, l.LookupAccounts, func(a Account) Uint128 { return a.ID })
	for _, each := range chain {
		there, ok := found[each.ID]
		if err != nil || !ok || !accountStands(each, there) {
			return false, err
		}
	}
	return true, nil
}

func (l *Ledger) transfersStand(ctx context.Context, chain []Transfer) (bool, error) {
	idOf := func(t Transfer) Uint128 { return t.ID }
	found, err := inParts(ctx, idsToLookUp(chain), l.LookupTransfers, idOf)
	for _, each := range chain {
		if err != nil || !transferStands(each, found) {
			return false, err
		}
	}
	return true, nil
}

// inParts looks up any number of ids.
func inParts[T any](ctx context.Context, ids []Uint128,
	lookUp func(context.Context, []Uint128) (Page[T], error), idOf func(T) Uint128) (map[Uint128]T, error) {
	found := make(map[Uint128]T)
	for len(ids) > 0 {
		part := ids
		if len(part) > MaxEvents {
			part = part[:MaxEvents]
		}
		page, err := lookUp(ctx, part)
		if err != nil {
			return nil, err
		}
		for _, each := range page.Items {
			found[idOf(each)] = each
		}
		ids = ids[len(part):]
	}
	return found, nil
}

// mayBeBooked marks the error of a look-up of a chain: the chain may stand.
func mayBeBooked(err error) error {
	if failed, ok := err.(*Error); ok {
		failed.MayBeBooked = true
	}
	return err
}

// ask returns the body of the reply to a message that was not refused.
func (l *Ledger) ask(ctx context.Context, m message) (body []byte, isRepeated bool, err error) {
	ctx, cancel := context.WithTimeout(ctx, l.deadline)
	defer cancel()
	got, err := l.transport.ask(ctx, m)
	if err != nil {
		return nil, false, err
	}
	if got.status == http.StatusOK {
		return got.body, got.isRepeated, nil
	}
	failed := &Error{Kind: ErrBadReply, Status: got.status, MayBeBooked: m.isBatch}
	told := answer{status: got.status, body: got.body}
	if name := told.refusal(); name != "" {
		failed.Kind, failed.MayBeBooked = name, m.isBatch && got.isRepeated
		failed.Detail = told.detail()
	}
	return nil, false, failed
}

func lookUp[T any](ctx context.Context, l *Ledger, path string, ids []Uint128, name string) (Page[T], error) {
	body, err := listJSON(ids, "ids", quoted)
	if err != nil {
		return Page[T]{}, err
	}
	page, err := pageOf[T](ctx, l, path, body, name, false)
	return page.Page, err
}

func history[T any](ctx context.Context, l *Ledger, path string, f AccountFilter,
	name string) (Page[T], error) {
	f.Limit = limitOr1000(f.Limit)
	if f.Flags&(Debits|Credits) == 0 {
		f.Flags |= Debits | Credits
	}
	body, err := f.body()
	if err != nil {
		return Page[T]{}, err
	}
	page, err := pageOf[T](ctx, l, path, body, name, false)
	return page.Page, err
}

func query[T any](ctx context.Context, l *Ledger, path string, write func() ([]byte, error),
	name string) (QueryPage[T], error) {
	body, err := write()
	if err != nil {
		return QueryPage[T]{}, err
	}
	return pageOf[T](ctx, l, path, body, name, true)
}

func pageOf[T any](ctx context.Context, l *Ledger, path string, body []byte, name string,
	hasNext bool) (QueryPage[T], error) {
	replied, _, err := l.ask(ctx, message{method: http.MethodPost, path: path, body: body})
	if err != nil {
		return QueryPage[T]{}, err
	}
	page, err := read[T](replied, name, hasNext)
	if err != nil {
		return QueryPage[T]{}, &Error{Kind: ErrBadReply, Cause: fmt.Errorf("%s: %w", path, err)}
	}
	return QueryPage[T]{Page[T]{page.clock, page.items}, page.next}, nil
}

func limitOr1000(limit int) int {
	if limit == 0 {
		return MaxEvents
	}
	return limit
}
