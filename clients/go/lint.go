package cegarront

import (
	"context"
	"encoding/json"
	"errors"
	"net/http"
)

// LintAccounts has the service judge accounts as CreateAccounts sends them, and books nothing. It returns
// how many there are. The Detail of a refusal says which field of which one is wrong.
func (l *Ledger) LintAccounts(ctx context.Context, accounts []Account) (int, error) {
	return judged(ctx, l, "/lint/accounts", accounts, accountJSON)
}

// LintTransfers has the service judge transfers as CreateTransfers sends them, and books nothing.
func (l *Ledger) LintTransfers(ctx context.Context, transfers []Transfer) (int, error) {
	return judged(ctx, l, "/lint/transfers", transfers, transferJSON)
}

func judged[T any](ctx context.Context, l *Ledger, path string, events []T,
	write func(T) string) (int, error) {
	body, err := listJSON(events, "events", write)
	if err != nil {
		return 0, err
	}
	replied, _, err := l.ask(ctx, message{method: http.MethodPost, path: path, body: body})
	if err != nil {
		return 0, err
	}
	var told struct{ Events *int }
	if err := json.Unmarshal(replied, &told); err != nil {
		return 0, &Error{Kind: ErrBadReply, Cause: err}
	}
	if told.Events == nil {
		return 0, &Error{Kind: ErrBadReply, Cause: errors.New(path + ": no number of events")}
	}
	return *told.Events, nil
}
