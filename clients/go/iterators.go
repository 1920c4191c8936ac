package cegarront

import (
	"context"
	"fmt"
)

// Iterator goes through items, and fetches their pages as needed:
//
//	transfers := ledger.IterTransfers(cegarront.QueryFilter{})
//	for transfers.Next(ctx) {
//		use(transfers.Item())
//	}
//	if err := transfers.Err(); err != nil { ... }
type Iterator[T any] struct {
	fetch  func(context.Context) (items []T, isLast bool, err error)
	items  []T
	item   T
	isLast bool
	err    error
}

// Next advances to the next item. It returns false after the last one, or if fetching a page failed.
func (it *Iterator[T]) Next(ctx context.Context) bool {
	for len(it.items) == 0 {
		if it.isLast || it.err != nil {
			return false
		}
		it.items, it.isLast, it.err = it.fetch(ctx)
	}
	it.item, it.items = it.items[0], it.items[1:]
	return true
}

// Item is the current item.
func (it *Iterator[T]) Item() T { return it.item }

// Err is why Next returned false, or nil after the last item.
func (it *Iterator[T]) Err() error { return it.err }

// IterAccountTransfers goes through all transfers of an account that the filter asks for.
func (l *Ledger) IterAccountTransfers(f AccountFilter) *Iterator[Transfer] {
	return allOf(f, l.AccountTransfers, func(t Transfer) uint64 { return t.Timestamp })
}

// IterAccountBalances goes through all sums of an account that the filter asks for.
func (l *Ledger) IterAccountBalances(f AccountFilter) *Iterator[Balance] {
	return allOf(f, l.AccountBalances, func(b Balance) uint64 { return b.Timestamp })
}

// IterAccounts goes through all accounts that the filter asks for; each page has the sums of its time.
func (l *Ledger) IterAccounts(f QueryFilter) *Iterator[Account] {
	return allPages(&f.PageFilter, func(ctx context.Context) (QueryPage[Account], error) {
		return l.QueryAccounts(ctx, f)
	})
}

// IterTransfers goes through all transfers that the filter asks for.
func (l *Ledger) IterTransfers(f QueryFilter) *Iterator[Transfer] {
	return allPages(&f.PageFilter, func(ctx context.Context) (QueryPage[Transfer], error) {
		return l.QueryTransfers(ctx, f)
	})
}

// IterOpenPending goes through all pending transfers that are open.
func (l *Ledger) IterOpenPending(f PageFilter) *Iterator[Hold] {
	return allPages(&f, func(ctx context.Context) (QueryPage[Hold], error) {
		return l.OpenPending(ctx, f)
	})
}

// allOf goes through the pages of an account.
func allOf[T any](f AccountFilter, pageOf func(context.Context, AccountFilter) (Page[T], error),
	timestampOf func(T) uint64) *Iterator[T] {
	f.Limit = limitOr1000(f.Limit)
	return &Iterator[T]{fetch: func(ctx context.Context) ([]T, bool, error) {
		page, err := pageOf(ctx, f)
		if err != nil || len(page.Items) < f.Limit {
			return page.Items, true, err
		}
		last := timestampOf(page.Items[len(page.Items)-1])
		if f.Flags&NewestFirst == 0 {
			f.TimestampMin = last + 1
			return page.Items, false, nil
		}
		f.TimestampMax = last - 1
		return page.Items, last <= 1, nil // A bound of 0 would be none.
	}}
}

// allPages goes through the pages of a query. f has the query's times.
func allPages[T any](f *PageFilter, pageOf func(context.Context) (QueryPage[T], error)) *Iterator[T] {
	return &Iterator[T]{fetch: func(ctx context.Context) ([]T, bool, error) {
		page, err := pageOf(ctx)
		if f.NewestFirst {
			f.TimestampMax = page.Next
		} else {
			f.TimestampMin = page.Next
		}
		return page.Items, page.Next == 0, err
	}}
}

// Follower returns the transfers accepted since a number, each once and in order, page by page:
//
//	pages := ledger.Follow(number)
//	for pages.Next(ctx) {
//		use(pages.Transfers()) // and store pages.Number(): both or neither
//	}
//	if err := pages.Err(); err != nil { ... }
//
// It ends when there is no more for now; follow again later, from the number stored last. Store the
// number together with your own work, in one step: then a crash neither loses nor repeats anything.
type Follower struct {
	// Limit is the most transfers of a page, 1,000 if 0.
	Limit     int
	ledger    *Ledger
	number    uint64
	transfers []Transfer
	isLast    bool
	err       error
}

// Follow continues from a number, which is 0 at first.
func (l *Ledger) Follow(number uint64) *Follower { return &Follower{ledger: l, number: number} }

// Next advances to the next page. It returns false when there is no more for now, or after an error.
// After ErrOlderLedger the follower has to start over: the ledger's clock is before the number.
func (f *Follower) Next(ctx context.Context) bool {
	for !f.isLast && f.err == nil {
		page, err := f.ledger.QueryTransfers(ctx, QueryFilter{
			PageFilter: PageFilter{TimestampMin: f.number, Limit: f.Limit},
		})
		if f.err = err; err != nil {
			return false
		}
		later := page.Next
		if f.isLast = page.Next == 0; f.isLast {
			later = page.Clock + 1
		}
		if later < f.number {
			cause := fmt.Errorf("the clock %d is before %d", page.Clock, f.number)
			f.err = &Error{Kind: ErrOlderLedger, Cause: cause}
			return false
		}
		isLater := later > f.number
		f.transfers, f.number = page.Items, later
		if isLater {
			return true
		}
	}
	return false
}

// Transfers are those of the page.
func (f *Follower) Transfers() []Transfer { return f.transfers }

// Number is the number to store together with your work on the page.
func (f *Follower) Number() uint64 { return f.number }

// Err is why Next returned false, or nil if there is no more for now.
func (f *Follower) Err() error { return f.err }
