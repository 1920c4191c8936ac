package cegarront

import "math/big"

// AccountFlags are the flags of an account. The two limits exclude each other.
type AccountFlags uint16

const (
	// AccountLinked: the event stands or falls with the next one of its batch.
	AccountLinked AccountFlags = 1 << iota
	DebitsMustNotExceedCredits
	CreditsMustNotExceedDebits
	// History: the balances after each entry may be asked for.
	History
)

// TransferFlags are the flags of a transfer. Pending, post and void exclude each other.
type TransferFlags uint16

const (
	// Linked: the event stands or falls with the next one of its batch.
	Linked TransferFlags = 1 << iota
	// Pending: a hold, whose amount is set aside.
	Pending
	// PostPendingTransfer ends the hold PendingID, and posts its amount or a part; the rest is released.
	PostPendingTransfer
	// VoidPendingTransfer ends the hold PendingID, and posts nothing.
	VoidPendingTransfer
	// BalancingDebit: the amount is lowered to what the debit account has left.
	BalancingDebit
	// BalancingCredit: the amount is lowered to what the credit account has left.
	BalancingCredit
)

// Account is an account to be opened, or as a look-up shows it. ID is neither 0 nor Max128, Ledger and
// Code are not 0. The four sums and the timestamp (nanoseconds) are the ledger's to fill: leave them 0
// in an account to be opened.
type Account struct {
	ID             Uint128      `json:"id"`
	DebitsPending  Uint128      `json:"debits_pending"`
	DebitsPosted   Uint128      `json:"debits_posted"`
	CreditsPending Uint128      `json:"credits_pending"`
	CreditsPosted  Uint128      `json:"credits_posted"`
	UserData128    Uint128      `json:"user_data_128"`
	UserData64     uint64       `json:"user_data_64,string"`
	UserData32     uint32       `json:"user_data_32"`
	Ledger         uint32       `json:"ledger"`
	Code           uint16       `json:"code"`
	Flags          AccountFlags `json:"flags"`
	Timestamp      uint64       `json:"timestamp,string"`
}

// Balance is the posted credits minus the posted debits: what a wallet holds. A bank's account is usually
// negative.
func (a Account) Balance() *big.Int {
	return new(big.Int).Sub(a.CreditsPosted.Big(), a.DebitsPosted.Big())
}

// Transfer is a transfer to be sent, or as a look-up shows it. Amount is in the ledger's smallest unit,
// Timeout of a pending transfer in seconds (0 is never), and Timestamp in nanoseconds (the ledger's to
// fill). In a post or void PendingID names the hold, and what is left 0 of accounts, ledger, code and
// user data is the hold's.
type Transfer struct {
	ID              Uint128       `json:"id"`
	DebitAccountID  Uint128       `json:"debit_account_id"`
	CreditAccountID Uint128       `json:"credit_account_id"`
	Amount          Uint128       `json:"amount"`
	PendingID       Uint128       `json:"pending_id"`
	UserData128     Uint128       `json:"user_data_128"`
	UserData64      uint64        `json:"user_data_64,string"`
	UserData32      uint32        `json:"user_data_32"`
	Timeout         uint32        `json:"timeout"`
	Ledger          uint32        `json:"ledger"`
	Code            uint16        `json:"code"`
	Flags           TransferFlags `json:"flags"`
	Timestamp       uint64        `json:"timestamp,string"`
}

// FilterFlags say which entries of an account are asked for, and in which order.
type FilterFlags uint16

const (
	// Debits and Credits are the sides. With neither both are asked for.
	Debits FilterFlags = 1 << iota
	Credits
	// NewestFirst turns the order.
	NewestFirst
)

// AccountFilter says which entries of an account are asked for. The bounds are nanoseconds, inclusive,
// and 0 is none. Limit is 1 to 1,000 records a page, and 0 is 1,000.
type AccountFilter struct {
	AccountID                  Uint128
	TimestampMin, TimestampMax uint64
	Limit                      int
	Flags                      FilterFlags
}

// PageFilter says of what times records are asked for. The bounds are nanoseconds, inclusive, and 0 is
// none. Limit is 1 to 1,000 records a page, and 0 is 1,000.
type PageFilter struct {
	TimestampMin, TimestampMax uint64
	Limit                      int
	NewestFirst                bool
}

// QueryFilter says which accounts or transfers are asked for: those that have each value given. 0 is
// any.
type QueryFilter struct {
	PageFilter
	UserData128 Uint128
	UserData64  uint64
	UserData32  uint32
	Ledger      uint32
	Code        uint16
}

// HoldState is the state of a pending transfer at the ledger's clock.
type HoldState string

const (
	Open    HoldState = "open"
	Posted  HoldState = "posted"
	Voided  HoldState = "voided"
	Expired HoldState = "expired"
)

// Hold is the state of a pending transfer. Due is when it expires (nanoseconds), 0 for never. Timestamp
// is when it was accepted; only a page of open holds has it.
type Hold struct {
	ID        Uint128   `json:"id"`
	Due       uint64    `json:"due,string"`
	State     HoldState `json:"state"`
	Timestamp uint64    `json:"timestamp,string"`
}

// Balance has an account's sums after the entry with this timestamp (nanoseconds).
type Balance struct {
	Timestamp      uint64  `json:"timestamp,string"`
	DebitsPending  Uint128 `json:"debits_pending"`
	DebitsPosted   Uint128 `json:"debits_posted"`
	CreditsPending Uint128 `json:"credits_pending"`
	CreditsPosted  Uint128 `json:"credits_posted"`
}

// Entry is a line of an account's statement: a transfer, and the account's sums after it. Side is debit
// or credit, Kind is single, pending, post or void.
type Entry struct {
	Balance
	TransferID Uint128
	Side, Kind string
	Amount     Uint128
}

// Page has the items of a reply, and the ledger's clock (nanoseconds) at that time.
type Page[T any] struct {
	Clock uint64
	Items []T
}

// QueryPage is a page of a query. Next is the TimestampMin of the next page, or with NewestFirst its
// TimestampMax. It is 0 after the last page. A page may have fewer items than its limit, or none, and
// still have a next one.
type QueryPage[T any] struct {
	Page[T]
	Next uint64
}
