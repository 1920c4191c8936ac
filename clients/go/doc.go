// Package cegarront is a client for ledgerd, the double-entry ledger service of the project Cegarront.
//
//	ledger, err := cegarront.New("http://127.0.0.1:8080", key, nil)
//	results, err := ledger.CreateTransfers(ctx, []cegarront.Transfer{{ID: cegarront.NewID(), ...}})
//
// It needs the standard library alone. Amounts are whole numbers in a currency's smallest unit,
// timestamps are nanoseconds since 1970, and ids have 128 bits.
package cegarront

// MaxEvents is the most events of a batch, ids of a look-up, and records of a page.
const MaxEvents = 1000
