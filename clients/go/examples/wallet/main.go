// A wallet: money comes in, some is set aside for an order, and a part of that is paid.
package main

import (
	"context"
	"fmt"
	"log"
	"os"

	"cegarront"
)

const euro, bank, shop = 978, 1, 2

func run(ctx context.Context, ledger *cegarront.Ledger) error {
	wallet := cegarront.Account{ID: cegarront.NewID(), Ledger: euro, Code: 3,
		Flags: cegarront.DebitsMustNotExceedCredits} // it cannot be overdrawn
	accounts := []cegarront.Account{
		{ID: cegarront.U128(bank), Ledger: euro, Code: 1}, {ID: cegarront.U128(shop), Ledger: euro, Code: 2}, wallet}
	opened, err := ledger.CreateAccounts(ctx, accounts)
	if err != nil || opened.Err() != nil {
		return fmt.Errorf("accounts: %v, %v", err, opened.Err())
	}

	// 50.00 come in. Draw an id once, and keep it with the order before you send it.
	topUp := cegarront.Transfer{ID: cegarront.NewID(), DebitAccountID: cegarront.U128(bank),
		CreditAccountID: wallet.ID, Amount: cegarront.U128(5000), Ledger: euro, Code: 1}

	// 20.00 are set aside for an hour, and 15.00 of them are paid; the rest is free again.
	hold := cegarront.Transfer{ID: cegarront.NewID(), DebitAccountID: wallet.ID,
		CreditAccountID: cegarront.U128(shop), Amount: cegarront.U128(2000), Ledger: euro, Code: 2,
		Timeout: 3600, Flags: cegarront.Pending}
	payment := cegarront.Transfer{ID: cegarront.NewID(), PendingID: hold.ID,
		Amount: cegarront.U128(1500), Flags: cegarront.PostPendingTransfer}
	for _, transfer := range []cegarront.Transfer{topUp, hold, payment} {
		results, err := ledger.CreateTransfers(ctx, []cegarront.Transfer{transfer})
		if err != nil {
			return err
		}
		if err := results.Err(); err != nil {
			return err
		}
	}

	// Sent again, it is there, and nothing is added.
	again, err := ledger.CreateTransfers(ctx, []cegarront.Transfer{payment})
	if err != nil {
		return err
	}
	now, err := ledger.LookupAccounts(ctx, []cegarront.Uint128{wallet.ID})
	if err != nil {
		return err
	}
	fmt.Printf("again: %s, balance: %s\n", again.Items[0].Outcome, now.Items[0].Balance())
	return nil
}

func main() {
	ledger, err := cegarront.New(os.Getenv("LEDGER_URL"), os.Getenv("LEDGER_KEY"), nil)
	if err != nil {
		log.Fatal(err)
	}
	defer ledger.Close()
	if err := run(context.Background(), ledger); cegarront.MayBeBooked(err) {
		log.Fatal("send the same again: ", err)
	} else if err != nil {
		log.Fatal(err)
	}
}
