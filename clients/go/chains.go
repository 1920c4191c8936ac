package cegarront

// Chains that were sent again, and whether they stand.
//
// A chain stands or falls whole, and inside it exists is a failure. So a chain that was accepted, sent
// again, answers exists for its first event and linked_event_failed for all others. So does a chain of
// which another request has booked an event or two. A look-up of all its ids shows which it is.

const (
	accountExists     = 13
	transferExists    = 18
	linkedEventFailed = 2
)

// span has the places of a chain in its batch, the end not included.
type span struct{ from, to int }

// chainsOf returns the chains of a batch of n events. An event that is not linked is a chain of its own.
func chainsOf(n int, isLinked func(place int) bool) []span {
	var chains []span
	from := 0
	for place := 0; place < n; place++ {
		if place+1 == n || !isLinked(place) {
			chains = append(chains, span{from, place + 1})
			from = place + 1
		}
	}
	return chains
}

// mayStand reports whether these are the results of a chain of several events that may have been accepted.
func mayStand(results []Result, exists int) bool {
	if len(results) < 2 || results[0].Number != exists {
		return false
	}
	for _, each := range results[1:] {
		if each.Number != linkedEventFailed {
			return false
		}
	}
	return true
}

// accountStands reports whether an account exists with the fields sent.
func accountStands(sent, there Account) bool {
	return sent.Flags == there.Flags &&
		sent.UserData128 == there.UserData128 &&
		sent.UserData64 == there.UserData64 &&
		sent.UserData32 == there.UserData32 &&
		sent.Ledger == there.Ledger &&
		sent.Code == there.Code
}

// idsToLookUp returns the ids of transfers, and of the holds that they post in full.
func idsToLookUp(sent []Transfer) []Uint128 {
	var ids []Uint128
	seen := make(map[Uint128]bool)
	add := func(id Uint128) {
		if !seen[id] {
			seen[id] = true
			ids = append(ids, id)
		}
	}
	for _, each := range sent {
		add(each.ID)
	}
	for _, each := range sent {
		if postsWhole(each) {
			add(each.PendingID)
		}
	}
	return ids
}

// transferStands reports whether a transfer exists with the fields sent, by the rules with which the ledger
// answers exists. found has the transfers of idsToLookUp.
func transferStands(sent Transfer, found map[Uint128]Transfer) bool {
	there, ok := found[sent.ID]
	if !ok || sent.Flags != there.Flags || sent.PendingID != there.PendingID ||
		sent.Timeout != there.Timeout {
		return false
	}
	// What a post or void leaves 0 takes the hold's value.
	isEnd := sent.Flags&(PostPendingTransfer|VoidPendingTransfer) != 0
	return same(sent.DebitAccountID, there.DebitAccountID, isEnd) &&
		same(sent.CreditAccountID, there.CreditAccountID, isEnd) &&
		same(sent.UserData128, there.UserData128, isEnd) &&
		same(sent.UserData64, there.UserData64, isEnd) &&
		same(sent.UserData32, there.UserData32, isEnd) &&
		same(sent.Ledger, there.Ledger, isEnd) &&
		same(sent.Code, there.Code, isEnd) &&
		amountStands(sent, there, found)
}

// same reports whether two values are equal, or the first is 0 and may be omitted.
func same[T comparable](sent, there T, mayBeLeftOut bool) bool {
	var none T
	return sent == there || mayBeLeftOut && sent == none
}

func amountStands(sent, there Transfer, found map[Uint128]Transfer) bool {
	switch {
	case sent.Flags&(BalancingDebit|BalancingCredit) != 0:
		return there.Amount.Cmp(sent.Amount) <= 0
	case postsWhole(sent):
		hold, ok := found[sent.PendingID]
		return ok && there.Amount == hold.Amount
	case sent.Flags&VoidPendingTransfer != 0 && sent.Amount.IsZero():
		return true
	}
	return there.Amount == sent.Amount
}

func postsWhole(sent Transfer) bool {
	return sent.Flags&PostPendingTransfer != 0 && sent.Amount == Max128
}
