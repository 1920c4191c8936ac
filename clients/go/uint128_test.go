package cegarront_test

import (
	"math/big"
	"math/rand"
	"testing"

	"cegarront"
)

func TestUint128ReadsAndWritesWhatBigDoes(t *testing.T) {
	limit := new(big.Int).Lsh(big.NewInt(1), 128)
	random := rand.New(rand.NewSource(1))
	for i := 0; i < 10_000; i++ {
		wanted := new(big.Int).Rand(random, limit)
		wanted.Rsh(wanted, uint(random.Intn(128)))
		number, err := cegarront.ParseUint128(wanted.String())
		if err != nil || number.String() != wanted.String() || number.Big().Cmp(wanted) != 0 {
			t.Fatalf("%v is read as %v: %v", wanted, number, err)
		}
		other, _ := cegarront.ParseUint128(new(big.Int).Rand(random, limit).String())
		if number.Cmp(other) != wanted.Cmp(other.Big()) {
			t.Fatalf("%v beside %v: %d", number, other, number.Cmp(other))
		}
	}
}

func TestUint128Bounds(t *testing.T) {
	const greatest = "340282366920938463463374607431768211455"
	if number, err := cegarront.ParseUint128(greatest); err != nil || number != cegarront.Max128 {
		t.Errorf("%s is read as %v: %v", greatest, number, err)
	}
	for _, text := range []string{"", "-1", "+1", "1.0", "0x1", " 1", "340282366920938463463374607431768211456",
		"3402823669209384634633746074317682114550", "999999999999999999999999999999999999999999"} {
		if number, err := cegarront.ParseUint128(text); err == nil {
			t.Errorf("%q is read as %v", text, number)
		}
	}
}

func TestNewIDsAscend(t *testing.T) {
	last := cegarront.Uint128{}
	for i := 0; i < 100_000; i++ {
		id := cegarront.NewID()
		if id.Cmp(last) <= 0 || id == cegarront.Max128 {
			t.Fatalf("%v behind %v", id, last)
		}
		last = id
	}
}
