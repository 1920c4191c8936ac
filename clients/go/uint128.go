package cegarront

import (
	"fmt"
	"math/big"
	"math/bits"
)

// Uint128 is a number of 128 bits, as ids and amounts are. Two are equal where == says so.
type Uint128 struct{ high, low uint64 }

// Max128 is the greatest amount: in a post the whole pending amount, in a balancing transfer all that
// there is.
var Max128 = Uint128{^uint64(0), ^uint64(0)}

// U128 is a small number as one of 128 bits.
func U128(low uint64) Uint128 { return Uint128{low: low} }

// ParseUint128 reads decimal digits.
func ParseUint128(text string) (Uint128, error) {
	if text == "" {
		return Uint128{}, fmt.Errorf("no digits")
	}
	var n Uint128
	for _, digit := range []byte(text) {
		if digit < '0' || digit > '9' {
			return Uint128{}, fmt.Errorf("%q is no decimal number from 0 to 2^128 - 1", text)
		}
		carried, low := bits.Mul64(n.low, 10)
		over, high := bits.Mul64(n.high, 10)
		low, carry := bits.Add64(low, uint64(digit-'0'), 0)
		high, more := bits.Add64(high, carried, carry)
		if over != 0 || more != 0 {
			return Uint128{}, fmt.Errorf("%q is above 2^128 - 1", text)
		}
		n = Uint128{high, low}
	}
	return n, nil
}

// IsZero reports whether the number is 0.
func (n Uint128) IsZero() bool { return n == Uint128{} }

// Cmp is -1, 0 or 1 where n is below, equal to or above other.
func (n Uint128) Cmp(other Uint128) int {
	switch {
	case n == other:
		return 0
	case n.high < other.high || n.high == other.high && n.low < other.low:
		return -1
	}
	return 1
}

// Big is the number as one of any size, to compute with.
func (n Uint128) Big() *big.Int {
	big128 := new(big.Int).SetUint64(n.high)
	return big128.Lsh(big128, 64).Or(big128, new(big.Int).SetUint64(n.low))
}

// String is the number in decimal digits.
func (n Uint128) String() string { return n.Big().String() }

// MarshalText writes decimal digits, so that the number is a string in JSON.
func (n Uint128) MarshalText() ([]byte, error) { return []byte(n.String()), nil }

// UnmarshalText reads decimal digits.
func (n *Uint128) UnmarshalText(text []byte) error {
	read, err := ParseUint128(string(text))
	*n = read
	return err
}
