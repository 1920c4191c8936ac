package cegarront

import (
	"crypto/rand"
	"encoding/binary"
	"math/bits"
	"sync"
	"time"
)

var ids struct {
	sync.Mutex
	last Uint128
}

// NewID draws an id: 48 bits of milliseconds since 1970, and 80 random ones. Ids ascend with time, and
// within a process each is above all before it.
//
// Draw an id once for a payment, and store it before you send it. Resending the same id never books
// twice; a new id does.
func NewID() Uint128 {
	var random [18]byte
	if _, err := rand.Read(random[:]); err != nil {
		panic(err) // The system has no random numbers.
	}
	milliseconds := uint64(time.Now().UnixMilli())
	drawn := Uint128{
		high: milliseconds<<16 | uint64(binary.BigEndian.Uint16(random[:2])),
		low:  binary.BigEndian.Uint64(random[2:10]),
	}
	ids.Lock()
	defer ids.Unlock()
	low, carry := bits.Add64(ids.last.low, binary.BigEndian.Uint64(random[10:]), 1)
	above := Uint128{ids.last.high + carry, low}
	if drawn.Cmp(above) < 0 {
		drawn = above
	}
	ids.last = drawn
	return drawn
}
