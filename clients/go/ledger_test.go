package cegarront_test

import (
	"bufio"
	"context"
	"errors"
	"fmt"
	"io"
	"net"
	"net/http"
	"net/http/httptest"
	"strings"
	"sync"
	"sync/atomic"
	"syscall"
	"testing"
	"time"

	"cegarront"
)

var key = strings.Repeat("0f", 32)

// open makes a ledger at an address.
func open(t *testing.T, address string, options cegarront.Options) *cegarront.Ledger {
	t.Helper()
	ledger, err := cegarront.New(address, key, &options)
	if err != nil {
		t.Fatal(err)
	}
	t.Cleanup(ledger.Close)
	return ledger
}

// echo answers a look-up of one account with that account, after a moment, and counts how many it
// answers at once.
type echo struct{ now, most atomic.Int32 }

func (e *echo) ServeHTTP(w http.ResponseWriter, r *http.Request) {
	now := e.now.Add(1)
	defer e.now.Add(-1)
	for most := e.most.Load(); now > most && !e.most.CompareAndSwap(most, now); most = e.most.Load() {
	}
	body, _ := io.ReadAll(r.Body)
	time.Sleep(time.Millisecond)
	id := strings.Trim(string(body), `["]`)
	fmt.Fprintf(w, `{"accounts":[{"id":%q,"user_data_64":"0","timestamp":"1"}],"clock":"5"}`, id)
}

func TestEachGoroutineGetsItsOwnReply(t *testing.T) {
	served := &echo{}
	server := httptest.NewServer(served)
	defer server.Close()
	ledger := open(t, server.URL, cegarront.Options{Connections: 4})
	var all sync.WaitGroup
	for lane := uint64(1); lane <= 16; lane++ {
		all.Add(1)
		go func(lane uint64) {
			defer all.Done()
			for i := uint64(0); i < 20; i++ {
				id := cegarront.U128(lane*100 + i)
				page, err := ledger.LookupAccounts(context.Background(), []cegarront.Uint128{id})
				if err != nil || len(page.Items) != 1 || page.Items[0].ID != id {
					t.Errorf("%v: %v, %v", id, page, err)
				}
			}
		}(lane)
	}
	all.Wait()
	if most := served.most.Load(); most > 4 {
		t.Errorf("%d at once", most)
	}
}

// silent reads one message and does not answer. It reports how the client leaves.
func silent(t *testing.T) (address string, came <-chan struct{}, left <-chan error) {
	t.Helper()
	listener, err := net.Listen("tcp", "127.0.0.1:0")
	if err != nil {
		t.Fatal(err)
	}
	t.Cleanup(func() { listener.Close() })
	arrived, gone := make(chan struct{}), make(chan error, 1)
	go func() {
		connection, err := listener.Accept()
		if err != nil {
			return
		}
		defer connection.Close()
		reader := bufio.NewReader(connection)
		request, _ := http.ReadRequest(reader)
		io.Copy(io.Discard, request.Body)
		close(arrived)
		_, err = reader.ReadByte()
		gone <- err
	}()
	return "http://" + listener.Addr().String(), arrived, gone
}

func TestACallThatIsCancelled(t *testing.T) {
	address, came, left := silent(t)
	ledger := open(t, address, cegarront.Options{})
	ctx, cancel := context.WithCancel(context.Background())
	go func() { <-came; cancel() }()
	_, err := ledger.CreateTransfers(ctx, []cegarront.Transfer{{ID: cegarront.U128(100)}})
	if !errors.Is(err, cegarront.ErrUnanswered) || !errors.Is(err, context.Canceled) {
		t.Errorf("%v is not told as cancelled", err)
	}
	if !cegarront.MayBeBooked(err) {
		t.Errorf("%v may be booked", err)
	}
	if err := <-left; !errors.Is(err, syscall.ECONNRESET) {
		t.Errorf("the connection was given up by %v", err)
	}
}

func TestAContextEndsACallBeforeItsDeadline(t *testing.T) {
	address, _, _ := silent(t)
	ledger := open(t, address, cegarront.Options{Deadline: time.Hour})
	ctx, cancel := context.WithTimeout(context.Background(), 200*time.Millisecond)
	defer cancel()
	_, err := ledger.LookupAccounts(ctx, nil)
	if !errors.Is(err, cegarront.ErrUnanswered) || cegarront.MayBeBooked(err) {
		t.Errorf("%v: a read books nothing", err)
	}
}

func TestRefusalsAreTold(t *testing.T) {
	server := httptest.NewServer(http.HandlerFunc(func(w http.ResponseWriter, _ *http.Request) {
		w.WriteHeader(http.StatusNotFound)
		io.WriteString(w, `{"error":"no_account"}`)
	}))
	defer server.Close()
	_, err := open(t, server.URL, cegarront.Options{}).Statement(context.Background(), cegarront.U128(9))
	if !errors.Is(err, cegarront.NoAccount) || errors.Is(err, cegarront.UnknownKey) {
		t.Errorf("%v is not told as no_account", err)
	}
	if strings.Contains(err.Error(), key) {
		t.Errorf("the key is in %v", err)
	}
}

func TestWhatIsNoLedger(t *testing.T) {
	for _, address := range []string{"127.0.0.1:8080", "ftp://host", "http://", "http://u:p@host", "http://host/?x"} {
		if _, err := cegarront.New(address, key, nil); !errors.Is(err, cegarront.ErrInvalid) {
			t.Errorf("%q: %v", address, err)
		}
	}
	for _, bad := range []string{key[1:], key + "0", strings.Repeat("g", 64)} {
		if _, err := cegarront.New("http://127.0.0.1:1", bad, nil); !errors.Is(err, cegarront.ErrInvalid) {
			t.Errorf("%q: %v", bad, err)
		}
	}
}
