package cegarront

import (
	"bytes"
	"context"
	"crypto/tls"
	"encoding/json"
	"errors"
	"fmt"
	"io"
	"math/rand"
	"net"
	"net/http"
	"net/http/httptrace"
	"strconv"
	"sync/atomic"
	"time"
)

const (
	firstPause   = 50 * time.Millisecond
	longestPause = 2 * time.Second
	// An idle connection is kept for this long. The service closes it after 75 seconds.
	maxIdle      = time.Minute
	dialTimeout  = 10 * time.Second
	keepAlive    = 3 * time.Second
	healthWithin = 10 * time.Second
)

// message is a request. isBatch: after a lost answer it may be booked.
type message struct {
	method, path string
	body         []byte
	isBatch      bool
}

// reply is a final reply. isRepeated: an earlier attempt to send the message may have been executed.
type reply struct {
	status     int
	body       []byte
	isRepeated bool
}

// answer is the reply to one attempt.
type answer struct {
	status     int
	body       []byte
	retryAfter string
}

// failure is an attempt without a final answer. wasSent: the service may have executed it. isStale: a kept
// connection turned out to be closed, as may happen at any time.
type failure struct {
	cause            error
	wasSent, isStale bool
	retryAfter       time.Duration
}

// refusal is the name of the ledger's refusal, or "" if the answer is something else.
func (a answer) refusal() Refusal {
	var told struct{ Error Refusal }
	if a.status == http.StatusOK || json.Unmarshal(a.body, &told) != nil {
		return ""
	}
	return told.Error
}

// detail is where the body of the request is refused, or nil if the answer does not say.
func (a answer) detail() *Detail {
	var told struct {
		Event       int
		Field, Want string
	}
	if json.Unmarshal(a.body, &told) != nil || told.Want == "" {
		return nil
	}
	return &Detail{Place: told.Event - 1, Field: told.Field, Want: told.Want}
}

// failure is the failure that an answer reports, or nil if the answer is final.
func (a answer) failure() *failure {
	name := a.refusal()
	isNotNow := name == "busy" || name == "too_much"
	switch {
	case isNotNow, name == "unavailable":
	case name != "", !isProxys(a.status):
		return nil
	}
	text := string(name)
	if name == "" {
		text = "no answer"
	}
	// The service never sends a date, which counts as 0.
	seconds, _ := strconv.ParseUint(a.retryAfter, 10, 31)
	return &failure{
		cause:      fmt.Errorf("%s (%d)", text, a.status),
		wasSent:    !isNotNow, // busy and too_much book nothing.
		retryAfter: time.Duration(seconds) * time.Second,
	}
}

// isProxys reports whether a proxy uses this status if it got no answer, or accepts no more for now.
func isProxys(status int) bool {
	switch status {
	case http.StatusRequestTimeout, http.StatusTooManyRequests, http.StatusBadGateway,
		http.StatusServiceUnavailable, http.StatusGatewayTimeout:
		return true
	}
	return false
}

// pauseAfter returns the pause after a number of failures. Pauses grow, and are random, so that clients do
// not return all at once.
func pauseAfter(failures int, last *failure) time.Duration {
	pause := time.Duration(0)
	if !last.isStale {
		longest := longestPause
		if failures < 7 {
			longest = firstPause << (failures - 1)
		}
		pause = longest/2 + time.Duration(rand.Int63n(int64(longest/2)))
	}
	asked := last.retryAfter + time.Duration(rand.Int63n(int64(last.retryAfter/2)+1))
	if asked > pause {
		return asked
	}
	return pause
}

// transport sends messages to one address with one key.
type transport struct {
	base, key string
	client    *http.Client
}

func newTransport(base, key string, connections int, config *tls.Config) *transport {
	dialer := &net.Dialer{Timeout: dialTimeout, KeepAlive: keepAlive}
	return &transport{base: base, key: key, client: &http.Client{
		// A ledger never redirects.
		CheckRedirect: func(*http.Request, []*http.Request) error { return http.ErrUseLastResponse },
		Transport: &http.Transport{
			DialContext: func(ctx context.Context, network, address string) (net.Conn, error) {
				connection, err := dialer.DialContext(ctx, network, address)
				if err != nil {
					return nil, err
				}
				return &watched{Conn: connection}, nil
			},
			TLSClientConfig:     config,
			MaxConnsPerHost:     connections,
			MaxIdleConnsPerHost: connections,
			IdleConnTimeout:     maxIdle,
			DisableCompression:  true,
		},
	}}
}

// watched is a connection that knows whether an answer is outstanding. Closing it then resets it, so that
// the service can drop the work.
type watched struct {
	net.Conn
	outstanding atomic.Int32
}

func (w *watched) Close() error {
	if tcp, ok := w.Conn.(*net.TCPConn); ok && w.outstanding.Load() > 0 {
		tcp.SetLinger(0)
	}
	return w.Conn.Close()
}

// watchedIn returns the connection below TLS, if there is one.
func watchedIn(connection net.Conn) *watched {
	if secured, ok := connection.(*tls.Conn); ok {
		connection = secured.NetConn()
	}
	found, _ := connection.(*watched)
	return found
}

// ask returns the final reply to a message. It resends the same bytes if the answer is not known, or if the
// service refused the message for now. The ledger allows that for every message: it never books an id
// twice.
func (t *transport) ask(ctx context.Context, m message) (reply, error) {
	wasSent := false
	for failures := 1; ; failures++ {
		got, failed := t.send(ctx, m)
		if failed == nil {
			if failed = got.failure(); failed == nil {
				return reply{got.status, got.body, wasSent}, nil
			}
		}
		wasSent = wasSent || failed.wasSent
		if err := wait(ctx, pauseAfter(failures, failed)); err != nil {
			cause := fmt.Errorf("%s %s, %d times tried, the last time: %w", m.method, m.path, failures,
				failed.cause)
			if errors.Is(err, context.Canceled) {
				cause = err
			}
			return reply{}, &Error{Kind: ErrUnanswered, MayBeBooked: m.isBatch && wasSent, Cause: cause}
		}
	}
}

// askOnce returns the answer to one attempt.
func (t *transport) askOnce(ctx context.Context, m message) (answer, error) {
	got, failed := t.send(ctx, m)
	if failed != nil {
		return answer{}, &Error{Kind: ErrUnanswered, Cause: failed.cause}
	}
	return got, nil
}

// wait pauses, or fails at once if the context ends before the pause does.
func wait(ctx context.Context, pause time.Duration) error {
	if until, ok := ctx.Deadline(); ok && time.Until(until) <= pause {
		if err := ctx.Err(); err != nil {
			return err
		}
		return context.DeadlineExceeded
	}
	timer := time.NewTimer(pause)
	defer timer.Stop()
	select {
	case <-timer.C:
		return nil
	case <-ctx.Done():
		return ctx.Err()
	}
}

// send sends a message once.
func (t *transport) send(ctx context.Context, m message) (answer, *failure) {
	var used *watched
	isReused, isConnected := false, false
	traced := httptrace.WithClientTrace(ctx, &httptrace.ClientTrace{
		GotConn: func(info httptrace.GotConnInfo) {
			if used = watchedIn(info.Conn); used != nil {
				used.outstanding.Add(1)
			}
			isReused, isConnected = info.Reused, true
		},
	})
	got, err := t.exchange(traced, m)
	if err != nil {
		isStale := isReused && ctx.Err() == nil
		return answer{}, &failure{cause: err, wasSent: isConnected, isStale: isStale}
	}
	if used != nil {
		used.outstanding.Add(-1)
	}
	return got, nil
}

func (t *transport) exchange(ctx context.Context, m message) (answer, error) {
	var body io.Reader
	if m.body != nil {
		body = bytes.NewReader(m.body)
	}
	request, err := http.NewRequestWithContext(ctx, m.method, t.base+m.path, body)
	if err != nil {
		return answer{}, err
	}
	request.Header.Set("x-ledger-key", t.key)
	request.Header.Set("x-ledger-detail", "1")
	response, err := t.client.Do(request)
	if err != nil {
		return answer{}, err
	}
	defer response.Body.Close()
	if response.ContentLength < 0 && len(response.TransferEncoding) == 0 {
		return answer{}, io.ErrUnexpectedEOF // A head that was cut looks like one without a length.
	}
	read, err := io.ReadAll(response.Body)
	if err != nil {
		return answer{}, err
	}
	return answer{response.StatusCode, read, response.Header.Get("retry-after")}, nil
}
