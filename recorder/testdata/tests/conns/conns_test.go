// clean

// Package conns has correct programs: none has a data race.
package conns

import (
	"bufio"
	"bytes"
	"compress/gzip"
	"context"
	"database/sql"
	"database/sql/driver"
	"encoding/gob"
	"errors"
	"io"
	"log"
	"net"
	"net/http"
	"net/http/httptest"
	"net/http/httputil"
	"net/rpc"
	"net/url"
	"os"
	"os/exec"
	"reflect"
	"sync"
	"sync/atomic"
	"testing"
	"time"
	"unsafe"
)

// A handler's worker hands over by cancelling a context made from the request's.
func TestReqCtxCancel(t *testing.T) {
	ts := httptest.NewServer(http.HandlerFunc(func(w http.ResponseWriter, r *http.Request) {
		ctx, cancel := context.WithCancel(r.Context())
		sum := 0
		go func() { sum = 42; cancel() }()
		<-ctx.Done()
		w.WriteHeader(200 + sum - 42)
	}))
	defer ts.Close()
	res, err := http.Get(ts.URL)
	if err != nil || res.StatusCode != 200 {
		t.Fatal(err)
	}
	res.Body.Close()
}

// The same with a value on top and a timeout.
func TestReqCtxValue(t *testing.T) {
	type key struct{}
	ts := httptest.NewServer(http.HandlerFunc(func(w http.ResponseWriter, r *http.Request) {
		ctx, cancel := context.WithTimeout(context.WithValue(r.Context(), key{}, 1), time.Minute)
		sum := 0
		go func() { sum = 42; cancel() }()
		<-ctx.Done()
		if ctx.Err() != nil {
			w.WriteHeader(200 + sum - 42)
		}
	}))
	defer ts.Close()
	res, err := http.Get(ts.URL)
	if err != nil || res.StatusCode != 200 {
		t.Fatal(err)
	}
	res.Body.Close()
}

// A server's Close waits for its handlers.
func TestServerCloseWaits(t *testing.T) {
	n := 0
	started := make(chan bool)
	ts := httptest.NewServer(http.HandlerFunc(func(w http.ResponseWriter, r *http.Request) {
		close(started)
		time.Sleep(20 * time.Millisecond)
		n++
	}))
	go http.Get(ts.URL)
	<-started
	ts.Close()
	if n != 1 {
		t.Fatal(n)
	}
}

// A server's Shutdown waits for its handlers.
func TestShutdownWaits(t *testing.T) {
	n := 0
	started := make(chan bool)
	l, err := net.Listen("tcp", "127.0.0.1:0")
	if err != nil {
		t.Fatal(err)
	}
	srv := &http.Server{Handler: http.HandlerFunc(func(w http.ResponseWriter, r *http.Request) {
		close(started)
		time.Sleep(20 * time.Millisecond)
		n++
	})}
	go srv.Serve(l)
	go http.Get("http://" + l.Addr().String())
	<-started
	if err := srv.Shutdown(context.Background()); err != nil {
		t.Fatal(err)
	}
	if n != 1 {
		t.Fatal(n)
	}
}

// ConnState callbacks and ErrorLog.
func TestConnState(t *testing.T) {
	var mu sync.Mutex
	states := map[http.ConnState]int{}
	ts := httptest.NewUnstartedServer(http.HandlerFunc(func(w http.ResponseWriter, r *http.Request) {}))
	ts.Config.ConnState = func(c net.Conn, s http.ConnState) { mu.Lock(); states[s]++; mu.Unlock() }
	ts.Start()
	res, err := http.Get(ts.URL)
	if err != nil {
		t.Fatal(err)
	}
	res.Body.Close()
	ts.Close()
	mu.Lock()
	defer mu.Unlock()
	if states[http.StateNew] != 1 {
		t.Fatal(states)
	}
}

// A round tripper's dial hook runs in a goroutine of net/http.
func TestDialHook(t *testing.T) {
	ts := httptest.NewServer(http.HandlerFunc(func(w http.ResponseWriter, r *http.Request) { io.WriteString(w, "x") }))
	defer ts.Close()
	dials := 0
	tr := &http.Transport{DialContext: func(ctx context.Context, network, addr string) (net.Conn, error) {
		dials++
		return net.Dial(network, addr)
	}}
	defer tr.CloseIdleConnections()
	c := &http.Client{Transport: tr}
	res, err := c.Get(ts.URL)
	if err != nil {
		t.Fatal(err)
	}
	res.Body.Close()
	if dials != 1 {
		t.Fatal(dials)
	}
}

// A reverse proxy's hooks.
func TestProxy(t *testing.T) {
	hits := 0
	back := httptest.NewServer(http.HandlerFunc(func(w http.ResponseWriter, r *http.Request) { hits++; io.WriteString(w, "x") }))
	defer back.Close()
	u, _ := url.Parse(back.URL)
	mods := 0
	p := httputil.NewSingleHostReverseProxy(u)
	p.ModifyResponse = func(*http.Response) error { mods++; return nil }
	front := httptest.NewServer(p)
	defer front.Close()
	for i := 0; i < 3; i++ {
		res, err := http.Get(front.URL)
		if err != nil {
			t.Fatal(err)
		}
		io.Copy(io.Discard, res.Body)
		res.Body.Close()
		if hits != i+1 || mods != i+1 {
			t.Fatal(hits, mods)
		}
	}
}

// The reader of a pipe has taken all when Write returns.
func TestIoPipeBack(t *testing.T) {
	r, w := io.Pipe()
	n := 0
	go func() {
		b := make([]byte, 4)
		n = 1
		r.Read(b)
	}()
	w.Write([]byte("abcd"))
	if n != 1 {
		t.Fatal(n)
	}
}

// What was set before Write is there after Read.
func TestIoPipe(t *testing.T) {
	r, w := io.Pipe()
	n := 0
	go func() { n = 1; w.Write([]byte("abcd")); w.Close() }()
	io.ReadAll(r)
	if n != 1 {
		t.Fatal(n)
	}
}

// net.Pipe, both ways.
func TestNetPipe(t *testing.T) {
	a, b := net.Pipe()
	n := 0
	go func() {
		buf := make([]byte, 1)
		b.Read(buf)
		n++
		b.Write(buf)
	}()
	n = 5
	a.Write([]byte("x"))
	a.Read(make([]byte, 1))
	if n != 6 {
		t.Fatal(n)
	}
}

// net.Pipe: a Write's return comes after the Read.
func TestNetPipeBack(t *testing.T) {
	a, b := net.Pipe()
	n := 0
	go func() {
		n = 1
		b.Read(make([]byte, 1))
	}()
	a.Write([]byte("x"))
	if n != 1 {
		t.Fatal(n)
	}
}

// A listener's Close ends Accept.
func TestListenerClose(t *testing.T) {
	l, _ := net.Listen("tcp", "127.0.0.1:0")
	n := 0
	done := make(chan bool)
	go func() {
		if _, err := l.Accept(); err != nil {
			n++
		}
		close(done)
	}()
	n = 1
	l.Close()
	<-done
	if n != 2 {
		t.Fatal(n)
	}
}

type count struct{ N int }

// Inc is called over net/rpc.
func (c *count) Inc(by int, out *int) error { c.N += by; *out = c.N; return nil }

// net/rpc over a pipe: a call's handler comes before its return.
func TestRPC(t *testing.T) {
	s := rpc.NewServer()
	c := &count{}
	s.RegisterName("C", c)
	a, b := net.Pipe()
	go s.ServeConn(a)
	cl := rpc.NewClient(b)
	var out int
	for i := 1; i < 3; i++ {
		if err := cl.Call("C.Inc", 1, &out); err != nil || out != i || c.N != i {
			t.Fatal(err, out)
		}
	}
	call := cl.Go("C.Inc", 1, &out, make(chan *rpc.Call, 1))
	<-call.Done
	if out != 3 {
		t.Fatal(out)
	}
	cl.Close()
}

// Output of a command through a writer of the program's.
type lines struct{ n int }

func (l *lines) Write(b []byte) (int, error) { l.n += bytes.Count(b, []byte("\n")); return len(b), nil }

func TestCmd(t *testing.T) {
	l := &lines{}
	cmd := exec.Command("echo", "a")
	cmd.Stdout = l
	if err := cmd.Run(); err != nil || l.n != 1 {
		t.Fatal(err, l.n)
	}
}

// Start, and Wait elsewhere.
func TestCmdWait(t *testing.T) {
	ctx, cancel := context.WithCancel(context.Background())
	defer cancel()
	l := &lines{}
	cmd := exec.CommandContext(ctx, "echo", "a")
	cmd.Stdout = l
	if err := cmd.Start(); err != nil {
		t.Fatal(err)
	}
	done := make(chan error)
	go func() { done <- cmd.Wait() }()
	if err := <-done; err != nil || l.n != 1 {
		t.Fatal(err)
	}
}

// log.Logger serializes its writer.
func TestLogWriter(t *testing.T) {
	l := &lines{}
	lg := log.New(l, "", 0)
	var wg sync.WaitGroup
	for i := 0; i < 4; i++ {
		wg.Add(1)
		go func() { defer wg.Done(); lg.Println("x") }()
	}
	wg.Wait()
	if l.n != 4 {
		t.Fatal(l.n)
	}
}

// log.Logger, as a hook, without a group: SetOutput orders.
func TestLogOrder(t *testing.T) {
	l := &lines{}
	lg := log.New(l, "", 0)
	done := make(chan bool)
	go func() { lg.Println("x"); close(done) }()
	<-done
	lg.SetOutput(io.Discard)
	if l.n != 1 {
		t.Fatal(l.n)
	}
}

type fake struct{}
type fconn struct{ n int }
type fstmt struct{ c *fconn }
type frows struct{ i int }

func (fake) Open(string) (driver.Conn, error)          { return &fconn{}, nil }
func (c *fconn) Prepare(q string) (driver.Stmt, error) { c.n++; return &fstmt{c}, nil }
func (c *fconn) Close() error                          { c.n = -1; return nil }
func (c *fconn) Begin() (driver.Tx, error)             { c.n++; return c, nil }
func (c *fconn) Commit() error                         { c.n++; return nil }
func (c *fconn) Rollback() error                       { c.n++; return nil }
func (s *fstmt) Close() error                          { s.c.n++; return nil }
func (s *fstmt) NumInput() int                         { return 0 }
func (s *fstmt) Exec([]driver.Value) (driver.Result, error) {
	s.c.n++
	return driver.RowsAffected(1), nil
}
func (s *fstmt) Query([]driver.Value) (driver.Rows, error) { s.c.n++; return &frows{}, nil }
func (r *frows) Columns() []string                         { return []string{"a"} }
func (r *frows) Close() error                              { return nil }
func (r *frows) Next(d []driver.Value) error {
	if r.i++; r.i > 2 {
		return io.EOF
	}
	d[0] = int64(r.i)
	return nil
}

func init() { sql.Register("fake", fake{}) }

func TestSQL(t *testing.T) {
	db, err := sql.Open("fake", "")
	if err != nil {
		t.Fatal(err)
	}
	db.SetMaxOpenConns(2)
	var wg sync.WaitGroup
	for i := 0; i < 6; i++ {
		wg.Add(1)
		go func() {
			defer wg.Done()
			ctx, cancel := context.WithTimeout(context.Background(), time.Second*5)
			defer cancel()
			tx, err := db.BeginTx(ctx, nil)
			if err != nil {
				t.Error(err)
				return
			}
			rows, err := tx.QueryContext(ctx, "x")
			if err != nil {
				t.Error(err)
				return
			}
			n := 0
			for rows.Next() {
				var a int
				rows.Scan(&a)
				n += a
			}
			if n != 3 {
				t.Error(n)
			}
			tx.Commit()
		}()
	}
	wg.Wait()
	db.Close()
}

// Through a hand-made linked list of unsafe pointers.
func TestUnsafePublish(t *testing.T) {
	type node struct {
		v    int
		next unsafe.Pointer
	}
	var head unsafe.Pointer
	go func() {
		n := &node{v: 7}
		atomic.StorePointer(&head, unsafe.Pointer(n))
	}()
	for {
		if p := (*node)(atomic.LoadPointer(&head)); p != nil {
			if p.v != 7 {
				t.Fatal()
			}
			return
		}
		time.Sleep(time.Millisecond)
	}
}

// A spin lock.
type spin struct{ f uint32 }

func (s *spin) Lock() {
	for !atomic.CompareAndSwapUint32(&s.f, 0, 1) {
		time.Sleep(time.Microsecond)
	}
}
func (s *spin) Unlock() { atomic.StoreUint32(&s.f, 0) }

func TestSpin(t *testing.T) {
	var s spin
	n := 0
	var wg sync.WaitGroup
	for i := 0; i < 4; i++ {
		wg.Add(1)
		go func() {
			defer wg.Done()
			for j := 0; j < 20; j++ {
				s.Lock()
				n++
				s.Unlock()
			}
		}()
	}
	wg.Wait()
	if n != 80 {
		t.Fatal(n)
	}
}

// reflect.Value.Call on a method that locks.
type box struct {
	mu sync.Mutex
	n  int
}

func (b *box) Inc() { b.mu.Lock(); b.n++; b.mu.Unlock() }

func TestReflectCall(t *testing.T) {
	b := &box{}
	m := reflect.ValueOf(b).MethodByName("Inc")
	var wg sync.WaitGroup
	for i := 0; i < 4; i++ {
		wg.Add(1)
		go func() { defer wg.Done(); m.Call(nil) }()
	}
	wg.Wait()
	if b.n != 4 {
		t.Fatal(b.n)
	}
}

// reflect on WaitGroup and Mutex themselves.
func TestReflectMutex(t *testing.T) {
	var mu sync.Mutex
	lock, unlock := reflect.ValueOf(&mu).MethodByName("Lock"), reflect.ValueOf(&mu).MethodByName("Unlock")
	n := 0
	var wg sync.WaitGroup
	for i := 0; i < 4; i++ {
		wg.Add(1)
		go func() { defer wg.Done(); lock.Call(nil); n++; unlock.Call(nil) }()
	}
	wg.Wait()
	if n != 4 {
		t.Fatal(n)
	}
}

// gob over a pipe.
func TestGob(t *testing.T) {
	r, w := io.Pipe()
	n := 0
	go func() { n = 3; gob.NewEncoder(w).Encode(struct{ A int }{1}); w.Close() }()
	var v struct{ A int }
	gob.NewDecoder(r).Decode(&v)
	if n != 3 {
		t.Fatal(n)
	}
}

// gzip through a bufio over a pipe.
func TestGzipPipe(t *testing.T) {
	r, w := io.Pipe()
	n := 0
	go func() {
		z := gzip.NewWriter(w)
		n = 3
		z.Write([]byte("hello"))
		z.Close()
		w.Close()
	}()
	z, err := gzip.NewReader(bufio.NewReader(r))
	if err != nil {
		t.Fatal(err)
	}
	io.ReadAll(z)
	if n != 3 {
		t.Fatal(n)
	}
}

// An os.Pipe.
func TestOsPipe(t *testing.T) {
	r, w, _ := os.Pipe()
	n := 0
	go func() { n = 3; w.Write([]byte("x")); w.Close() }()
	sc := bufio.NewScanner(r)
	sc.Scan()
	if n != 3 {
		t.Fatal(n)
	}
}

// A context of the program's own type.
type myCtx struct {
	context.Context
	done chan struct{}
	err  error
}

func (c *myCtx) Done() <-chan struct{} { return c.done }
func (c *myCtx) Err() error {
	select {
	case <-c.done:
		return c.err
	default:
		return nil
	}
}

func TestOwnCtx(t *testing.T) {
	c := &myCtx{Context: context.Background(), done: make(chan struct{})}
	child, cancel := context.WithCancel(c)
	defer cancel()
	n := 0
	go func() { n = 1; c.err = errors.New("x"); close(c.done) }()
	<-child.Done()
	if n != 1 || child.Err() == nil {
		t.Fatal(n)
	}
}

// A parent's cancel orders before a grandchild's Done, with values between.
func TestCtxTree(t *testing.T) {
	type k struct{}
	p, cancel := context.WithCancel(context.Background())
	v := context.WithValue(p, k{}, 1)
	c, cancel2 := context.WithTimeout(v, time.Hour)
	defer cancel2()
	n := 0
	go func() { n = 1; cancel() }()
	<-c.Done()
	if n != 1 {
		t.Fatal(n)
	}
}

// t.Deadline, t.Cleanup and parallel subtests.
func TestSubParallel(t *testing.T) {
	m := map[int]int{}
	var mu sync.Mutex
	t.Cleanup(func() {
		if len(m) != 4 {
			t.Error(len(m))
		}
	})
	for i := 0; i < 4; i++ {
		i := i
		t.Run("s", func(t *testing.T) {
			t.Parallel()
			mu.Lock()
			m[i] = i
			mu.Unlock()
		})
	}
}

// A group of parallel subtests ends before Run returns.
func TestSubGroup(t *testing.T) {
	res := make([]int, 4)
	t.Run("group", func(t *testing.T) {
		for i := range res {
			i := i
			t.Run("s", func(t *testing.T) { t.Parallel(); res[i] = i })
		}
	})
	for i, v := range res {
		if v != i {
			t.Fatal(res)
		}
	}
}

// testing.Benchmark with RunParallel: what the goroutines did is there after it.
func TestRunParallel(t *testing.T) {
	var mu sync.Mutex
	n := 0
	testing.Benchmark(func(b *testing.B) {
		n = 0
		b.RunParallel(func(pb *testing.PB) {
			for pb.Next() {
				mu.Lock()
				n++
				mu.Unlock()
			}
		})
		if n < b.N {
			b.Error(n)
		}
		if b.N > 100 {
			b.SkipNow()
		}
	})
}

// sync.Map's Range, LoadOrStore, and what the values point at.
func TestSyncMap(t *testing.T) {
	var m sync.Map
	var wg sync.WaitGroup
	for i := 0; i < 4; i++ {
		i := i
		wg.Add(1)
		go func() {
			defer wg.Done()
			b := &box{n: i}
			v, _ := m.LoadOrStore(i%2, b)
			v.(*box).Inc()
		}()
	}
	wg.Wait()
	m.Range(func(k, v interface{}) bool { _ = v.(*box).n; return true })
}

// A sync.Cond over a RWMutex's RLocker.
func TestCondRLocker(t *testing.T) {
	var mu sync.RWMutex
	c := sync.NewCond(mu.RLocker())
	ready := false
	go func() { mu.Lock(); ready = true; mu.Unlock(); c.Broadcast() }()
	c.L.Lock()
	for !ready {
		c.Wait()
	}
	c.L.Unlock()
}

// A time.AfterFunc stopped by its user, or run.
func TestAfterFunc(t *testing.T) {
	n := 0
	done := make(chan bool)
	n = 1
	time.AfterFunc(time.Millisecond, func() { n++; close(done) })
	<-done
	if n != 2 {
		t.Fatal(n)
	}
}

// http.TimeoutHandler runs the handler in a goroutine of net/http.
func TestTimeoutHandler(t *testing.T) {
	n := 0
	h := http.TimeoutHandler(http.HandlerFunc(func(w http.ResponseWriter, r *http.Request) { n++; io.WriteString(w, "x") }), time.Minute, "late")
	for i := 0; i < 3; i++ {
		rec := httptest.NewRecorder()
		h.ServeHTTP(rec, httptest.NewRequest("GET", "/", nil))
		if n != i+1 {
			t.Fatal(n)
		}
	}
}

// http.Client without a server: RoundTripper in the caller.
type rt func(*http.Request) (*http.Response, error)

func (f rt) RoundTrip(r *http.Request) (*http.Response, error) { return f(r) }

func TestRoundTripper(t *testing.T) {
	n := 0
	c := &http.Client{Timeout: time.Minute, Transport: rt(func(r *http.Request) (*http.Response, error) {
		n++
		return &http.Response{StatusCode: 200, Body: io.NopCloser(bytes.NewReader(nil)), Request: r}, nil
	})}
	res, err := c.Get("http://x/")
	if err != nil || n != 1 {
		t.Fatal(err)
	}
	res.Body.Close()
}

// A request's body is read by a goroutine of net/http, and closed.
type body struct {
	r io.Reader
	n int
	c bool
}

func (b *body) Read(p []byte) (int, error) { n, err := b.r.Read(p); b.n += n; return n, err }
func (b *body) Close() error               { b.c = true; return nil }

// Hijack.
func TestHijack(t *testing.T) {
	n := 0
	ts := httptest.NewServer(http.HandlerFunc(func(w http.ResponseWriter, r *http.Request) {
		c, rw, err := w.(http.Hijacker).Hijack()
		if err != nil {
			return
		}
		n = 7
		rw.WriteString("HTTP/1.1 200 OK\r\nContent-Length: 0\r\n\r\n")
		rw.Flush()
		c.Close()
	}))
	defer ts.Close()
	res, err := http.Get(ts.URL)
	if err != nil {
		t.Fatal(err)
	}
	res.Body.Close()
	if n != 7 {
		t.Fatal(n)
	}
}

// Server-sent events with Flush.
func TestSSE(t *testing.T) {
	n := 0
	ts := httptest.NewServer(http.HandlerFunc(func(w http.ResponseWriter, r *http.Request) {
		n = 1
		io.WriteString(w, "data: 1\n\n")
		w.(http.Flusher).Flush()
		<-r.Context().Done()
	}))
	res, err := http.Get(ts.URL)
	if err != nil {
		t.Fatal(err)
	}
	br := bufio.NewReader(res.Body)
	br.ReadString('\n')
	if n != 1 {
		t.Fatal(n)
	}
	res.Body.Close()
	ts.Close()
}
