// clean

package main

import (
	"database/sql"
	"database/sql/driver"
	"fmt"
	"io"
	"sync"
)

// An own driver, whose connections are used by one goroutine at a time.
type store struct {
	lock sync.Mutex
	rows []string
}

type connection struct {
	s    *store
	uses int
	open bool
}

type statement struct{ c *connection }

type cursor struct {
	rows []string
	next int
}

func (s *store) Open(string) (driver.Conn, error) { return &connection{s: s}, nil }

func (c *connection) Prepare(string) (driver.Stmt, error) {
	c.uses++
	return &statement{c}, nil
}

func (c *connection) Begin() (driver.Tx, error) {
	c.open = true
	return c, nil
}

func (c *connection) Commit() error {
	c.open = false
	return nil
}

func (c *connection) Rollback() error { return c.Commit() }
func (c *connection) Close() error    { return nil }

func (t *statement) NumInput() int { return -1 }
func (t *statement) Close() error  { return nil }

func (t *statement) Exec(args []driver.Value) (driver.Result, error) {
	t.c.uses++
	t.c.s.lock.Lock()
	defer t.c.s.lock.Unlock()
	t.c.s.rows = append(t.c.s.rows, args[0].(string))
	return driver.RowsAffected(1), nil
}

func (t *statement) Query([]driver.Value) (driver.Rows, error) {
	t.c.uses++
	t.c.s.lock.Lock()
	defer t.c.s.lock.Unlock()
	return &cursor{rows: t.c.s.rows[:len(t.c.s.rows):len(t.c.s.rows)]}, nil
}

func (c *cursor) Columns() []string { return []string{"name"} }
func (c *cursor) Close() error      { return nil }

func (c *cursor) Next(row []driver.Value) error {
	if c.next == len(c.rows) {
		return io.EOF
	}
	row[0] = c.rows[c.next]
	c.next++
	return nil
}

func add(db *sql.DB, name string) error {
	tx, err := db.Begin()
	if err != nil {
		return err
	}
	defer tx.Rollback()
	if _, err := tx.Exec("insert", name); err != nil {
		return err
	}
	return tx.Commit()
}

func main() {
	sql.Register("own", &store{})
	db, err := sql.Open("own", "")
	if err != nil {
		panic(err)
	}
	db.SetMaxOpenConns(2)
	var all sync.WaitGroup
	for i := 0; i < 6; i++ {
		all.Add(1)
		go func(i int) {
			defer all.Done()
			if err := add(db, fmt.Sprint(i)); err != nil {
				panic(err)
			}
			var name string
			if err := db.QueryRow("select").Scan(&name); err != nil {
				panic(err)
			}
		}(i)
	}
	all.Wait()
	rows, err := db.Query("select")
	if err != nil {
		panic(err)
	}
	n := 0
	for rows.Next() {
		n++
	}
	fmt.Println(n, rows.Err(), db.Close())
}
