// clean

package main

import (
	"database/sql"
	"database/sql/driver"
	"errors"
	"fmt"
	"time"
)

// A driver with two connections, of which one ends its call while the other's goes on.
type store struct{}

type connection struct{ open bool }

func (store) Open(string) (driver.Conn, error) { return &connection{}, nil }

func (c *connection) Prepare(string) (driver.Stmt, error) { return nil, errors.New("none") }
func (c *connection) Close() error                        { return nil }

func (c *connection) Begin() (driver.Tx, error) {
	c.open = true
	return c, nil
}

func (c *connection) Commit() error {
	c.open = false
	return nil
}

func (c *connection) Rollback() error {
	c.open = false
	time.Sleep(40 * time.Millisecond)
	return nil
}

func main() {
	sql.Register("own", store{})
	db, err := sql.Open("own", "")
	if err != nil {
		panic(err)
	}
	begun, ended := make(chan bool, 4), make(chan error, 4)
	use := func(end func(*sql.Tx) error) {
		tx, err := db.Begin()
		if err != nil {
			panic(err)
		}
		begun <- true
		time.Sleep(10 * time.Millisecond)
		ended <- end(tx)
	}
	var late [2]*time.Timer
	for i := range late {
		late[i] = time.AfterFunc(100*time.Millisecond, func() { use((*sql.Tx).Commit) })
	}
	go use((*sql.Tx).Commit)
	go use((*sql.Tx).Rollback)
	for i := 0; i < 4; i++ {
		<-begun
		fmt.Println(<-ended)
	}
	fmt.Println(db.Close())
}
