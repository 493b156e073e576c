// Package store counts what is sold.
package store

import "example.com/service/bank"

// Store takes money.
type Store struct {
	account bank.Account
	sold    int
}

// Sell sells one thing.
func (s *Store) Sell(price int) {
	s.account.Pay(price)
	s.sold++
}
