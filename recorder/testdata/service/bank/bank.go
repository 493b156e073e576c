// Package bank keeps an account.
package bank

import "sync"

// Account has a balance.
type Account struct {
	mu      sync.Mutex
	balance int
}

// Pay pays in.
func (a *Account) Pay(n int) {
	a.mu.Lock()
	a.balance += n
	a.mu.Unlock()
}

// Balance is what is there.
func (a *Account) Balance() int {
	a.mu.Lock()
	defer a.mu.Unlock()
	return a.balance
}
