// Package store has a variable that another package uses.
package store

// Cache is shared.
var Cache struct{ Hits, misses int }

// Miss counts.
func Miss() { Cache.misses++ }
