// Package noted notes an order.
package noted

var Order []string

// In notes that something was done.
func In(name string) string {
	Order = append(Order, name)
	return name
}
