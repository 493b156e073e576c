package count

var N int
