//go:build extra

package main

func init() { words = "extra" }
