// Package library is no program, and has no tests.
package library
