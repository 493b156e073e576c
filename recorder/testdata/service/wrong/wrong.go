// Package wrong has a test that fails.
package wrong
