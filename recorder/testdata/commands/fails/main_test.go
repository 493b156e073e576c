package main

import "testing"

func TestFails(t *testing.T) { t.Error("fails") }

func TestPasses(t *testing.T) {}
