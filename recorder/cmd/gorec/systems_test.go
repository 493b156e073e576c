package main

import (
	"go/ast"
	"go/build"
	"go/importer"
	"go/parser"
	"go/token"
	"go/types"
	"path/filepath"
	"strings"
	"testing"
)

// sources imports the module's own packages from their files, and others as std does.
type sources struct {
	files *token.FileSet
	std   types.Importer
	own   map[string]*types.Package
}

func (s *sources) Import(path string) (*types.Package, error) {
	folder := strings.TrimPrefix(path, "gorace.local/recorder")
	if folder == path {
		return s.std.Import(path)
	}
	if s.own[path] != nil {
		return s.own[path], nil
	}
	found, err := build.ImportDir(filepath.Join("../..", folder), 0)
	if err != nil {
		return nil, err
	}
	var parsed []*ast.File
	for _, name := range found.GoFiles {
		f, err := parser.ParseFile(s.files, filepath.Join(found.Dir, name), nil, parser.SkipObjectResolution)
		if err != nil {
			return nil, err
		}
		parsed = append(parsed, f)
	}
	conf := types.Config{Importer: s}
	s.own[path], err = conf.Check(path, s.files, parsed, nil)
	return s.own[path], err
}

// TestSystems: gorec is Go of other systems too, where it says that it records no programs.
func TestSystems(t *testing.T) {
	before := build.Default
	defer func() { build.Default = before }()
	for _, system := range []string{"darwin/arm64", "freebsd/amd64"} {
		build.Default.GOOS, build.Default.GOARCH, _ = strings.Cut(system, "/")
		build.Default.CgoEnabled = false
		files := token.NewFileSet()
		s := &sources{files, importer.ForCompiler(files, "source", nil), map[string]*types.Package{}}
		if _, err := s.Import("gorace.local/recorder/cmd/gorec"); err != nil {
			t.Errorf("%s: %v", system, err)
		}
	}
}
