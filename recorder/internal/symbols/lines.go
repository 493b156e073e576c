package symbols

import (
	"bytes"
	"encoding/binary"
	"errors"
	"fmt"
	"sort"
)

// lineTable is the runtime's own table of functions and lines. It is read where it lies.
type lineTable struct {
	text    uint64 // address that the functions' entries are counted from
	inlines []byte // what the functions' further data are counted from; nil: what is inlined isn't known
	old     bool   // of Go 1.19
	count   int
	names   []byte
	units   []byte
	files   []byte
	values  []byte
	funcs   []byte
}

const (
	magic118 = 0xfffffff0
	magic120 = 0xfffffff1

	inlineIndex = 2 // PCDATA_InlTreeIndex
	inlineTree  = 3 // FUNCDATA_InlTree
	noTree      = 1<<32 - 1
)

// readLines reads the table's header, which tells where its parts begin.
func readLines(text uint64, table, inlines []byte) (*lineTable, error) {
	if len(table) < 72 || text == 0 {
		return nil, errors.New("it has no table of Go's functions")
	}
	magic := order.Uint32(table)
	if magic != magic118 && magic != magic120 {
		return nil, fmt.Errorf("its table of functions (%#x) isn't of Go 1.18 or later", magic)
	}
	part := func(at int) []byte {
		if o := order.Uint64(table[at:]); o < uint64(len(table)) {
			return table[o:]
		}
		return nil
	}
	t := &lineTable{
		text: text, inlines: inlines, old: magic == magic118, count: int(order.Uint64(table[8:])),
		names: part(32), units: part(40), files: part(48), values: part(56), funcs: part(64),
	}
	if t.count < 0 || len(t.funcs) < t.count*8+4 {
		return nil, errors.New("its table of functions is cut off")
	}
	return t, nil
}

// text answers the C string that begins at an offset, or "" if that is none.
func text(b []byte, offset uint32) string {
	if uint64(offset) >= uint64(len(b)) {
		return ""
	}
	s, _, _ := bytes.Cut(b[offset:], []byte{0})
	return string(s)
}

// lineFunc is a function of the table.
type lineFunc struct {
	*lineTable
	entry       uint64
	name        string
	kind        byte   // the number that the runtime knows special functions by
	file, line  uint32 // tables of values for its instructions
	unit        uint32 // where its unit's files begin
	index, tree uint32 // of inlined calls: a table of their numbers, and where they are
}

// find answers the function that an instruction is in.
func (t *lineTable) find(pc uint64) (f lineFunc, ok bool) {
	if off := pc - t.text; pc >= t.text && off < uint64(order.Uint32(t.funcs[8*t.count:])) {
		i := sort.Search(t.count, func(i int) bool { return uint64(order.Uint32(t.funcs[8*i:])) > off })
		if i > 0 {
			return t.function(i - 1), true
		}
	}
	return f, false
}

func (t *lineTable) function(i int) lineFunc {
	data := t.funcs[order.Uint32(t.funcs[8*i+4:]):]
	word := func(i int) uint32 { return order.Uint32(data[4*i:]) }
	head := 11
	if t.old {
		head = 10
	}
	pcdatas, funcdatas := int(word(7)), int(data[4*head-1])
	f := lineFunc{
		lineTable: t, entry: t.text + uint64(word(0)), name: text(t.names, word(1)), kind: data[4*head-4],
		file: word(5), line: word(6), unit: word(8), tree: noTree,
	}
	if pcdatas > inlineIndex && funcdatas > inlineTree && t.inlines != nil {
		f.index, f.tree = word(head+inlineIndex), word(head+pcdatas+inlineTree)
	}
	return f
}

// place answers the file and the line of an instruction, whatever is inlined there.
func (f *lineFunc) place(pc uint64) (string, int) {
	file, line := f.value(f.file, pc), f.value(f.line, pc)
	if file < 0 || line < 0 {
		return "?", 0
	}
	return text(f.files, order.Uint32(f.units[4*(f.unit+uint32(file)):])), int(line)
}

// value looks up what a table of the function has for an instruction; -1 is nothing.
func (f *lineFunc) value(table uint32, pc uint64) int32 {
	if table == 0 {
		return -1
	}
	b, at, value := f.values[table:], f.entry, int32(-1)
	for first := true; ; first = false {
		d, n := binary.Uvarint(b)
		if n <= 0 || d == 0 && !first {
			return -1
		}
		step, k := binary.Uvarint(b[n:])
		b = b[n+k:]
		value += int32(-(d & 1) ^ d>>1)
		if at += step; pc < at {
			return value
		}
	}
}

// inlined is a call that the compiler has put into its caller.
type inlined struct {
	name   string
	kind   byte
	parent uint64 // an instruction whose place is the call's
}

// inlinedAt answers the innermost inlined call that an instruction is of.
func (f *lineFunc) inlinedAt(pc uint64) (call inlined, ok bool) {
	if f.tree == noTree {
		return call, false
	}
	i := f.value(f.index, pc)
	if i < 0 {
		return call, false
	}
	size, kind, name, parent := uint32(16), 0, 4, 8
	if f.old {
		size, kind, name, parent = 20, 2, 12, 16
	}
	b := f.inlines[f.tree+uint32(i)*size:]
	return inlined{text(f.names, order.Uint32(b[name:])), b[kind], f.entry + uint64(order.Uint32(b[parent:]))}, true
}
