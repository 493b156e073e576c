package translate

import "sort"

// heapObject is where an object of the heap was, and since when that is known.
type heapObject struct {
	Heap
	pos uint64
}

// heap are the objects that were told in a segment and in the one before, once it is asked for them.
type heap struct {
	objects []heapObject // by where they begin
	sorted  bool
}

func (h *heap) empty() { h.objects, h.sorted = h.objects[:0], false }

// take takes the objects that were told.
func (h *heap) take(told *[2][]heapObject) {
	h.objects = append(append(h.objects[:0], told[1]...), told[0]...)
}

// deepestLook is how many objects that begin at lower addresses are looked at.
const deepestLook = 16

// at is the object at an address, as it was told last up to a position; nil if none was.
func (h *heap) at(addr, pos uint64) *Heap {
	if !h.sorted {
		h.sort()
	}
	var best *heapObject
	end := sort.Search(len(h.objects), func(i int) bool { return h.objects[i].Base > addr })
	for i := end - 1; i >= 0 && i >= end-deepestLook; i-- {
		o := &h.objects[i]
		if addr-o.Base >= o.Size {
			continue
		}
		if best == nil || best.pos > pos && o.pos < best.pos || o.pos <= pos && o.pos > best.pos {
			best = o
		}
	}
	if best == nil {
		return nil
	}
	return &best.Heap
}

func (h *heap) sort() {
	sort.Slice(h.objects, func(i, j int) bool {
		a, b := &h.objects[i], &h.objects[j]
		return a.Base < b.Base || a.Base == b.Base && a.pos < b.pos
	})
	h.sorted = true
}
