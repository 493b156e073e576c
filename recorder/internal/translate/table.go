package translate

// table numbers keys: an open-addressing hash table.
type table struct {
	entries []entry
	count   int
}

type entry struct {
	key   uint64
	value uint32 // one more than the number, 0 for none
}

const fewestEntries = 1 << 8

// at is the entry of a key, or the free one that it would have.
func (t *table) at(key uint64) *entry {
	last := len(t.entries) - 1
	for i := int(key * 0x9E3779B97F4A7C15 >> 32); ; i++ {
		if e := &t.entries[i&last]; e.key == key || e.value == 0 {
			return e
		}
	}
}

// get answers the number of a key.
func (t *table) get(key uint64) (number uint32, ok bool) {
	if t.count == 0 {
		return 0, false
	}
	e := t.at(key)
	return e.value - 1, e.value != 0
}

// add answers the number of a key; if it has none it gets this one.
func (t *table) add(key uint64, number uint32) (is uint32, isNew bool) {
	if 4*t.count >= 3*len(t.entries) {
		t.grow()
	}
	e := t.at(key)
	if e.value != 0 {
		return e.value - 1, false
	}
	*e = entry{key, number + 1}
	t.count++
	return number, true
}

// set gives a key another number.
func (t *table) set(key uint64, number uint32) {
	t.add(key, number)
	t.at(key).value = number + 1
}

func (t *table) grow() {
	old := t.entries
	n := 2 * len(old)
	if n < fewestEntries {
		n = fewestEntries
	}
	t.entries = make([]entry, n)
	for _, e := range old {
		if e.value != 0 {
			*t.at(e.key) = e
		}
	}
}

// empty forgets all keys. Room for many is given back if few were there.
func (t *table) empty() {
	if t.count*16 < len(t.entries) && len(t.entries) > fewestEntries {
		*t = table{}
		return
	}
	for i := range t.entries {
		t.entries[i] = entry{}
	}
	t.count = 0
}

// keyed are things of a segment by how the hooks tell of them: an address and its generation. In the memory of one of them another
// one may begin.
type keyed[T any] struct {
	all []T
	at  table
}

func (k *keyed[T]) empty() {
	k.all = k.all[:0]
	k.at.empty()
}

// get is the one with a key, nil if there is none.
func (k *keyed[T]) get(key uint64) *T {
	if at, ok := k.at.get(key); ok {
		return &k.all[at]
	}
	return nil
}

// put has another one have a key.
func (k *keyed[T]) put(key uint64, is T) *T {
	k.at.set(key, uint32(len(k.all)))
	k.all = append(k.all, is)
	return &k.all[len(k.all)-1]
}
