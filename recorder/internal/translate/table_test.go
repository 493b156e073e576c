package translate

import "testing"

func TestTable(t *testing.T) {
	tab := table{}
	for i := uint64(0); i < 5000; i++ {
		if n, isNew := tab.add(i<<16|i%3, uint32(i)); n != uint32(i) || !isNew {
			t.Fatalf("%d is %d, %t", i, n, isNew)
		}
	}
	for i := uint64(0); i < 5000; i++ {
		if n, ok := tab.get(i<<16 | i%3); n != uint32(i) || !ok {
			t.Fatalf("%d is %d, %t", i, n, ok)
		}
		if n, isNew := tab.add(i<<16|i%3, 7); n != uint32(i) || isNew {
			t.Fatalf("%d is %d, %t", i, n, isNew)
		}
		if _, ok := tab.get(i<<16 | 3); ok {
			t.Fatalf("%d is there twice", i)
		}
	}
	tab.set(5<<16|2, 9)
	tab.set(6<<16|5, 8)
	if n, _ := tab.get(5<<16 | 2); n != 9 {
		t.Errorf("what was set is %d", n)
	}
	if n, _ := tab.get(6<<16 | 5); n != 8 {
		t.Errorf("what was set anew is %d", n)
	}
	tab.empty()
	if _, ok := tab.get(0); ok || tab.count != 0 {
		t.Error("it isn't empty")
	}
}
