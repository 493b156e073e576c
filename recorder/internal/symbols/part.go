package symbols

import "reflect"

// step leads from a value to a part of it: a field of its owner, or an element, which has no name.
type step struct {
	field
	owner *Type
}

// descend goes from a value to the variable in it that an offset is of: the steps, where it begins, and its type, nil if that
// isn't known. A string, slice, map, interface and a struct of Go's library that shows no field are one variable each.
func descend(t *Type, at uint64) (steps []step, begin uint64, typ *Type) {
	for s, ok := t.stepTo(at); ok; s, ok = t.stepTo(at - begin) {
		steps = append(steps, s)
		begin += s.offset
		t = s.typ
	}
	return steps, begin, t
}

// stepTo answers the part of a struct or array at an offset.
func (t *Type) stepTo(at uint64) (s step, ok bool) {
	if t == nil || t.isOpaque() {
		return s, false
	}
	for _, f := range t.members() {
		if f.offset <= at && at-f.offset < f.typ.Size {
			return step{f, t}, true
		}
	}
	if e := t.Elem(); t.Kind == reflect.Array && e != nil && e.Size > 0 && at < t.Size {
		return step{field{offset: at - at%e.Size, typ: e}, t}, true
	}
	return s, false
}

// wordOf is the name of a part for a trace: x_elem, Type_field, or x_field of what has no named type. That of an embedded
// field is left out, as in the source.
func wordOf(root string, steps []step) string {
	word, fresh := root, true
	for i, s := range steps {
		field := i+1 < len(steps) && steps[i+1].name != "" // follows
		switch {
		case s.name == "" && field && s.typ.short() != "":
			fresh = true
		case s.name == "":
			word, fresh = word+"_elem", false
		case fresh && s.owner.short() != "":
			word, fresh = s.owner.short(), false
			if !s.embedded || !field {
				word += "_" + s.name
			}
		case !s.embedded || !field:
			word, fresh = word+"_"+s.name, false
		}
	}
	return word
}
