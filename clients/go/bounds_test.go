package fabcommit

import (
	"bytes"
	"testing"
)

func TestBoundsAboveKeys(t *testing.T) {
	key := func(end string) []byte { return append(bytes.Repeat([]byte("k"), longest-len(end)), end...) }
	full := bytes.Repeat([]byte{255}, longest)
	for _, one := range []struct{ key, above []byte }{
		{[]byte("car1"), []byte("car1\x00")},
		{key("a"), key("b")},
		{key("a\xff"), key("bX")[:longest-1]},
		{full, full},
	} {
		if above := leastAbove(one.key); !bytes.Equal(above, one.above) {
			t.Errorf("%q instead of %q", above, one.above)
		}
	}
}
