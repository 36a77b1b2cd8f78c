package gawerunoa

import (
	"bufio"
	"encoding/hex"
	"os"
	"strconv"
	"strings"
	"testing"
)

// words are those of a line: a call and its arguments, numbers in decimal, byte strings in hexadecimal, lists of them with commas
// between; - stands for nothing.
type words struct {
	t    *testing.T
	left []string
}

func (it *words) word() string {
	if len(it.left) == 0 {
		it.t.Fatal("a line is too short")
	}
	first := it.left[0]
	it.left = it.left[1:]
	return first
}

func (it *words) number() uint64 {
	number, err := strconv.ParseUint(it.word(), 10, 64)
	if err != nil {
		it.t.Fatal(err)
	}
	return number
}

func (it *words) bytesOf(word string) []byte {
	decoded, err := hex.DecodeString(strings.TrimPrefix(word, "-"))
	if err != nil {
		it.t.Fatal(err)
	}
	return decoded
}

func (it *words) bytes() []byte { return it.bytesOf(it.word()) }

func (it *words) list() [][]byte {
	word := it.word()
	if word == "-" {
		return nil
	}
	var list [][]byte
	for _, part := range strings.Split(word, ",") {
		list = append(list, it.bytesOf(part))
	}
	return list
}

func (it *words) answer() (bool, error) {
	call := it.word()
	agreed := Agreed{Family(it.number()), Hash(it.number()), it.number()}
	switch call {
	case "operation":
		location := it.number()
		proof, operation := it.bytes(), it.bytes()
		return CheckOperation(agreed, location, proof, operation, it.bytes())
	case "range":
		max, start := it.number(), it.number()
		proof, operations := it.bytes(), it.list()
		chunks := it.list()
		return CheckRange(agreed, max, start, proof, operations, chunks, it.bytes())
	}
	return it.keyAnswer(call, agreed)
}

func (it *words) keyAnswer(call string, agreed Agreed) (bool, error) {
	keys := Keys{AreStrings: strings.HasPrefix(call, "string_")}
	if keys.AreStrings {
		keys.Min, keys.Max = it.number(), it.number()
	}
	form := strings.TrimPrefix(call, "string_")
	encoding := Variable
	if strings.HasPrefix(form, "sized_") {
		encoding = Sized
	} else if strings.HasPrefix(form, "fixed_") {
		encoding = Fixed
	}
	if strings.HasSuffix(call, "value") {
		proof, key := it.bytes(), it.bytes()
		value := it.bytes()
		return CheckValue(agreed, keys, encoding, proof, key, value, it.bytes())
	}
	values := Values{Encoding: encoding, Min: it.number()}
	values.Max = values.Min
	if encoding == Variable {
		values.Max = it.number()
	}
	proof, key := it.bytes(), it.bytes()
	return CheckAbsence(agreed, keys, values, proof, key, it.bytes())
}

// TestCases answers each line of the file GAWERUNOA_CASES, a question and `yes` or `no` with a tab between.
func TestCases(t *testing.T) {
	file, err := os.Open(os.Getenv("GAWERUNOA_CASES"))
	if err != nil {
		t.Skip("GAWERUNOA_CASES names no file of cases")
	}
	defer file.Close()
	count := 0
	lines := bufio.NewScanner(file)
	lines.Buffer(nil, 1<<24)
	for lines.Scan() {
		question, wanted, _ := strings.Cut(lines.Text(), "\t")
		asked := words{t, strings.Split(question, " ")}
		yes, err := asked.answer()
		if err != nil || yes != (wanted == "yes") {
			t.Errorf("%s: %v, %v, and not %s", question, yes, err, wanted)
		}
		count++
	}
	if count == 0 {
		t.Error("the file has no case")
	}
	t.Logf("%d cases", count)
}

func TestRefusals(t *testing.T) {
	agreed := Agreed{MMR, SHA256, 1}
	root := make([]byte, 32)
	for _, it := range []struct {
		agreed Agreed
		root   []byte
		want   error
	}{
		{agreed, root[:31], ErrOtherRoot},
		{Agreed{2, SHA256, 1}, root, ErrOtherFamily},
		{Agreed{MMR, 2, 1}, root, ErrOtherHash},
	} {
		if yes, err := CheckOperation(it.agreed, 0, nil, nil, it.root); yes || err != it.want {
			t.Errorf("%v, %v, and not %v", yes, err, it.want)
		}
	}
	if _, err := CheckValue(agreed, OneSize, Variable, nil, []byte{1}, nil, root); err != ErrOtherKey {
		t.Errorf("%v, and not %v", err, ErrOtherKey)
	}
	if _, err := CheckValue(agreed, Strings, Fixed, nil, nil, nil, root); err != ErrOtherKind {
		t.Errorf("%v, and not %v", err, ErrOtherKind)
	}
}
