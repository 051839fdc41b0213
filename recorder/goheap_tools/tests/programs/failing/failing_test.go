package failing

import "testing"

func TestPasses(t *testing.T) {
	if Double("a") != "aa" {
		t.Fatal("wrong")
	}
}

func TestFails(t *testing.T)  { t.Fatal("on purpose: ", Double("b")) }
func TestPanics(t *testing.T) { panic(Double("c")) }
