package locks

import (
	"os"
	"strings"
	"testing"
)

// TestTheReadmeShowsTheExamples compares the Go of README.md with example_test.go, which is compiled.
func TestTheReadmeShowsTheExamples(t *testing.T) {
	page, err := os.ReadFile("README.md")
	if err != nil {
		t.Fatal(err)
	}
	examples, err := os.ReadFile("example_test.go")
	if err != nil {
		t.Fatal(err)
	}
	blocks := strings.Split(string(page), "```go\n")[1:]
	if len(blocks) != 2 {
		t.Fatalf("%d blocks", len(blocks))
	}
	for _, block := range blocks {
		code, _, _ := strings.Cut(block, "```")
		indented := "\t" + strings.ReplaceAll(strings.TrimSpace(code), "\n", "\n\t")
		if !strings.Contains(string(examples), indented) {
			t.Errorf("no example has\n%s", code)
		}
	}
}
