package cegarront_test

import (
	"os/exec"
	"path/filepath"
	"testing"
)

// TestCases runs the client against clients/cases.json.
func TestCases(t *testing.T) {
	driver := filepath.Join(t.TempDir(), "driver")
	if out, err := exec.Command("go", "build", "-o", driver, "./internal/driver").CombinedOutput(); err != nil {
		t.Fatalf("%v: %s", err, out)
	}
	harness := exec.Command("python3", "../harness/cases.py", "--", driver)
	out, err := harness.CombinedOutput()
	if err != nil {
		t.Fatalf("%v:\n%s", err, out)
	}
	t.Logf("%s", out)
}
