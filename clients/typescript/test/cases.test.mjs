// The client does what clients/cases.json says.
import assert from "node:assert/strict";
import { execFile } from "node:child_process";
import { test } from "node:test";
import { fileURLToPath } from "node:url";
import { promisify } from "node:util";

const path = (name) => fileURLToPath(new URL(name, import.meta.url));

test("the cases", async () => {
  // `fetch` has no way to reset a connection, so it ends one.
  const words = [path("../../harness/cases.py"), "--gives-up", "end", "--"];
  const driver = [process.execPath, path("../harness/driver.mjs")];
  const { stdout } = await promisify(execFile)("python3", [...words, ...driver]).catch((error) =>
    assert.fail(error.stdout + error.stderr),
  );
  assert.match(stdout, /^cases: (\d+) of \1 hold/m);
});
