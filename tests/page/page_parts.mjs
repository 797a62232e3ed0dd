// What the page holds.
import fs from "node:fs";
import zlib from "node:zlib";

// The module of a page, or a module itself.
export function moduleOf(file) {
  if (!file.endsWith(".html")) return fs.readFileSync(file);
  const found = /<script type="text\/plain" id="module">([^<]*)<\/script>/.exec(fs.readFileSync(file, "utf8"));
  if (found === null) throw new Error(`${file} has no module`);
  return zlib.gunzipSync(Buffer.from(found[1], "base64"));
}
