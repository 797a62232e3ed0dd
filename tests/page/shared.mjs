// What the page is put together with: to be imported before its modules.
import fs from "node:fs";

globalThis.SHARED = JSON.parse(fs.readFileSync(new URL("../../python/nushbaret/roster/shared.json", import.meta.url), "utf8"));
