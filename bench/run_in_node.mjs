// Runs an output in node as `elmc run` does: node run_in_node.mjs JSFILE INPUTS. It prints the same lines for a start that is refused or
// crashes, for sends and for inputs that are refused or crash; of fuel, numbers that are not exact and missing rules node knows nothing.
import { readFileSync } from "node:fs";
import vm from "node:vm";
const [js, inputs] = process.argv.slice(2);
const lines = readFileSync(inputs, "utf8").split("\n");
if (lines[lines.length - 1] === "") lines.pop();
const unit = (digits) => "\\u" + digits.toUpperCase().padStart(4, "0");
const short = { b: "8", t: "9", n: "a", f: "c", r: "d" };
const text = (w) => JSON.stringify(w, (k, v) => v !== null && typeof v === "object" && !Array.isArray(v)
  ? Object.fromEntries(Object.keys(v).sort().map((key) => [key, v[key]])) : v)
  .replace(/\\u(....)|\\(.)|[\u007f-\uffff]/g, (part, digits, mark) => {
    if (digits) return unit(digits);
    if (mark) return mark in short ? unit(short[mark]) : part;
    return unit(part.charCodeAt(0).toString(16));
  });
const scope = {};
const settle = () => new Promise((done) => setTimeout(done, 0));
new vm.Script(readFileSync(js, "utf8")).runInNewContext(scope);
let entry = scope.Elm;
while (!entry.init) entry = entry[Object.keys(entry)[0]];
let app;
try { app = entry.init({ flags: JSON.parse(lines[0]) }); } catch (e) {
  console.log(e.message === "flags refused" ? "! refused flags" : "! crash " + text(e.message)); process.exit(1);
}
for (const [port, functions] of Object.entries(app.ports)) if (functions.subscribe) functions.subscribe((w) => console.log(port + " " + text(w)));
await settle();
for (const line of lines.slice(1)) {
  const at = line.indexOf(" "), port = line.slice(0, at);
  try { app.ports[port].send(JSON.parse(line.slice(at + 1))); } catch (e) {
    if (e.message === port + " refused") console.log("! refused " + port);
    else { await settle(); console.log("! crash " + text(e.message)); process.exit(1); }
  }
  await settle();
}
