#!/usr/bin/env node
// Writes the outputs, the inputs and the expected lines of the program crates/run_cases: calls of the functions of the runtime, operators, codecs
// and commands, each in an output that sends what the call gives. What is sent, and what crashes, is node's word; a number past 2 to the 53rd,
// less one, is unsafe by the language's own rule; and the rows of NO_RULE have no rule, by the meaning of outputs. With the word `check` it writes
// nothing, and fails where a file differs. bench/run_cases.sh skips where node is missing.
import { mkdirSync, readFileSync, writeFileSync } from "node:fs";
import vm from "node:vm";

const root = new URL("../", import.meta.url);
const text = (path) => readFileSync(new URL(path, root), "utf8");
const runtime = text("crates/js_tree/src/runtime.rt");
const HEAD = runtime.match(/HEAD: &\[u8\] = br##"([^]*?)"##;/)[1];
const TAIL = runtime.match(/TAIL: &\[u8\] =\s*br##"([^]*?)"##;/)[1];

// ---- rows: a function of the runtime or an operator, and its arguments. F is a function.
const list = (...items) => items.reduceRight((rest, item) => `{$:1,a0:${item},a1:${rest}}`, "{$:0}");
const node = (key, value, left, right) => `{$:-1,a0:0,a1:${key},a2:${value},a3:${left},a4:${right}}`;
const pair = (first, second) => `{$:0,a0:${first},a1:${second}}`;
const leaf = "{$:-2}";
const two_left = node(2, 20, node(1, 10, leaf, leaf), leaf);
const two_right = node(1, 10, leaf, node(2, 20, leaf, leaf));
const three = node(2, 20, node(1, 10, leaf, leaf), node(3, 30, leaf, leaf));
const wide = (last, third = 0) => `{$:3,${[...Array(11).keys()].map((n) => `a${n}:${n === 10 ? last : n === 2 ? third : 0}`)}}`;
const long = (last) => list(...Array(1000).fill(0), last);
const M = "9007199254740991";
const rows = (name, ...sources) => sources.map((source) => [name, source]);

const ROWS = [
  ...rows("+", "0,0", "7,-7", "7,-9", `${M},-1`, `${M},0`, `${M},1`, `-${M},-1`, `-${M},${M}`, "4294967296,2147483648"),
  ...rows("-", "0,7", "-7,-7", `${M},1`, `${M},-1`, `-${M},1`, `-${M},-1`, "2147483648,4294967296"),
  ...rows("*", "0,-7", "-7,9", `${M},1`, `${M},-1`, `${M},2`, `-${M},${M}`, "4294967296,2147483648", "4294967296,2097151", "94906266,94906265",
    "94906267,94906265", "-94906266,94906265"),
  ...rows("===", "1,1", "1,-1", "true,true", "true,false", "'ab','ab'", "'ab','a'", "null,null", "1,'1'", "null,{$:0}", "{$:0},0", "F,null",
    "[],'ab'", "0,false"),
  ...rows("&&", "true,true", "true,false", "false,true"), ...rows("||", "true,false", "false,false", "false,true"),
  ...rows("_quot", "7,2", "-7,2", "7,-2", "-7,-2", "1,7", "-1,7", "7,0", "0,7", "2147483648,1", "2147483648,-1", "-2147483648,-1", "4294967296,1",
    "4294967303,1", `${M},1`, `-${M},1`, `${M},7`, `${M},2147483648`),
  ...rows("_rem", "2,7", "2,-7", "-2,7", "-2,-7", "0,7", "7,0", `7,${M}`, `7,-${M}`, `4294967296,-${M}`, "-1,-2147483648", `${M},-${M}`),
  ...rows("_mod", "2,7", "2,-7", "-2,7", "-2,-7", "3,6", "-3,6", "0,7", "7,0", `7,${M}`, `7,-${M}`, `4294967296,-${M}`, `-4294967296,${M}`,
    "-1,-2147483648", `${M},-${M}`),
  ...["_and", "_or", "_xor"].flatMap((name) =>
    rows(name, "6,3", "-1,7", "-7,-2", "2147483648,-1", "4294967301,2147483651", `${M},-2147483648`, `-${M},${M}`)),
  ...rows("_not", "0", "1", "-1", "7", "-7", "2147483648", "-2147483648", "2147483647", "4294967296", M, `-${M}`),
  ...["_shl", "_shr", "_shz"].flatMap((name) =>
    rows(name, "0,7", "1,7", "31,1", "31,3", "32,7", "33,7", "-1,1", "4,-7", "0,2147483648", "1,2147483648", "1,4294967297", "28,-7", `3,${M}`,
      "4294967296,5")),
  ...rows("_fromInt", "0", "1", "-1", "7", "-7", "10", "2147483648", "-2147483648", "4294967296", M, `-${M}`),
  ...rows("_fromUnit", "0", "65", "-1", "65535", "65536", "65601", "-65535", "2147483648", "-2147483648", "4294967296", M, `-${M}`, "55357"),
  ...rows("_crash", "'no way'", "''"),
  ...rows("_length", "''", "'abc'"),
  ...rows("_unitAt", "0,'abcabd'", "1,'abcabd'", "5,'abcabd'"),
  ...rows("_slice", "0,6,'abcabd'", "1,3,'abcabd'", "0,99,'abcabd'", "-2,6,'abcabd'", "-2,-1,'abcabd'", "-99,2,'abcabd'", "3,1,'abcabd'", "4,-4,'abcabd'",
    "6,9,'abcabd'", `7,${M},'abcabd'`, `-${M},${M},'abcabd'`, "-1,0,'abcabd'", `0,-${M},'abcabd'`, "4294967296,4294967299,'abcabd'", "2,2,'abcabd'"),
  ...rows("_find", "'ab',0,'abcabd'", "'ab',1,'abcabd'", "'ab',3,'abcabd'", "'ab',4,'abcabd'", "'ab',-9,'abcabd'", "'abd',0,'abcabd'", "'abe',0,'abcabd'",
    "'d',5,'abcabd'", "'d',6,'abcabd'", "'',0,'abcabd'", "'',3,'abcabd'", "'',6,'abcabd'", "'',7,'abcabd'", "'',-1,'abcabd'", `'',${M},'abcabd'`,
    `'a',-${M},'abcabd'`, "'abcabd',0,'abcabd'", "'abcabdx',0,'abcabd'", "'bd',-2,'abcabd'"),
  ...rows("_same", "7", "'ab'", list(1, 2)),
  ...rows("_update", "{p:1,q:2},{q:3}", "{p:1,q:2},{r:'ab',p:null}", "{},{p:1}"),
  ...rows("_array", "{$:0}", list(1, "'ab'", "true")),
  ...rows("_append", "'ab','cd'", "'','cd'", `${list(1, 2)},${list(3)}`, `{$:0},${list(3)}`, `${list(1, 2)},7`),
  ...rows("_pairs", `${leaf},{$:0}`, `${three},{$:0}`, `${two_left},${list(7)}`, `${two_right},{$:0}`),
  ...rows("_size", "{$:0}", "{$:9,a0:1,a1:2,a2:3}", "{$:1,a0:1,a2:3}", wide(1), long(9)),
  ...rows("_all", "[]", "[1,null,'ab']"),
  ...rows("_eq", "1,1", "1,2", "'ab','ab'", "'ab','b'", "'','a'", "'a','ab'", "true,true", "true,false", "null,null", "1,'1'",
    `${pair(1, "'ab'")},${pair(1, "'ab'")}`, `${pair(1, "'ab'")},${pair(2, "'ab'")}`, `${list(1, 2)},${list(1, 2)}`, `${list(1, 2)},${list(1, 3)}`,
    `${list(1, 2)},${list(1)}`, "{$:9,a0:1},{$:9,a0:1}", "{$:9,a0:1},{$:10,a0:1}", `${wide(1)},${wide(1)}`, `${wide(1)},${wide(2)}`,
    "{p:1,q:2},{q:2,p:1}", "{p:1,q:2},{q:3,p:1}", "{q:2,p:null},{p:null,q:2}", "{q:2,p:null},{p:null,q:3}", "[1,2],[1,2]", "[1,2],[1]",
    `${two_left},${two_right}`, `${two_left},${three}`, `${two_left},${node(1, 10, leaf, leaf)}`, "F,F", `${pair(1, "F")},${pair(1, "F")}`,
    `${pair(1, "F")},${pair(2, "F")}`, `${long(9)},${long(9)}`, `${long(9)},${long(10)}`),
  ...rows("_cmp", "1,2", "2,2", "2,-1", "'',''", "'','a'", "'a',''", "'a','a'", "'a','b'", "'b','a'", "'ab','a'", "'a','ab'", "'ab','b'", "'abc','abd'",
    "'B','a'", "'10','9'", `${pair(1, 2)},${pair(1, 3)}`, `${pair(2, 2)},${pair(1, 3)}`, `${pair(1, 2)},${pair(1, 2)}`, `${list(1, 2)},${list(1)}`,
    `${list(1)},${list(1, 2)}`, `${list(2)},${list(1, 2)}`, "{$:9},{$:10}", "{$:10},{$:9}", `${wide(1)},${wide(2)}`, `${wide(1, 0)},${wide(0, 1)}`,
    `${long(9)},${long(9)}`, `${long(9)},${long(10)}`, `${long(10)},${long(9)}`, `{$:0},${long(9)}`),
];

// What has no rule in the meaning of outputs, whatever an engine does.
const NO_RULE = [
  ...rows("_crash", "7", ""), ...rows("_quot", "7", "7,2,1", "7,'2'"), ...rows("_rem", "true,7"), ...rows("_mod", "7,null"),
  ...rows("_and", "1,{$:0}"), ...rows("_not", "1,2", "'1'"), ...rows("_shl", "'1',2"), ...rows("_fromInt", "null"), ...rows("_length", "[]", "'a','b'"),
  ...rows("_unitAt", "6,'abcabd'", "-1,'abcabd'", `${M},'abcabd'`, "'abc',0"), ...rows("_fromUnit", "'A'"), ...rows("_slice", "0,'abc',2", "0,2"),
  ...rows("_find", "0,'b','ab'", "'b',0"), ...rows("_same", "", "1,2"), ...rows("_update", "{p:1},[]", "{p:1}"), ...rows("_array", "[]", "{p:1}"),
  ...rows("_append", "'ab',7", "7,'ab'"), ...rows("_pairs", "{p:1},{$:0}"), ...rows("_size", "{p:1}", "'ab'"),
  ...rows("_eq", "{p:1},{q:1}", "{$:0},7", "1"), ...rows("_cmp", "true,false", "{p:1},{p:1}", "F,F", "'10',10", "{q:2,p:null},{p:null,q:2}"),
  ...rows("_all", "{$:0}"), ...rows("_dInt", "F"), ...rows("_dMaybe", ""), ...rows("_dList", "F,F"), ...rows("_eSame", "F"), ...rows("_eMaybe", ""),
  ...rows("+", "'a','b'", "1,'b'"), ...rows("-", "null,1"), ...rows("*", "1,true"), ...rows("===", "{$:0},{$:0}", "F,F", "[],{$:0}"),
];

// Encoders, and what is given to them.
const ENCODED = [
  ["_eSame()", "5"], ["_eNull()", "0"], ["_eMaybe(_eSame())", "{$:0,a0:5}"], ["_eMaybe(_eSame())", "{$:1}"], ["_eList(_eSame())", list(1, 2)],
  ["_eTuple(_eSame(),_eNull())", pair(7, 0)], ['_eRecord("p",_eSame(),"q",_eMaybe(_eSame()))', "{q:{$:1},p:'ab'}"],
  ["_eList(_eMaybe(_eList(_eSame())))", list("{$:1}", `{$:0,a0:${list(1)}}`)],
];

// Decoders of incoming ports, each with what comes in.
const DECODED = {
  int: ["_dInt()", ["7", "-7", M, "null", "true", '"7"', "[7]"]],
  bool: ["_dBool()", ["true", "false", "0"]],
  text: ["_dText()", ['"ab"', '"\\u00E9"', "1"]],
  unit: ["_dNull()", ["null", "0"]],
  any: ["_dAny()", ["null", "0", '{"p":[1]}']],
  maybe: ["_dMaybe(_dInt())", ["null", "5", '"5"']],
  list: ["_dList(_dInt())", ["[]", "[1,2]", '[1,"2"]', "{}", "null"]],
  tuple: ["_dTuple(_dInt(),_dText())", ['[7,"a"]', '[7,"a",8]', "[7]", '["a",7]']],
  record: ['_dRecord("p",_dInt(),"q",_dMaybe(_dBool()))', ['{"p":5,"q":null}', '{"q":true,"p":5,"r":[]}', '{"p":5}', "[5,null]", "null"]],
  nested: ['_dList(_dRecord("p",_dTuple(_dMaybe(_dList(_dInt())),_dInt())))', ['[{"p":[[1],2]},{"p":[null,3]}]', '[{"p":[[null],2]}]']],
};

// ---- how a value is spelled in an output
const F = (x) => x;
const value_of = (source) => new Function("F", `return [${source}];`)(F);
const js = (value) => {
  if (typeof value === "function") return "($$9=>{return $$9;})";
  if (value === null) return "_eNull()(0)";
  if (Array.isArray(value)) return `_array(_list([${value.map(js)}]))`;
  if (typeof value === "object") return `{${Object.entries(value).map(([name, part]) => `${JSON.stringify(name)}:${js(part)}`)}}`;
  if (typeof value === "number" && value < 0) return `(${value})`;
  return JSON.stringify(value);
};
// A long list is written as a list, not as a thousand objects in each other.
const argument = (value) => {
  const items = [];
  let rest = value;
  for (; rest && typeof rest === "object" && rest.$ === 1 && "a1" in rest; rest = rest.a1) items.push(rest.a0);
  return items.length > 100 ? `_list([${items.map(js)}])` : js(value);
};
const call = ([name, source]) => {
  const values = value_of(source).map(argument);
  return name.startsWith("_") ? `${name}(${values})` : `(${values[0]}${name}${values[1]})`;
};

// ---- outputs
const empty = '{"$":1,"a0":{"$":0}}';
const send = (value) => `{"$":0,"a0":"out","a1":_eSame()(${value})}`;
const output = (lines, { init = empty, update, subscriptions, flags = "_dAny()", ins, outs = '"out":0' }) =>
  `${HEAD}${lines}const _main={"name":"Main","program":{"$":0,"a0":{"init":($$0=>{return {"$":0,"a0":0,"a1":${init}};}),` +
  `"update":($$0=>{return ($$1=>{return {"$":0,"a0":$$1,"a1":${update}};});}),"subscriptions":($$0=>{return ${subscriptions};})}},` +
  `"flags":${flags},"ins":{${ins}},"outs":{${outs}}};\n${TAIL}`;
const hears = (port) => `{"$":0,"a0":"${port}","a1":($$1=>{return $$1;})}`;

// Expressions by number: the input says which is sent.
const numbered = (expressions) =>
  output("", {
    update: send(expressions.reduceRight((rest, expression, n) => `(($$0===${n})?${expression}:${rest})`, "0")),
    subscriptions: hears("in"),
    ins: '"in":_dInt()',
  });

// ---- what node sends
const shown = (value) =>
  JSON.stringify(value, (k, v) => v !== null && typeof v === "object" && !Array.isArray(v)
    ? Object.fromEntries(Object.keys(v).sort().map((key) => [key, v[key]])) : v)
    .replace(/[\u007f-\uffff]/g, (c) => "\\u" + c.charCodeAt(0).toString(16).padStart(4, "0"))
    .replace(/\\u[0-9a-f]{4}/g, (unit) => "\\u" + unit.slice(2).toUpperCase());
const settle = () => new Promise((done) => setTimeout(done, 0));
const unsafe = (value) => typeof value === "number" && !Number.isSafeInteger(value);
const ran = async (source, [flags, ...inputs]) => {
  const lines = [];
  const scope = {};
  new vm.Script(source).runInNewContext(scope);
  let app;
  try {
    app = scope.Elm.Main.init({ flags: JSON.parse(flags) });
  } catch (error) {
    return [error.message === "flags refused" ? "! refused flags" : `! crash ${shown(error.message)}`];
  }
  let over = false;
  for (const [port, functions] of Object.entries(app.ports))
    if (functions.subscribe) functions.subscribe((value) => {
      if (unsafe(value)) over = true; else lines.push(`${port} ${shown(value)}`);
    });
  await settle();
  for (const line of inputs) {
    const at = line.indexOf(" "), port = line.slice(0, at);
    try {
      app.ports[port].send(JSON.parse(line.slice(at + 1)));
    } catch (error) {
      if (error.message !== `${port} refused`) { await settle(); return [...lines, `! crash ${shown(error.message)}`]; }
      lines.push(`! refused ${port}`);
    }
    await settle();
    if (over) return [...lines, "! unsafe"];
  }
  return lines;
};

// ---- files
const files = {}, words = [], expected = [];
const run = (name, lines, fuel, told) => {
  words.push(`${name[0]}.js`, `${name[1]}.txt`, String(fuel));
  files[`data/${name[1]}.txt`] = lines.map((line) => `${line}\n`).join("");
  expected.push(`${name[0]}.js ${name[1]}.txt\n`, ...told.map((line) => `${line}\n`));
};
const FUEL = 1000;
// Those that send come in one run. Each of the others ends a run of its own, after an input that sends.
const table = async (name, expressions, told) => {
  const source = numbered(expressions);
  files[`data/${name}.js`] = source;
  const alive = [], dead = [];
  for (let n = 0; n < expressions.length; n++) {
    const lines = told ?? (await ran(source, ["null", `in ${n}`]));
    (lines[0].startsWith("!") ? dead : alive).push([n, lines]);
  }
  if (alive.length > 0) run([name, name], ["null", ...alive.map(([n]) => `in ${n}`)], FUEL, alive.flatMap(([, lines]) => lines));
  for (const [n, lines] of dead) run([name, `${name}-${n}`], ["null", `in ${n}`, "in 0"], FUEL, lines);
};
await table("calls", ROWS.map(call));
await table("no_rule", NO_RULE.map(call), ["! stuck"]);
await table("encoders", ENCODED.map(([encoder, source]) => `${encoder}(${argument(value_of(source)[0])})`));

const decoders = output("", {
  update: send("$$0"),
  subscriptions: `{"$":1,"a0":_list([${Object.keys(DECODED).map(hears)}])}`,
  ins: Object.entries(DECODED).sort().map(([port, [decoder]]) => `"${port}":${decoder}`),
  flags: "_dInt()",
});
files["data/decoders.js"] = decoders;
const given = ["1", ...Object.entries(DECODED).flatMap(([port, [, values]]) => values.map((value) => `${port} ${value}`))];
run(["decoders", "decoders"], given, FUEL, await ran(decoders, given));
run(["decoders", "flags"], ["null", "int 1"], FUEL, await ran(decoders, ["null", "int 1"]));

// A batch in a batch is sent from left to right, and two that subscribe to a port are both told, the second with the model of the first.
const batch = (...commands) => `{"$":1,"a0":_list([${commands}])}`;
const single = (port, value) => `{"$":0,"a0":"${port}","a1":${value}}`;
const batches = output("", {
  init: batch(single("p", '{"q":2,"p":_eNull()(0)}'), batch(batch(), single("q", "1")), single("p", "3")),
  update: batch(single("q", "$$1"), single("p", "$$0")),
  subscriptions: batch(single("in", "($$1=>{return $$1;})"), single("other", "($$1=>{return $$1;})"), single("in", "($$1=>{return ($$1*10);})")),
  ins: '"in":_dInt(),"other":_dInt()',
  outs: '"p":0,"q":0',
});
files["data/batches.js"] = batches;
run(["batches", "batches"], ["null", "in 4", "other 5"], FUEL, await ran(batches, ["null", "in 4", "other 5"]));
// A command at a port that the program does not have has no rule.
files["data/no_port.js"] = output("", { init: single("r", "1"), update: empty, subscriptions: empty, ins: "", outs: '"p":0' });
run(["no_port", "no_port"], ["null"], FUEL, ["! stuck"]);

// Fuel: the start makes one call, and an input of one message four: of `subscriptions`, of the subscription's function, and two of `update`.
const echo = output("", { init: send("$$0"), update: send("$$0"), subscriptions: hears("in"), flags: "_dInt()", ins: '"in":_dInt()' });
files["data/echo.js"] = echo;
run(["echo", "echo"], ["7", "in -3", "in null", "in 5"], 6, await ran(echo, ["7", "in -3", "in null", "in 5"]));
run(["echo", "spent"], ["7", "in 5", "in 6"], 3, ["out 7", "! out of fuel"]);
run(["echo", "never"], ["7"], 1, ["! out of fuel"]);
run(["echo", "none"], ["7"], 0, ["! out of fuel"]);

files["args"] = words.map((word) => `${word}\n`).join("");
files["stdout"] = expected.join("");
const crate = new URL("crates/run_cases/", root);
if (process.argv[2] === "check") {
  const differ = Object.entries(files).filter(([path, wanted]) => readFileSync(new URL(path, crate), "utf8") !== wanted);
  for (const [path] of differ) console.error(`crates/run_cases/${path} differs`);
  process.exit(differ.length > 0 ? 1 : 0);
}
mkdirSync(new URL("data/", crate), { recursive: true });
for (const [path, wanted] of Object.entries(files)) writeFileSync(new URL(path, crate), wanted);
console.log(`${ROWS.length} calls, ${NO_RULE.length} without a rule, ${words.length / 3} runs`);
