// Compares the lines that the crates command_cases, build_cases and phase_cases expect of runs with what node prints
// for the same outputs: node worked.mjs. Programs are built by `elmc make` (PROGRAM names an elmc that is built
// already), and an output that is written by hand is taken as it is. Each is run by run_in_node.mjs. Runs that end
// unsafe or out of fuel, and such as are refused, are left out, since node knows nothing of these.
import { spawnSync } from "node:child_process";
import { appendFileSync, mkdirSync, mkdtempSync, readFileSync, rmSync, writeFileSync } from "node:fs";
import { tmpdir } from "node:os";
import { dirname, join } from "node:path";
import { fileURLToPath } from "node:url";

const bench = dirname(fileURLToPath(import.meta.url));
const root = dirname(bench);
const program = process.env.PROGRAM ?? join(root, "elmc");
const folder = mkdtempSync(join(tmpdir(), "worked"));
let count = 0;
let differing = 0;

const call = (name, words) => spawnSync(name, words, { cwd: folder, encoding: "utf8" });

// What each command of a crate is to print on standard output, in order.
const commandsOf = (crate) => {
  const commands = [];
  for (const line of readFileSync(join(root, "crates", crate, "stdout"), "utf8").split("\n")) {
    if (line === "$" || line.startsWith("$ ")) commands.push({ line, out: "" });
    else if (line.startsWith("1|")) commands[commands.length - 1].out += `${line.slice(2)}\n`;
  }
  return commands;
};

const compare = (title, words, wanted) => {
  if (wanted === "" || /^! (unsafe|out of fuel|stuck)$/m.test(wanted)) return;
  const { stdout } = call("node", ["--stack-size=60000", join(bench, "run_in_node.mjs"), ...words]);
  count += 1;
  if (stdout === wanted) return;
  differing += 1;
  console.error(`${title}: node prints\n${stdout}and the case expects\n${wanted}`);
};

const runScript = (crate, name, commands) => {
  const data = join(root, "crates", crate, "data");
  let title;
  let path; // The file that grows.
  const add = (text) => appendFileSync(path, text);
  // The forms of the lines are those of crates/case_scripts/src/program.rt.
  const forms = {
    "#": (line) => {
      title = `${crate} ${line}`;
      rmSync(folder, { recursive: true });
      mkdirSync(folder);
    },
    "+": (line) => {
      path = join(folder, line.slice(2));
      mkdirSync(dirname(path), { recursive: true });
      writeFileSync(path, "");
    },
    "-": () => {},
    "?": () => {},
    "=": () => {},
    "!": () => {},
    "|": (line) => add(`${line.slice(1)}\n`),
    ":": (line) => add(line.slice(1)),
    "*": (line) => {
      const space = line.indexOf(" ");
      add(line.slice(space + 1).repeat(Number(line.slice(1, space))));
    },
    "<": (line) => add(readFileSync(join(data, line.slice(1)))),
    "$": (line) => {
      const command = commands.shift();
      if (command.line !== line) throw new Error(`${title}: stdout has ${command.line} and not ${line}`);
      const [, , verb, ...words] = line.split(" ");
      // No engine's stack is as deep as those programs.
      if (name === "deep.txt") return;
      if (verb === "run") compare(title, words.filter((word) => !word.startsWith("--")), command.out);
      else if (verb === "make") call(program, [verb, ...words]);
    },
  };
  for (const line of readFileSync(join(data, name), "utf8").split("\n")) if (line !== "") forms[line[0]](line);
};

try {
  for (const crate of ["command_cases", "build_cases", "phase_cases"]) {
    const commands = commandsOf(crate);
    const names = readFileSync(join(root, "crates", crate, "args"), "utf8").split("\n");
    for (const name of names) if (name !== "") runScript(crate, name, commands);
  }
} finally {
  rmSync(folder, { recursive: true });
}
console.log(`node agrees on ${count - differing} of ${count} outputs`);
if (differing > 0) process.exit(1);
