// Scripts of requests, and their replies. Copy this file beside your tests; nothing else is needed.
import { spawnSync } from "node:child_process";
import { mkdirSync, writeFileSync } from "node:fs";
import { dirname, join } from "node:path";
import { fileURLToPath } from "node:url";

const here = dirname(fileURLToPath(import.meta.url));
const program = process.env.FSEMU ?? join(here, "../../fsemu");
const failed = process.env.FSEMU_FAILED ?? join(here, "failed");

export const database = "projects/demo/databases/(default)";
export const documents = `${database}/documents`;

// The id of a transaction by its number, which is 8 bytes in base64: AAAAAAAAAAE= is 1.
export function transaction(number) {
  const bytes = Buffer.alloc(8);
  bytes.writeBigUInt64BE(BigInt(number));
  return bytes.toString("base64");
}

const scriptOf = (lines) => lines.map((line) => JSON.stringify(line) + "\n").join("");

// The replies to the lines of a script, as objects.
export function replay(lines, ...options) {
  const ran = spawnSync(program, ["replay", ...options], { input: scriptOf(lines), encoding: "utf8" });
  if (ran.status !== 0) throw new Error(`fsemu replay: status ${ran.status}, ${ran.stderr ?? ran.error}`);
  return ran.stdout.split("\n").filter((line) => line).map((line) => JSON.parse(line));
}

// Keeps a script as a file, and says how it is run again.
export function keep(name, lines, ...options) {
  mkdirSync(failed, { recursive: true });
  const path = join(failed, `${name}.jsonl`);
  writeFileSync(path, scriptOf(lines));
  return [program, "replay", ...options, "<", path].join(" ");
}

// The snapshots that a session received: at each NO_CHANGE, which has a read time and no type, the documents of each target by their names.
// It is for targets that are added without a resume token.
export function snapshots(replies, session) {
  const targets = new Map();
  const seen = [];
  for (const { listen } of replies.filter((reply) => reply.session === session && reply.listen)) {
    const { targetChange, documentChange, documentDelete, documentRemove } = listen;
    for (const id of targetChange?.targetIds ?? []) {
      if (targetChange.targetChangeType === "REMOVE") targets.delete(id);
      else if (targetChange.targetChangeType !== "CURRENT") targets.set(id, new Map());
    }
    const document = documentChange?.document;
    for (const id of documentChange?.targetIds ?? []) targets.get(id).set(document.name, document);
    const gone = documentChange ?? documentDelete ?? documentRemove;
    for (const id of gone?.removedTargetIds ?? []) targets.get(id).delete(document?.name ?? gone.document);
    if (targetChange?.readTime && !targetChange.targetChangeType) {
      seen.push({ readTime: targetChange.readTime, targets: Object.fromEntries([...targets].map(([id, docs]) => [id, Object.fromEntries(docs)])) });
    }
  }
  return seen;
}
