import { spawn } from "node:child_process";
import { createInterface } from "node:readline";

const replay = spawn("sqs_replay", { stdio: ["pipe", "pipe", "inherit"] });
const answers = createInterface({ input: replay.stdout })[Symbol.asyncIterator]();

async function ask(moment, action, request) {
  replay.stdin.write(`${moment} ${action} ${JSON.stringify(request)}\n`);
  const { value } = await answers.next();
  return JSON.parse(value.slice(4));
}

await ask(0, "CreateQueue", { QueueName: "jobs" });
await ask(0, "SendMessage", { QueueUrl: "jobs", MessageBody: "hello", DelaySeconds: 900 });
console.log((await ask(899_999, "ReceiveMessage", { QueueUrl: "jobs" })).Messages);
console.log((await ask(900_000, "ReceiveMessage", { QueueUrl: "jobs" })).Messages[0].Body);
replay.stdin.end();
