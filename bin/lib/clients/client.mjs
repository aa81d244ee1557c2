// A bank's requests by node's own fetch. Each line of standard input has a URL, a key, a method and a body, with tabs
// between them; a body @FILE is that of a file. Prints for each the status of the reply, its body, and a line with a
// dot.
import { readFileSync } from "node:fs";
import { setTimeout } from "node:timers/promises";

const TRIES = 8;
const MILLISECONDS_BETWEEN = 1000;
const MILLISECONDS = 60000;
// (the request may or may not have been carried out: the same request again tells)
const AGAIN = [429, 502, 503, 504];

// The status and the body of the reply to a request, which is sent again until there is one.
async function asked(url, request) {
    for (let tried = 0; tried < TRIES; tried++) {
        try {
            const reply = await fetch(url, { ...request, signal: AbortSignal.timeout(MILLISECONDS) });
            const body = await reply.text();
            if (!AGAIN.includes(reply.status)) {
                return [reply.status, body];
            }
        } catch {
            // (no reply)
        }
        await setTimeout(MILLISECONDS_BETWEEN);
    }
    throw new Error("no reply");
}

for (const line of readFileSync(0, "utf8").split("\n").filter(Boolean)) {
    const [url, key, method, body] = line.split("\t");
    const sent = body.startsWith("@") ? readFileSync(body.slice(1)) : body;
    const request = { method, headers: { "desk-key": key }, body: method === "POST" ? sent : undefined };
    const [status, said] = await asked(url, request);
    process.stdout.write(`${status}\n${said}\n.\n`);
}
