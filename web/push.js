// How the page learns that others changed something: by the server's stream of events (RFC 8620 section 7.3) where its address
// answers, else by asking. The browser's EventSource can't send a bearer token, so the stream is read by fetch.
import { Refused } from "./jmap.js";

const SECONDS = 1000;
const ASKED_EVERY = 3 * SECONDS;
const ASKED_HIDDEN = 60 * SECONDS;
const LONGEST_WAIT = 30 * SECONDS;

/** Waits, or until the page comes into view. */
function pause(milliseconds, signal) {
    return new Promise((done) => {
        const seen = () => document.hidden || end();
        const end = () => {
            clearTimeout(timer);
            document.removeEventListener("visibilitychange", seen);
            done();
        };
        const timer = setTimeout(end, milliseconds);
        document.addEventListener("visibilitychange", seen);
        signal.addEventListener("abort", end, { once: true });
    });
}

/** The data of each event with the name `state` of a stream (HTML standard, section 9.2.6). */
async function* states(stream) {
    const reader = stream.pipeThrough(new TextDecoderStream()).getReader();
    let rest = "", name = "", data = "";
    for (;;) {
        const { value, done } = await reader.read();
        if (done) return;
        const lines = (rest + value).split(/\r\n|\n|\r(?!$)/);
        rest = lines.pop();
        for (const line of lines) {
            const [, field, content] = line.match(/^([^:]*):? ?(.*)$/);
            if (field === "event") name = content;
            if (field === "data") data += content;
            if (line !== "") continue;
            if (name === "state" && data) yield JSON.parse(data);
            name = data = "";
        }
    }
}

/** Looks at each news of the account for as long as a stream lasts; gives whether its address has one. */
async function listen(client, accountId, look, signal) {
    try {
        const response = await client.events(signal);
        if (!response.headers.get("Content-Type")?.startsWith("text/event-stream")) return false;
        await look();
        for await (const { changed } of states(response.body)) if (changed?.[accountId]) await look();
    } catch (error) {
        if (error instanceof Refused) return false;
    }
    return true;
}

/**
 * Calls `sync` whenever there may be news, and `tell` with why that failed, or null, until the signal or until the token is no
 * longer good. Where the server is away it is asked again, each time later.
 */
export async function follow(client, accountId, sync, tell, signal) {
    let failures = 0, hasStream = true, isSignedIn = true;
    const look = async () => {
        const failure = await sync().then(() => null, (error) => error);
        failures = failure ? failures + 1 : 0;
        isSignedIn = failure?.status !== 401;
        if (!signal.aborted) tell(failure);
    };
    while (!signal.aborted && isSignedIn) {
        await look();
        if (hasStream && !failures) hasStream = await listen(client, accountId, look, signal);
        const usual = document.hidden ? ASKED_HIDDEN : ASKED_EVERY;
        await pause(failures ? Math.min(LONGEST_WAIT, SECONDS * 2 ** (failures - 1)) : usual, signal);
    }
}
