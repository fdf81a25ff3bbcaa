// A client of JMAP (RFC 8620 sections 2 and 3) over fetch, with the bearer token of one user.

export const SLOTS = "https://jmapd.example/slots";
const WANTED = ["urn:ietf:params:jmap:core", "urn:ietf:params:jmap:calendars", SLOTS];
const CALENDARS = WANTED[1];

/** An error that a method was answered (RFC 8620 section 3.6.2): its type. */
export class MethodError extends Error {
    constructor(type) {
        super(type);
        this.type = type;
    }
}

/** There was no answer: the server or the network is away, and what was asked may have been done or not. */
export class NoAnswer extends Error {}

/** The server refused a request as a whole, by this status. */
export class Refused extends Error {
    constructor(status) {
        super(`status ${status}`);
        this.status = status;
    }
}

/** A reference to the result of the call at this place of the same request (RFC 8620 section 3.7). */
export const from = (place, name, path) => ({ resultOf: `c${place}`, name, path });

async function answered(address, options) {
    let response;
    try {
        response = await fetch(address, { cache: "no-store", credentials: "omit", ...options });
    } catch (cause) {
        throw new NoAnswer("no answer", { cause });
    }
    // A proxy answers these where the server behind it is away.
    if ([502, 503, 504].includes(response.status)) throw new NoAnswer(`status ${response.status}`);
    if (!response.ok) throw new Refused(response.status);
    return response;
}

async function json(response) {
    try {
        return await response.json();
    } catch (cause) {
        throw new NoAnswer("half an answer", { cause });
    }
}

export class Client {
    constructor(token, session) {
        this.token = token;
        this.session = session;
        this.using = WANTED.filter((name) => name in session.capabilities);
    }

    /** Reads the session object of whoever has this token. */
    static async signedIn(token) {
        const headers = { Authorization: `Bearer ${token}` };
        const session = await json(await answered("/.well-known/jmap", { headers }));
        const server = new URL(session.apiUrl).origin;
        if (server !== location.origin) throw new Error(`The server calls itself ${server}, and this page is of ${location.origin}.`);
        return new Client(token, session);
    }

    /** Whether the server lists a capability. */
    can = (capability) => this.using.includes(capability);

    /** The ids of the accounts with calendars, the user's own first. */
    get accounts() {
        const { accounts, primaryAccounts } = this.session;
        const own = (id) => (id === primaryAccounts[CALENDARS] ? 0 : 1);
        const ids = Object.keys(accounts).filter((id) => CALENDARS in accounts[id].accountCapabilities);
        return ids.sort((one, other) => own(one) - own(other));
    }

    /** Asks by one request; gives the arguments of each response, or its MethodError. */
    async ask(...calls) {
        const body = JSON.stringify({
            using: this.using,
            methodCalls: calls.map(([name, args], place) => [name, args, `c${place}`]),
        });
        const headers = { Authorization: `Bearer ${this.token}`, "Content-Type": "application/json" };
        const response = await json(await answered(this.session.apiUrl, { method: "POST", headers, body }));
        return response.methodResponses.map(([name, args]) => (name === "error" ? new MethodError(args.type) : args));
    }

    /** As `ask`, but throws the first error. */
    async did(...calls) {
        const results = await this.ask(...calls);
        const failed = results.find((it) => it instanceof MethodError);
        if (failed) throw failed;
        return results;
    }

    /** The stream of events that tells of new states (RFC 8620 section 7.3). */
    async events(signal) {
        const values = { types: "Calendar,CalendarEvent", closeafter: "no", ping: "60" };
        const address = this.session.eventSourceUrl.replace(/\{(\w+)\}/g, (_, name) => encodeURIComponent(values[name]));
        const headers = { Authorization: `Bearer ${this.token}`, Accept: "text/event-stream" };
        return answered(address, { headers, signal });
    }
}
