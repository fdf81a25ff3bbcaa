// What the page holds of one account: its calendars, the occurrences of the days in view, and what a search found. It is
// filled once, and then kept by `changes` and `queryChanges` from the states that it holds (RFC 8620 sections 5.2 and 5.6).
import { MethodError, from } from "./jmap.js";
import { localText } from "./dates.js";

const SHOWN = ["uid", "title", "start", "duration", "timeZone", "showWithoutTime", "calendarIds", "status", "freeBusyStatus",
    "recurrenceId", "baseEventId"];
const OBJECTS = 500;
// A request takes 16 calls, and each event that changed takes two.
const EVENTS_AT_ONCE = 7;
const FOUND = 50;

/** Why an object of a set was refused (RFC 8620 section 5.3): the whole SetError. */
export class SetError extends Error {
    constructor(error) {
        super(error.type);
        this.error = error;
    }
}

export const baseOf = (event) => event.baseEventId ?? event.id;

export class Store {
    /** An account, whose floating events are meant in `zone`. `changed` is called when what is held has changed. */
    constructor(client, accountId, zone, changed) {
        Object.assign(this, { client, accountId, zone, changed });
        this.calendars = new Map();
        this.occurrences = new Map();
        this.found = null;
        this.states = null;
        this.loaded = null;
        this.turn = Promise.resolve();
    }

    get isReadOnly() {
        return this.client.session.accounts[this.accountId].isReadOnly;
    }

    call = (name, args) => [name, { accountId: this.accountId, ...args }];

    /** Does one thing after the other, so that answers are taken in the order in which they were asked for. */
    inTurn(act) {
        this.turn = this.turn.catch(() => {}).then(act);
        return this.turn;
    }

    /** Holds the days from one wall time to another, and asks for what isn't held. */
    show(after, before) {
        this.window = { after: localText(after), before: localText(before) };
        const wanted = this.window;
        return this.inTurn(() => this.window === wanted && this.load());
    }

    /** Asks for everything that is in view, a window. The states are those before it, so what changes meanwhile is told later. */
    async load() {
        const { window } = this;
        const first = [this.call("Calendar/get", {}), this.call("CalendarEvent/get", { ids: [] })];
        const [calendars, none, query, page] = await this.client.did(...first, ...this.expanded(window, 0, first.length));
        const list = [...page.list];
        for (let told = query.ids.length, position = told; told === OBJECTS; position += told) {
            const [{ ids }, more] = await this.client.did(...this.expanded(window, position));
            list.push(...more.list);
            told = ids.length;
        }
        this.occurrences = new Map(list.map((it) => [it.id, it]));
        this.calendars = new Map(calendars.list.map((it) => [it.id, it]));
        this.states = { calendars: calendars.state, events: none.state };
        this.loaded = window;
        this.changed();
    }

    /** The calls for the occurrences that a condition holds of, behind so many other calls of the request. */
    expanded(filter, position = 0, place = 0) {
        const query = { filter, sort: [{ property: "start" }], expandRecurrences: true, timeZone: this.zone, position, limit: OBJECTS };
        return [this.call("CalendarEvent/query", query), this.fetched(place, "CalendarEvent/query", "/ids", SHOWN)];
    }

    fetched(place, name, path, properties) {
        return this.call(`${name.split("/")[0]}/get`, { "#ids": from(place, name, path), properties });
    }

    /** The calls for what changed of one type since the state that is held, behind so many other calls. */
    changesOf(type, sinceState, properties, place) {
        const name = `${type}/changes`;
        return [
            this.call(name, { sinceState, maxChanges: OBJECTS }),
            this.fetched(place, name, "/created", properties),
            this.fetched(place, name, "/updated", properties),
        ];
    }

    /** Takes up what has changed since. */
    sync() {
        return this.inTurn(async () => {
            if (this.loaded !== this.window) return this.load();
            let more = true;
            while (more) more = await this.syncOnce();
        });
    }

    async syncOnce() {
        const asked = [...this.changesOf("Calendar", this.states.calendars, null, 0), ...this.changesOf("CalendarEvent", this.states.events, ["uid"], 3)];
        if (this.found) asked.push(...this.searchChanges(asked.length));
        const [calendars, newCalendars, otherCalendars, events, newEvents, otherEvents, ...found] = await this.client.ask(...asked);
        if ([calendars, events].some((it) => it.type === "cannotCalculateChanges")) return this.loadAnew();
        const failed = [calendars, newCalendars, otherCalendars, events, newEvents, otherEvents].find((it) => it instanceof MethodError);
        if (failed) throw failed;
        for (const id of calendars.destroyed) this.calendars.delete(id);
        for (const it of [...newCalendars.list, ...otherCalendars.list]) this.calendars.set(it.id, it);
        await this.takeEvents(events.destroyed, [...newEvents.list, ...otherEvents.list]);
        if (this.found) await this.takeFound(...found);
        const isNews = calendars.newState !== this.states.calendars || events.newState !== this.states.events;
        this.states = { calendars: calendars.newState, events: events.newState };
        if (isNews) this.changed();
        return calendars.hasMoreChanges || events.hasMoreChanges;
    }

    async loadAnew() {
        if (this.found) await this.searchNow(this.found.text);
        await this.load();
        return false;
    }

    /** Puts the occurrences of events that changed in the place of those that are held. */
    async takeEvents(destroyed, events) {
        if (events.length > EVENTS_AT_ONCE) return this.load();
        const calls = events.flatMap(({ uid }, place) => this.expanded({ ...this.window, uid }, 0, 2 * place));
        const results = calls.length ? await this.client.did(...calls) : [];
        const gone = new Set([...destroyed, ...events.map(({ id }) => id)]);
        for (const [id, it] of this.occurrences) if (gone.has(baseOf(it))) this.occurrences.delete(id);
        for (const it of results.flatMap(({ list }) => list ?? [])) this.occurrences.set(it.id, it);
    }

    /** The arguments by which a search is asked for and followed. */
    searched = (text) => ({ filter: { text }, sort: [{ property: "start" }], timeZone: this.zone });

    /** Looks for events with a text; none where it is empty. */
    search(text) {
        return this.inTurn(() => this.searchNow(text)).then(this.changed);
    }

    async searchNow(text) {
        if (!text) return void (this.found = null);
        const query = this.call("CalendarEvent/query", { ...this.searched(text), limit: FOUND });
        const [{ ids, queryState }, { list }] = await this.client.did(query, this.fetched(0, query[0], "/ids", SHOWN));
        this.found = { text, ids, queryState, events: new Map(list.map((it) => [it.id, it])) };
    }

    searchChanges(place) {
        const name = "CalendarEvent/queryChanges";
        const changes = this.call(name, { ...this.searched(this.found.text), sinceQueryState: this.found.queryState, maxChanges: OBJECTS });
        return [changes, this.fetched(place, name, "/added/*/id", SHOWN)];
    }

    /** Takes ids out of what was found and puts ids in, as RFC 8620 section 5.6 says. */
    async takeFound(changes, added) {
        if (changes instanceof MethodError || added instanceof MethodError) return this.searchNow(this.found.text);
        const ids = this.found.ids.filter((id) => !changes.removed.includes(id));
        for (const { id, index } of changes.added) if (index <= ids.length) ids.splice(index, 0, id);
        for (const it of added.list) this.found.events.set(it.id, it);
        Object.assign(this.found, { ids: ids.slice(0, FOUND), queryState: changes.newQueryState });
    }

    /** Events and occurrences whole, null for each that isn't there, with the state in which they are so. */
    async events(ids) {
        const [{ list, state }] = await this.client.did(this.call("CalendarEvent/get", { ids }));
        return { events: ids.map((id) => list.find((it) => it.id === id) ?? null), state };
    }

    /** Whether an event with this uid is there. */
    async has(uid) {
        const [{ ids }] = await this.client.did(this.call("CalendarEvent/query", { filter: { uid }, limit: 1 }));
        return ids.length > 0;
    }

    /** Sets objects of a type; throws the first SetError. What came of it is taken up as the changes of others are. */
    async set(type, args) {
        const [{ notCreated, notUpdated, notDestroyed }] = await this.client.did(this.call(`${type}/set`, args));
        const [refused] = [notCreated, notUpdated, notDestroyed].flatMap((it) => Object.values(it ?? {}));
        if (refused) throw new SetError(refused);
        await this.sync();
    }

    /** Patches one occurrence of a series; null leaves it out. It begins again where others changed anything meanwhile. */
    async override(id, recurrenceId, patch) {
        for (;;) {
            const { events: [event], state } = await this.events([id]);
            if (!event) throw new SetError({ type: "notFound" });
            const overrides = event.recurrenceOverrides;
            const changed = patch ? { ...overrides?.[recurrenceId], ...patch } : { excluded: true };
            const update = overrides ? { [`recurrenceOverrides/${recurrenceId}`]: changed } : { recurrenceOverrides: { [recurrenceId]: changed } };
            try {
                return await this.set("CalendarEvent", { ifInState: state, update: { [id]: update } });
            } catch (error) {
                if (error.type !== "stateMismatch") throw error;
            }
        }
    }
}
