// Why something was refused, in words (RFC 8620 sections 3.6 and 5.3; `clash` is the server's own).
import { DAY, fullDate, wallOf, written } from "./dates.js";
import { NoAnswer } from "./jmap.js";
import { SetError } from "./store.js";

/** Whose an event is: its owners' names. */
export function ownersOf(event) {
    const people = Object.values(event.participants ?? {}).filter(({ roles }) => roles?.owner);
    return people.map(({ name, email }) => name || email).filter(Boolean).join(", ");
}

/** The room, the day and the second of a clash, and with which event it is and whose that is. */
async function clashWords({ calendarId, day, second, with: other }, store) {
    const room = store.calendars.get(calendarId)?.name ?? "The room";
    const wall = day * DAY + second * 1000;
    const when = `on ${fullDate(wall)} at ${written(wall, { timeStyle: "medium" })}`;
    if (!other) return `${room}: two of its own times would meet there ${when}.`;
    const event = await store.events([other]).then(({ events }) => events[0], () => null);
    const owners = event && ownersOf(event);
    return `${room} is taken ${when} by “${event?.title || "(no title)"}”${owners ? ` of ${owners}` : ""}.`;
}

const REFUSALS = {
    notFound: "It isn't there any more.",
    overQuota: "There is no more room for it in this account.",
    calendarHasEvent: "There are events in this calendar.",
    accountReadOnly: "This account is for reading alone.",
    stateMismatch: "Something else was changed meanwhile. Open it again.",
    serverFail: "The server could not keep it. Try again later, or ask whoever runs it.",
};

/** An error in words. */
export async function reason(error, store) {
    if (error instanceof NoAnswer) return "The server gave no answer.";
    if (error.status === 401) return "The server doesn't know this token.";
    const { type, properties } = error instanceof SetError ? error.error : error;
    if (type === "clash") return clashWords(error.error, store);
    if (type === "invalidProperties") return `The server doesn't take this: ${properties.join(", ")}.`;
    return REFUSALS[type] ?? `That failed: ${error.message}.`;
}

/** The slot that a room has, in words (a method of the server's own). */
export const slotWords = (slot, room) => (slot ? `${room.name} is free then.` : `${room.name} has no free time in the days ahead.`);

/** When an event takes place, in words. */
export const whenWords = (event) =>
    written(wallOf(event.start), event.showWithoutTime ? { dateStyle: "medium" } : { dateStyle: "medium", timeStyle: "short" });
