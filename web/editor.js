// The dialog in which an event is made, changed and removed: one occurrence, or the whole series.
import { DAY, HOUR, MINUTE, dateText, dayOf, durationOf, endOf, instantOf, localText, moved, wallOf } from "./dates.js";
import { make, say } from "./dom.js";
import { NoAnswer, SLOTS } from "./jmap.js";
import { fillRepeats, prepareRepeats, readRepeats, tidyRepeats } from "./rules.js";
import { baseOf } from "./store.js";
import { zoneOf } from "./view.js";
import { ownersOf, reason, slotWords } from "./words.js";

// How many days ahead a free time is looked for: no more than the server looks.
const SLOT_DAYS = 31;
const FLOATING = "(no zone)";
const dialog = document.getElementById("editor");
const form = dialog.querySelector("form");
const fields = form.elements;
const trouble = document.getElementById("trouble");
const places = () => [...form.querySelectorAll("[name=place]")];

/** What is open: the store, the event of the series or the new event, and the occurrence that was chosen. */
let open = null;

const isSeries = () => !open.occurrence || fields.which.value === "series";
const isNew = () => !open.event.id;
const chosenRoom = () => places().filter((it) => it.checked).map((it) => open.store.calendars.get(it.value)).find((it) => it.resourceZone);
const zone = () => (fields.zone.value === FLOATING ? null : fields.zone.value);

/** What the form tells, as properties of an event (RFC 8984). */
function read() {
    const clock = zone() ?? open.store.zone, isWhole = fields.isWhole.checked;
    const start = wallOf(fields.start.value), end = wallOf(fields.end.value) + (isWhole ? DAY : 0);
    const told = {
        title: fields.title.value,
        description: fields.description.value,
        start: localText(start),
        duration: durationOf(start, end, clock),
        showWithoutTime: isWhole,
        status: fields.status.value,
        freeBusyStatus: fields.freeBusyStatus.value,
    };
    if (!isSeries()) return told;
    const calendarIds = Object.fromEntries(places().filter((it) => it.checked).map((it) => [it.value, true]));
    return { ...told, timeZone: zone(), calendarIds, recurrenceRules: readRepeats(form, open.event.recurrenceRules) };
}

/** What the form tells otherwise than when it was filled, so that nothing else of the event is touched. */
function changes() {
    const told = read();
    return Object.fromEntries(Object.entries(told).filter(([name, value]) => JSON.stringify(value) !== JSON.stringify(open.filled[name])));
}

function showTimes(start, end, isWhole) {
    for (const [input, wall] of [[fields.start, start], [fields.end, isWhole ? Math.max(start, end - DAY) : end]]) {
        input.type = isWhole ? "date" : "datetime-local";
        input.value = isWhole ? dateText(wall) : localText(wall).slice(0, wall % MINUTE ? 19 : 16);
    }
}

function showZones(chosen) {
    const room = chosenRoom();
    const zones = [...new Set([FLOATING, ...open.zones, chosen ?? FLOATING, ...(room ? [room.resourceZone] : [])])];
    fields.zone.replaceChildren(...zones.map((value) => make("option", { value }, value)));
    fields.zone.value = chosen ?? FLOATING;
}

/** In a room times are those of its zone: what the form shows is put into it. */
function tidyPlaces() {
    const room = chosenRoom(), from = zone() ?? open.store.zone;
    if (room && zone() !== room.resourceZone) {
        const [start, end] = [fields.start, fields.end].map((it) => wallOf(it.value));
        showZones(room.resourceZone);
        if (!fields.isWhole.checked) showTimes(moved(start, from, room.resourceZone), moved(end, from, room.resourceZone), false);
    }
    fields.zone.disabled = Boolean(room) || !isSeries();
    fields.slot.hidden = !room || !isSeries() || !open.store.client.can(SLOTS);
}

function fill() {
    const { store, occurrence, event } = open;
    const shown = isSeries() ? event : occurrence;
    const clock = zoneOf(shown, store), start = wallOf(shown.start);
    for (const name of ["title", "description"]) fields[name].value = shown[name] ?? "";
    fields.status.value = shown.status ?? "confirmed";
    fields.freeBusyStatus.value = shown.freeBusyStatus ?? "busy";
    fields.isWhole.checked = Boolean(shown.showWithoutTime);
    const boxes = [...store.calendars.values()].map((it) => {
        const box = make("input", { type: "checkbox", name: "place", value: it.id, checked: it.id in event.calendarIds });
        return make("label", { class: "plain" }, box, ` ${it.name}`);
    });
    form.querySelector("[name=places] div").replaceChildren(...boxes);
    showZones(shown.timeZone);
    showTimes(start, endOf(start, shown.duration, clock), fields.isWhole.checked);
    fillRepeats(form, event.recurrenceRules);
    for (const name of ["places", "repeats"]) fields[name].hidden = !isSeries();
    tidyPlaces();
    const owners = ownersOf(shown);
    document.getElementById("people").textContent = owners && `Of ${owners}`;
    trouble.textContent = "";
    open.filled = read();
}

/** Opens the dialog on an event of the days in view, or on a new one. */
export async function edit(store, zones, shown) {
    const ids = shown.id ? [...new Set([baseOf(shown), shown.id])] : [];
    const { events, state } = ids.length ? await store.events(ids) : { events: [shown] };
    if (events.includes(null)) return say("It isn't there any more.");
    open = { store, zones, event: events[0], state, occurrence: events[1] };
    document.getElementById("editor-title").textContent = isNew() ? "New event" : "Event";
    fields.scope.hidden = !open.occurrence;
    fields.which.value = "one";
    fields.remove.hidden = isNew();
    for (const name of ["save", "remove"]) fields[name].disabled = store.isReadOnly;
    fill();
    dialog.showModal();
}

/** The overrides of a series that begins so much later: each belongs to the same occurrence as before. */
function movedOverrides(overrides, later) {
    return Object.fromEntries(Object.entries(overrides).map(([id, it]) => [localText(wallOf(id) + later), it]));
}

async function save() {
    const { store, event, occurrence } = open;
    const changed = changes();
    if (isNew()) {
        // A create whose answer was lost may have been kept: its uid tells.
        if (open.isInDoubt && (await store.has(event.uid))) return store.sync();
        open.isInDoubt = true;
        return store.set("CalendarEvent", { create: { it: { ...event, ...read() } } });
    }
    if (!Object.keys(changed).length) return null;
    if (!isSeries()) return store.override(event.id, occurrence.recurrenceId, changed);
    if (!changed.start || !event.recurrenceOverrides) return store.set("CalendarEvent", { update: { [event.id]: changed } });
    const recurrenceOverrides = movedOverrides(event.recurrenceOverrides, wallOf(changed.start) - wallOf(event.start));
    return store.set("CalendarEvent", { ifInState: open.state, update: { [event.id]: { ...changed, recurrenceOverrides } } });
}

function remove() {
    const { store, event, occurrence } = open;
    return isSeries() ? store.set("CalendarEvent", { destroy: [event.id] }) : store.override(event.id, occurrence.recurrenceId, null);
}

/** Does something that ends the dialog, or says why it failed and leaves all that was written. */
async function ending(act, words) {
    const { store } = open;
    trouble.textContent = "";
    fields.save.disabled = fields.remove.disabled = true;
    try {
        await act();
        dialog.close();
        say(words);
    } catch (error) {
        const again = error instanceof NoAnswer ? " Save again once it is there: nothing is made twice." : "";
        trouble.textContent = `${await reason(error, store)}${again}`;
    }
    fields.save.disabled = fields.remove.disabled = store.isReadOnly;
}

/** Puts the form to the room's next free time from its own on. */
async function nextSlot() {
    const { store } = open, room = chosenRoom(), told = read();
    const start = wallOf(told.start), length = endOf(start, told.duration, room.resourceZone) - start;
    const asked = {
        calendarId: room.id,
        duration: told.duration,
        after: told.start,
        before: localText(start + SLOT_DAYS * DAY),
        recurrenceRules: told.recurrenceRules ?? [],
    };
    try {
        const [{ slot }] = await store.client.did(store.call("Resource/findSlot", asked));
        if (slot) {
            fields.isWhole.checked = false;
            showTimes(wallOf(slot), wallOf(slot) + length, false);
        }
        trouble.textContent = slotWords(slot, room);
    } catch (error) {
        trouble.textContent = await reason(error, store);
    }
}

function isOrdered() {
    const [start, end] = [fields.start, fields.end].map((it) => instantOf(wallOf(it.value), zone() ?? open.store.zone));
    fields.end.setCustomValidity(end < start ? "It ends before it begins." : "");
    return form.reportValidity();
}

form.addEventListener("submit", (event) => {
    event.preventDefault();
    if (isOrdered()) ending(save, "Saved.");
});
fields.end.addEventListener("input", () => fields.end.setCustomValidity(""));
fields.remove.addEventListener("click", () => ending(remove, "Removed."));
fields.cancel.addEventListener("click", () => dialog.close());
fields.slot.addEventListener("click", nextSlot);
fields.scope.addEventListener("change", fill);
fields.places.addEventListener("change", tidyPlaces);
fields.frequency.addEventListener("change", () => tidyRepeats(form));
fields.isWhole.addEventListener("change", () => {
    const [start, end] = [fields.start, fields.end].map((it) => dayOf(wallOf(it.value)));
    // Whole days are those of any clock, but in a room those of its own.
    if (!chosenRoom()) showZones(fields.isWhole.checked ? null : open.store.zone);
    if (fields.isWhole.checked) showTimes(start, end + DAY, true);
    else showTimes(start + 9 * HOUR, end + 10 * HOUR, false);
});
prepareRepeats(form);
