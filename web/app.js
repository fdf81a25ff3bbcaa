// The page: signing in, which account and which days are in view, and what is done with them.
import { DAY, dateText, dayOf, isZone, localText, monthsLater, moved, wallAt, wallOf, written } from "./dates.js";
import { button, colored, keepingFocus, make, say } from "./dom.js";
import { edit } from "./editor.js";
import { Client, MethodError, NoAnswer } from "./jmap.js";
import { follow } from "./push.js";
import { Store, baseOf } from "./store.js";
import { daysInView, itemOf, table, zoneOf } from "./view.js";
import { reason, whenWords } from "./words.js";

const UTC = "Etc/UTC";
const part = (id) => document.getElementById(id);
const held = sessionStorage;

/** What is in view: the client and the store, the zones that both sides know, the view and a day of it. */
const page = { client: null, store: null, zones: [], view: "week", chosen: 0, hidden: new Set(), ending: null };

const today = () => dayOf(wallAt(Date.now(), page.store?.zone ?? UTC));
const isShown = (event) => Object.keys(event.calendarIds).some((id) => !page.hidden.has(id));

function period() {
    const days = daysInView(page.view, page.chosen), [first, last] = [days[0], days.at(-1)];
    if (page.view === "month") return written(page.chosen, { month: "long", year: "numeric" });
    return new Intl.DateTimeFormat(navigator.language, { dateStyle: "long", timeZone: "UTC" }).formatRange(first, last);
}

function drawCalendars() {
    const lists = { calendars: [], rooms: [] };
    for (const calendar of page.store.calendars.values()) {
        const box = make("input", { type: "checkbox", checked: !page.hidden.has(calendar.id), "data-key": `shown ${calendar.id}` });
        box.addEventListener("change", () => {
            page.hidden[box.checked ? "delete" : "add"](calendar.id);
            draw();
        });
        const swatch = colored(make("span", { class: "swatch" }), calendar.color);
        const zone = calendar.resourceZone ? ` (${calendar.resourceZone})` : "";
        lists[calendar.resourceZone ? "rooms" : "calendars"].push(make("li", {}, make("label", { class: "plain" }, box, swatch, ` ${calendar.name}${zone}`)));
    }
    for (const [id, list] of Object.entries(lists)) {
        part(id).hidden = list.length === 0;
        part(id).querySelector("ul").replaceChildren(...list);
    }
}

function drawFound() {
    const { found } = page.store;
    part("found").hidden = !found;
    if (!found) return;
    const events = found.ids.map((id) => found.events.get(id)).filter(Boolean);
    part("found-title").textContent = events.length ? `Found: ${found.text}` : `Nothing has ${found.text} in it`;
    const lines = events.map((it) => {
        const words = `${whenWords(it)}: ${it.title || "(no title)"}`;
        return make("li", {}, button(words, { "data-key": `found ${it.id}` }, () => go(page.view, dayOf(itemOf(it, page.store).start))));
    });
    part("found").querySelector("ol").replaceChildren(...lines);
}

function draw() {
    keepingFocus(() => {
        const hours = part("view").scrollTop;
        part("period").textContent = period();
        part("date").value = dateText(page.chosen);
        for (const view of ["week", "month"]) document.querySelector(`[data-act=${view}]`).setAttribute("aria-pressed", view === page.view);
        drawCalendars();
        drawFound();
        part("view").replaceChildren(table(page.view, page.chosen, page.store, isShown, { add, open, move, today, walk }));
        part("view").scrollTop = hours;
    });
}

/** Does something that may be refused, and says so. */
async function tried(act) {
    try {
        return await act();
    } catch (error) {
        say(await reason(error, page.store));
        return null;
    }
}

/** Shows the days around one; the address tells them, so that going back and bookmarks work. */
function go(view, day) {
    const hash = `#${view}/${dateText(day)}`;
    if (location.hash === hash) look();
    else location.hash = hash;
}

function look() {
    const [, view, date] = location.hash.match(/^#(week|month)\/(\d{4}-\d\d-\d\d)$/) ?? [];
    const day = date ? wallOf(date) : NaN;
    page.view = view ?? page.view;
    page.chosen = Number.isNaN(day) ? today() : day;
    if (!page.store) return null;
    const days = daysInView(page.view, page.chosen);
    draw();
    return tried(() => page.store.show(days[0], days.at(-1) + DAY));
}

async function walk(day) {
    const inView = daysInView(page.view, page.chosen).includes(day);
    page.chosen = day;
    if (inView) history.replaceState(null, "", `#${page.view}/${dateText(day)}`);
    else go(page.view, day);
    draw();
    document.querySelector(`[data-key="day ${day}"]`)?.focus();
}

const open = (event) => tried(() => edit(page.store, page.zones, event));

/** Opens the dialog on a new event: at nine, or at the next hour of today. */
function add(day) {
    const { store, client } = page;
    const calendar = [...store.calendars.values()].find((it) => !it.resourceZone && !page.hidden.has(it.id));
    const hour = day === today() ? Math.min(23, new Date(wallAt(Date.now(), store.zone)).getUTCHours() + 1) : 9;
    const owner = { "@type": "Participant", name: client.session.username, roles: { owner: true } };
    open({
        uid: crypto.randomUUID(),
        start: localText(day + (hour / 24) * DAY),
        duration: "PT1H",
        timeZone: store.zone,
        calendarIds: calendar ? { [calendar.id]: true } : {},
        participants: { owner },
    });
}

/** Moves one occurrence, by so much of the page's clock. */
async function move(item, later) {
    const { event } = item, { store } = page;
    if (!later || store.isReadOnly) return;
    const zone = zoneOf(event, store);
    const start = localText(event.showWithoutTime ? wallOf(event.start) + later : moved(item.start + later, store.zone, zone));
    await tried(async () => {
        if (event.recurrenceId) await store.override(baseOf(event), event.recurrenceId, { start });
        else await store.set("CalendarEvent", { update: { [event.id]: { start } } });
        say(`Moved to ${whenWords({ ...event, start })}${event.recurrenceId ? ", this one alone" : ""}.`);
    });
    const key = `${event.id} ${dayOf(item.start + later)}`;
    document.querySelector(`[data-key="${CSS.escape(key)}"]`)?.focus();
}

/** The zones among some that the server knows: only of those it takes a query. */
async function knownZones(client, accountId, zones) {
    const calls = zones.slice(0, 16).map((timeZone) => ["CalendarEvent/query", { accountId, timeZone, limit: 0 }]);
    const answers = await client.ask(...calls);
    return zones.filter((_, place) => answers[place] && !(answers[place] instanceof MethodError));
}

function showChoices(id, choices, chosen) {
    part(id).replaceChildren(...choices.map(([value, text]) => make("option", { value, selected: value === chosen }, text)));
}

/** Says when the server goes away and when it is there again, each once. */
function told(failure) {
    const wasAway = document.body.classList.contains("away");
    document.body.classList.toggle("away", Boolean(failure));
    if (failure?.status === 401) signOut("The server doesn't know this token.");
    else if (failure && !wasAway) say(failure instanceof NoAnswer ? "The server doesn't answer. It is asked again." : `That failed: ${failure.message}.`);
    else if (!failure && wasAway) say("The server is there again.");
}

/** Goes on with an account, which is then followed. */
async function openAccount(accountId) {
    page.ending?.abort();
    page.ending = new AbortController();
    const { client } = page, { signal } = page.ending;
    const own = Intl.DateTimeFormat().resolvedOptions().timeZone;
    const [{ list }] = await client.did(["Calendar/get", { accountId, properties: ["timeZone", "resourceZone"] }]);
    const named = [own, ...list.flatMap(({ timeZone, resourceZone }) => [timeZone, resourceZone]), UTC];
    page.zones = await knownZones(client, accountId, [...new Set(named)].filter((it) => it && isZone(it)));
    const kept = held.getItem("zone");
    const zone = page.zones.includes(kept) ? kept : page.zones[0];
    page.store = new Store(client, accountId, zone, () => signal.aborted || draw());
    showChoices("account", client.accounts.map((id) => [id, client.session.accounts[id].name]), accountId);
    showChoices("zone", page.zones.map((it) => [it, it]), zone);
    part("adding").hidden = document.querySelector("[data-act=new]").hidden = page.store.isReadOnly;
    await look();
    follow(client, accountId, () => page.store.sync(), told, signal);
}

async function signIn(token) {
    page.client = await Client.signedIn(token);
    held.setItem("token", token);
    part("sign-in").hidden = true;
    part("page").hidden = false;
    say(`Signed in as ${page.client.session.username}.`);
    await openAccount(page.client.accounts[0]);
    part("view").scrollTop = part("view").scrollHeight / 3;
}

function signOut(why = "Signed out.") {
    page.ending?.abort();
    held.clear();
    document.body.classList.remove("away");
    Object.assign(page, { client: null, store: null });
    part("view").replaceChildren();
    part("page").hidden = true;
    part("sign-in").hidden = false;
    say(why);
}

const acts = {
    earlier: () => go(page.view, page.view === "week" ? page.chosen - 7 * DAY : monthsLater(page.chosen, -1)),
    later: () => go(page.view, page.view === "week" ? page.chosen + 7 * DAY : monthsLater(page.chosen, 1)),
    today: () => go(page.view, today()),
    week: () => go("week", page.chosen),
    month: () => go("month", page.chosen),
    new: () => add(page.chosen),
    "close-search": () => page.store.search(""),
    "sign-out": () => signOut(),
};

async function addCalendar(form) {
    const { name, color, room } = form.elements;
    const zone = page.store.zone;
    const create = { it: { name: name.value, color: color.value, timeZone: zone, ...(room.checked && { resourceZone: zone }) } };
    await page.store.set("Calendar", { create });
    form.reset();
    say(`Added ${create.it.name}.`);
}

/** Has a form do something in place of being sent. */
function submitted(form, act) {
    form.addEventListener("submit", (event) => {
        event.preventDefault();
        tried(() => act(form));
    });
}

for (const element of document.querySelectorAll("[data-act]")) element.addEventListener("click", () => tried(acts[element.dataset.act]));
submitted(part("sign-in"), (form) => signIn(form.elements.token.value).then(() => form.reset()));
submitted(part("search"), (form) => page.store.search(form.elements.text.value.trim()));
submitted(part("adding").querySelector("form"), addCalendar);
part("date").addEventListener("change", ({ target }) => target.value && go(page.view, wallOf(target.value)));
part("account").addEventListener("change", ({ target }) => tried(() => openAccount(target.value)));
part("zone").addEventListener("change", ({ target }) => {
    held.setItem("zone", target.value);
    tried(() => openAccount(page.store.accountId));
});
part("view").addEventListener("keydown", ({ key, target }) => {
    if (target.matches(".day, .event") && ["PageUp", "PageDown"].includes(key)) acts[key === "PageUp" ? "earlier" : "later"]();
});
addEventListener("hashchange", look);
if (held.getItem("token")) tried(() => signIn(held.getItem("token")));
else part("sign-in").hidden = false;
