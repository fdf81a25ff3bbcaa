// The days in view, as a table with a cell for each day: a week by its hours, or a month.
import { DAY, HOUR, MINUTE, dateText, dayOf, endOf, fullDate, isZone, moved, timeWritten, wallOf, weekOf, written } from "./dates.js";
import { button, colored, make } from "./dom.js";

const STEP = 15 * MINUTE;
const DRAGGED_FROM = 6;

/** The days that a view has around a wall time. */
export function daysInView(view, wall) {
    const month = dateText(wall).slice(0, 7);
    const first = view === "week" ? weekOf(wall) : weekOf(wallOf(`${month}-01`));
    const days = Array.from({ length: view === "week" ? 7 : 42 }, (_, place) => first + place * DAY);
    return days.filter((day, place) => place < 28 || dateText(days[place - (place % 7)]).startsWith(month));
}

/** The zone in which an event's times are meant, as the browser knows it. */
export const zoneOf = (event, store) => (event.timeZone && isZone(event.timeZone) ? event.timeZone : store.zone);

/** Where an occurrence stands on the clock of the page. */
export function itemOf(event, store) {
    const zone = zoneOf(event, store), own = wallOf(event.start);
    const shown = (wall) => (event.showWithoutTime ? wall : moved(wall, zone, store.zone));
    const start = shown(own), end = Math.max(start, shown(endOf(own, event.duration, zone)));
    const calendars = Object.keys(event.calendarIds).map((id) => store.calendars.get(id)).filter(Boolean);
    return { event, start, end, calendars, isWhole: Boolean(event.showWithoutTime) || end - start >= DAY };
}

/** The words by which an item is told. */
function told(item) {
    const { event, start, end, calendars } = item;
    const time = item.isWhole ? "" : timeWritten(start);
    const more = [item.isWhole ? `until ${fullDate(end - 1)}` : `to ${timeWritten(end)}`, ...calendars.map(({ name }) => name)];
    if (event.recurrenceId) more.push("repeats");
    if (event.status && event.status !== "confirmed") more.push(event.status);
    return [make("span", { class: "time" }, time), " ", make("span", { class: "title" }, event.title || "(no title)"),
        make("span", { class: "unseen" }, `, ${more.join(", ")}`)];
}

/** Puts the items of a day that meet beside each other. */
function laid(items) {
    let group = [], ends = [];
    const close = () => group.forEach((it) => Object.assign(it, { lanes: ends.length }));
    for (const it of items) {
        if (ends.every((end) => end <= it.from)) {
            close();
            [group, ends] = [[], []];
        }
        const free = ends.findIndex((end) => end <= it.from);
        it.lane = free < 0 ? ends.length : free;
        ends[it.lane] = Math.max(it.to, it.from + 2 * STEP);
        group.push(it);
    }
    close();
    return items;
}

/** Lets a pointer drag an event to another day, and by its hours to another time. */
function draggable(element, item, byHours, move) {
    element.addEventListener("pointerdown", (down) => {
        const day = (event) => document.elementsFromPoint(event.clientX, event.clientY).find((it) => it.dataset.day)?.dataset.day;
        const from = day(down);
        if (down.button || !from) return;
        const drag = (event) => {
            const [x, y] = [event.clientX - down.clientX, event.clientY - down.clientY];
            const isFar = element.classList.contains("dragged") || Math.hypot(x, y) > DRAGGED_FROM;
            element.classList.toggle("dragged", isFar);
            element.style.transform = isFar ? `translate(${x}px, ${y}px)` : "";
        };
        const end = (event) => {
            element.removeEventListener("pointermove", drag);
            if (!element.classList.contains("dragged")) return;
            element.addEventListener("click", (click) => click.stopImmediatePropagation(), { capture: true, once: true });
            const to = day(event) ?? from, hour = element.closest(".timed")?.offsetHeight / 24;
            const later = byHours && !item.isWhole ? Math.round(((event.clientY - down.clientY) / hour) * 4) * STEP : 0;
            element.classList.remove("dragged");
            element.style.transform = "";
            if (event.type === "pointerup") move(item, wallOf(to) - wallOf(from) + later);
        };
        element.setPointerCapture(down.pointerId);
        element.addEventListener("pointermove", drag);
        for (const type of ["pointerup", "pointercancel"]) element.addEventListener(type, end, { once: true });
    });
}

function eventButton(item, day, byHours, acts) {
    const key = `${item.event.id} ${day}`;
    const classes = ["event", item.event.status ?? "confirmed", item.event.freeBusyStatus ?? "busy"].join(" ");
    const element = button("", { class: classes, "data-key": key }, () => acts.open(item.event));
    element.append(...told(item));
    element.addEventListener("keydown", (event) => {
        const later = { ArrowLeft: -DAY, ArrowRight: DAY, ArrowUp: -STEP, ArrowDown: STEP }[event.key];
        if (!event.altKey || !later || (item.isWhole && Math.abs(later) < DAY)) return;
        event.preventDefault();
        acts.move(item, later);
    });
    draggable(element, item, byHours, acts.move);
    return colored(element, item.calendars[0]?.color);
}

/** The timed events of a day, by their hours. */
function hours(items, day, acts) {
    const part = items.map((it) => ({ it, from: Math.max(0, it.start - day), to: Math.min(DAY, it.end - day) }));
    const list = make("ul", { class: "timed" });
    for (const { it, from, to, lane, lanes } of laid(part)) {
        const line = make("li", {}, eventButton(it, day, true, acts));
        const values = { from: from / MINUTE, length: (to - from) / MINUTE, lane, lanes };
        for (const [name, value] of Object.entries(values)) line.style.setProperty(`--${name}`, value);
        list.append(line);
    }
    return list;
}

/** The cell of a day: a button that adds an event, and the events. */
function dayCell(day, items, view, month, acts) {
    const there = items.filter((it) => it.start < day + DAY && (it.end > day || it.start >= day));
    const byHours = view === "week";
    const label = `${fullDate(day)}, ${there.length} events. Add one`;
    const named = { "aria-label": label, "data-key": `day ${day}`, "data-place": day, tabindex: -1 };
    const words = written(day, byHours ? { weekday: "short", day: "numeric", month: "short" } : { day: "numeric" });
    const head = button(words, { class: "day", ...named }, () => acts.add(day));
    const listed = byHours ? there.filter((it) => it.isWhole) : there;
    const list = make("ul", { class: "listed" }, ...listed.map((it) => make("li", {}, eventButton(it, day, false, acts))));
    const classes = [byHours || dateText(day).startsWith(month) ? "" : "beside", day === acts.today() ? "today" : ""].join(" ").trim();
    const cell = make("td", { "data-day": dateText(day), class: classes || null }, head, list);
    if (byHours) cell.append(hours(there.filter((it) => !it.isWhole), day, acts));
    return cell;
}

/** The hours beside a week, for the eye alone: each event says its own. */
function axis() {
    const marks = Array.from({ length: 24 }, (_, hour) => make("li", {}, timeWritten(hour * HOUR)));
    return make("td", { class: "axis", "aria-hidden": "true" }, make("ul", {}, ...marks));
}

/** One day of the table can be reached by Tab, and the others from it by arrows. */
function walkDays(table, chosen, acts) {
    const days = [...table.querySelectorAll("button.day")];
    (days.find((it) => Number(it.dataset.place) === dayOf(chosen)) ?? days[0]).tabIndex = 0;
    table.addEventListener("keydown", (event) => {
        const place = days.indexOf(event.target);
        const step = { ArrowLeft: -1, ArrowRight: 1, ArrowUp: -7, ArrowDown: 7, Home: -(place % 7), End: 6 - (place % 7) }[event.key];
        if (place < 0 || step === undefined || event.altKey) return;
        event.preventDefault();
        acts.walk(Number(event.target.dataset.place) + step * DAY);
    });
}

/** The table of a view around a chosen day. */
export function table(view, chosen, store, isShown, acts) {
    const days = daysInView(view, chosen), month = dateText(chosen).slice(0, 7);
    const items = [...store.occurrences.values()].filter(isShown).map((it) => itemOf(it, store));
    items.sort((one, other) => one.start - other.start || other.end - one.end);
    const corner = view === "week" ? [make("td", { class: "axis" })] : [];
    const heads = days.slice(0, 7).map((day) => make("th", { scope: "col" }, written(day, { weekday: "long" })));
    const rows = [];
    for (let first = 0; first < days.length; first += 7) {
        rows.push(make("tr", {}, ...(view === "week" ? [axis()] : []), ...days.slice(first, first + 7).map((day) => dayCell(day, items, view, month, acts))));
    }
    const head = make("thead", {}, make("tr", {}, ...corner, ...heads));
    const element = make("table", { class: view, "aria-labelledby": "period" }, head, make("tbody", {}, ...rows));
    walkDays(element, chosen, acts);
    return element;
}
