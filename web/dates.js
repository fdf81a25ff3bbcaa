// Local times and durations (RFC 8984 section 1.4), zones by the browser's own Intl, and how both are written.
//
// A wall time is a number of milliseconds: what a clock on the wall shows, counted as if it were UTC. An instant is a number
// of milliseconds of UTC from 1970.

export const MINUTE = 60000;
export const HOUR = 60 * MINUTE;
export const DAY = 86400000;

/** The wall time of a LocalDateTime, or of a date alone. */
export const wallOf = (text) => Date.parse(text.length > 10 ? `${text}Z` : `${text}T00:00:00Z`);

/** A wall time as a LocalDateTime. */
export const localText = (wall) => new Date(wall).toISOString().slice(0, 19);

/** The date of a wall time. */
export const dateText = (wall) => localText(wall).slice(0, 10);

/** The beginning of the day of a wall time. */
export const dayOf = (wall) => Math.floor(wall / DAY) * DAY;

const formats = new Map();

function format(options) {
    const key = JSON.stringify(options);
    if (!formats.has(key)) formats.set(key, new Intl.DateTimeFormat(navigator.language, { timeZone: "UTC", ...options }));
    return formats.get(key);
}

/** A wall time in the words of the reader's language. */
export const written = (wall, options) => format(options).format(wall);
export const timeWritten = (wall) => written(wall, { timeStyle: "short" });
export const fullDate = (wall) => written(wall, { dateStyle: "full" });

const clocks = new Map();

function clock(zone) {
    const digits = { year: "numeric", month: "numeric", day: "numeric", hour: "numeric", minute: "numeric", second: "numeric" };
    const options = { timeZone: zone, calendar: "gregory", numberingSystem: "latn", hourCycle: "h23", ...digits };
    if (!clocks.has(zone)) clocks.set(zone, new Intl.DateTimeFormat("en-US", options));
    return clocks.get(zone);
}

/** What the clocks of a zone show at an instant. */
export function wallAt(instant, zone) {
    const part = Object.fromEntries(clock(zone).formatToParts(instant).map(({ type, value }) => [type, Number(value)]));
    return new Date(0).setUTCFullYear(part.year, part.month - 1, part.day) + (part.hour * 60 + part.minute) * MINUTE + part.second * 1000;
}

const offset = (instant, zone) => wallAt(instant, zone) - instant;

/** The instant of a wall time: the earlier where the clock shows it twice, and where it skips it what the offset before gives. */
export function instantOf(wall, zone) {
    const before = offset(wall - DAY, zone);
    const fitting = [before, offset(wall + DAY, zone)].find((it) => offset(wall - it, zone) === it);
    return wall - (fitting ?? before);
}

/** The wall time in another zone. */
export const moved = (wall, zone, other) => (zone === other ? wall : wallAt(instantOf(wall, zone), other));

/** Whether the browser knows a zone by this name. */
export function isZone(zone) {
    try {
        return Boolean(clock(zone));
    } catch {
        return false;
    }
}

/** The days and the seconds of a Duration. */
export function lengthOf(duration = "PT0S") {
    const part = (letter, time) => Number(duration.match(time ? `T.*?(\\d+)${letter}` : `^P[^T]*?(\\d+)${letter}`)?.[1] ?? 0);
    const seconds = part("H", true) * 3600 + part("M", true) * 60 + part("S", true);
    return { days: part("W") * 7 + part("D"), seconds };
}

/** The end of what starts at a wall time of a zone: days count on the clock, seconds go by (RFC 5545 section 3.3.6). */
export function endOf(wall, duration, zone) {
    const { days, seconds } = lengthOf(duration);
    return wallAt(instantOf(wall + days * DAY, zone) + seconds * 1000, zone);
}

/** The Duration from one wall time to another: whole days as days, else the time that goes by. */
export function durationOf(start, end, zone) {
    if ((end - start) % DAY === 0) return `P${(end - start) / DAY}D`;
    const seconds = (instantOf(end, zone) - instantOf(start, zone)) / 1000;
    const parts = [[Math.floor(seconds / 3600), "H"], [Math.floor(seconds / 60) % 60, "M"], [seconds % 60, "S"]];
    return `PT${parts.filter(([count]) => count).map(([count, letter]) => count + letter).join("")}`;
}

/** The first day of the week where the reader lives, from 1 for Monday to 7. */
function firstDay() {
    const locale = new Intl.Locale(navigator.language);
    return (locale.getWeekInfo?.() ?? locale.weekInfo)?.firstDay ?? 1;
}

/** The first day of the week of a wall time. */
export function weekOf(wall) {
    const weekday = new Date(wall).getUTCDay();
    return dayOf(wall) - ((weekday - firstDay() + 7) % 7) * DAY;
}

/** The same day of a later or an earlier month, or that month's last. */
export function monthsLater(wall, count) {
    const date = new Date(wall), day = date.getUTCDate();
    date.setUTCDate(1);
    date.setUTCMonth(date.getUTCMonth() + count);
    const days = new Date(Date.UTC(2000, 0, 1)).setUTCFullYear(date.getUTCFullYear(), date.getUTCMonth() + 1, 0);
    date.setUTCDate(Math.min(day, new Date(days).getUTCDate()));
    return date.getTime();
}
