// Recurrence rules (RFC 8984 section 4.3.3) between an event and a form. The form shows the common ones; any other is kept as it is.
import { DAY, dateText, wallOf, written } from "./dates.js";
import { make } from "./dom.js";

const DAYS = ["mo", "tu", "we", "th", "fr", "sa", "su"];
const MONDAY = wallOf("2024-01-01");
const SHOWN = { "": "never", daily: "by days", weekly: "by weeks", monthly: "by months", yearly: "by years" };
const OTHER = "other";

function isShown(rules) {
    const [rule, second] = rules;
    const known = ["@type", "frequency", "interval", "byDay", "until"];
    const isPlain = (days) => rule.frequency === "weekly" && days.every(({ nthOfPeriod }) => !nthOfPeriod);
    return !second && rule.frequency in SHOWN && Object.keys(rule).every((it) => known.includes(it)) && (!rule.byDay || isPlain(rule.byDay));
}

/** Makes the form's choices, with the days of the week in the reader's language. */
export function prepareRepeats(form) {
    const choices = Object.entries({ ...SHOWN, [OTHER]: "in another way" });
    form.elements.frequency.replaceChildren(...choices.map(([value, text]) => make("option", { value }, text)));
    const days = DAYS.map((day, place) => {
        const name = written(MONDAY + place * DAY, { weekday: "short" });
        return make("label", { class: "plain" }, make("input", { type: "checkbox", name: "byDay", value: day }), ` ${name}`);
    });
    document.getElementById("repeat-days").replaceChildren(...days);
}

const inputs = (form) => [...form.querySelectorAll("[name=byDay]")];

/** Shows what the form asks only where it counts. */
export function tidyRepeats(form) {
    const { frequency, interval, until } = form.elements;
    const isPlain = frequency.value && frequency.value !== OTHER;
    for (const it of [interval, until]) it.closest("label").hidden = !isPlain;
    document.getElementById("repeat-days").hidden = frequency.value !== "weekly";
}

export function fillRepeats(form, rules = []) {
    const { frequency, interval, until } = form.elements;
    const isOther = rules.length > 0 && !isShown(rules);
    const rule = (!isOther && rules[0]) || {};
    frequency.querySelector(`[value=${OTHER}]`).hidden = !isOther;
    frequency.value = isOther ? OTHER : rule.frequency ?? "";
    interval.value = rule.interval ?? 1;
    until.value = rule.until ? dateText(wallOf(rule.until)) : "";
    for (const it of inputs(form)) it.checked = Boolean(rule.byDay?.some(({ day }) => day === it.value));
    tidyRepeats(form);
}

/** The rules that the form tells; those that it can't show are `held`. */
export function readRepeats(form, held) {
    const { frequency, interval, until } = form.elements;
    if (!frequency.value) return null;
    if (frequency.value === OTHER) return held;
    const rule = { "@type": "RecurrenceRule", frequency: frequency.value };
    const byDay = inputs(form).filter((it) => it.checked).map(({ value }) => ({ "@type": "NDay", day: value }));
    if (Number(interval.value) !== 1) rule.interval = Number(interval.value);
    if (frequency.value === "weekly" && byDay.length) rule.byDay = byDay;
    if (until.value) rule.until = `${until.value}T23:59:59`;
    return [rule];
}
