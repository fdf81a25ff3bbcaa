// Elements made by hand: what comes from others is put in as text, and never read as markup.

/** An element with attributes and with children, which are elements or texts. */
export function make(tag, attributes = {}, ...children) {
    const element = document.createElement(tag);
    for (const [name, value] of Object.entries(attributes)) {
        if (value === true) element.setAttribute(name, "");
        else if (value !== false && value != null) element.setAttribute(name, value);
    }
    element.append(...children);
    return element;
}

/** A button with a text, which does something. */
export function button(text, attributes, act) {
    const element = make("button", { type: "button", ...attributes }, text);
    element.addEventListener("click", act);
    return element;
}

/** Shows a color, which others may have written, where the browser knows it. */
export function colored(element, color) {
    if (color && CSS.supports("color", color)) element.style.setProperty("--color", color);
    return element;
}

/** Says something in the line that screen readers read out. */
export function say(text) {
    document.getElementById("status").textContent = text;
}

/** Draws anew, and gives the focus back to what has the same key. */
export function keepingFocus(draw) {
    const key = document.activeElement?.dataset.key;
    draw();
    if (key) document.querySelector(`[data-key="${CSS.escape(key)}"]`)?.focus();
}
