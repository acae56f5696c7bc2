// Elements of the page. Texts are always text nodes: nothing here reads markup.

/** Makes an element: members that begin with "on" are its listeners, the others its attributes. */
export function element(tag, attributes = {}, ...children) {
    const made = document.createElement(tag);
    for (const [name, value] of Object.entries(attributes)) {
        if (name.startsWith("on")) {
            made.addEventListener(name.slice(2), value);
        } else if (value !== undefined && value !== false) {
            made.setAttribute(name, value === true ? "" : value);
        }
    }
    made.append(...children.filter((child) => child !== undefined));
    return made;
}

export function button(text, onclick, attributes = {}) {
    return element("button", { type: "button", onclick, ...attributes }, text);
}

export function byId(id) {
    return document.getElementById(id);
}

/** A list to choose from, of pairs of a value and its text; `onchoose` is called with the value. */
export function chooser(label, onchoose, attributes = {}) {
    const select = element("select", { ...attributes, onchange: () => onchoose(select.value) });
    return { select, label: element("label", {}, label, select) };
}

export function setOptions(select, pairs, value) {
    select.replaceChildren(...pairs.map(([key, text]) => element("option", { value: key }, text)));
    select.value = value;
}

/** A field to search in, which `/` focuses. */
export function searchField(words, label, attributes = {}) {
    return element("input", { type: "search", placeholder: `${words}   /`, autocomplete: "off", spellcheck: "false",
        "aria-label": label, ...attributes });
}

/** A term and its value in a list of facts. */
export function fact(name, value, attributes = {}) {
    return [element("dt", {}, name), element("dd", attributes, value)];
}

/** Whether keys of a press belong to the field that has the focus. */
export function isTyping(target) {
    return target instanceof HTMLElement && (target.matches("input:not([type=checkbox]), select, textarea"));
}

/** Opens a dialog with a heading and contents, which closes by Escape and then gives the focus back. */
export function openDialog(title, ...contents) {
    const before = document.activeElement;
    const heading = element("h2", { id: "dialog-title" }, title);
    const named = { "aria-labelledby": "dialog-title" };
    const inside = element("div", { class: "inside", tabindex: "0", role: "group", ...named }, ...contents);
    const close = button("Close", () => dialog.close());
    const dialog = element("dialog", named, element("header", {}, heading, close), inside);
    dialog.addEventListener("close", () => {
        dialog.remove();
        before?.focus?.();
    });
    document.body.append(dialog);
    dialog.showModal();
    inside.focus();
    return dialog;
}

/** Returns what calls `draw` at the next chance, once for all calls until then. */
export function atNextChance(draw) {
    let isDue = false;
    return () => {
        if (!isDue) {
            isDue = true;
            requestAnimationFrame(() => {
                isDue = false;
                draw();
            });
        }
    };
}
