// Elements of the page.

// An element with attributes and children. A function among the attributes hears the event of its name; true and false set or leave
// out an attribute.
export function element(name, attributes = {}, ...children) {
    const made = document.createElement(name);
    for (const [attribute, value] of Object.entries(attributes)) {
        if (typeof value === "function") {
            made.addEventListener(attribute, value);
        } else if (value !== false && value !== null) {
            made.setAttribute(attribute, value === true ? "" : value);
        }
    }
    made.append(...children.filter((child) => child !== null));
    return made;
}

export function button(text, click, attributes = {}) {
    return element("button", { type: "button", click, ...attributes }, text);
}

export function byId(id) {
    return document.getElementById(id);
}

// Brings a row of a list into sight by scrolling the list, and nothing around it. Of a row that is higher its top is shown.
export function scrollWithin(list, row) {
    const { top, bottom, height } = row.getBoundingClientRect();
    const from = list.getBoundingClientRect().top + list.clientTop;
    const to = from + list.clientHeight;
    if (top < from || height > list.clientHeight) {
        list.scrollTop += top - from;
    } else if (bottom > to) {
        list.scrollTop += bottom - to;
    }
}

// Gives a file to be saved.
export function save(name, content) {
    const address = URL.createObjectURL(new Blob([content]));
    element("a", { href: address, download: name }).click();
    setTimeout(() => URL.revokeObjectURL(address), 1000);
}

// A list of decoded lines, indented by their depths.
export function objectList(lines) {
    return element("ul", { class: "objects" }, ...lines.map(({ depth, label, text }) => element(
        "li", { style: `padding-left: ${depth}rem` }, element("span", { class: "label" }, text ? `${label}: ` : label), text)));
}
