// Elements of the page, made of plain values: each text goes in as text and never as markup.

const SVG = "http://www.w3.org/2000/svg";

/**
 * An element. A function whose name begins with "on" is a listener; true is an attribute without a value, and false,
 * null and undefined are none.
 */
export function el(name, attributes = {}, ...children) {
  return filled(document.createElement(name), attributes, children);
}

/** An element of SVG. */
export function svg(name, attributes = {}, ...children) {
  return filled(document.createElementNS(SVG, name), attributes, children);
}

function filled(element, attributes, children) {
  for (const [name, value] of Object.entries(attributes)) {
    if (name.startsWith("on")) {
      element.addEventListener(name.slice(2), value);
    } else if (value !== false && value !== null && value !== undefined) {
      element.setAttribute(name, value === true ? "" : value);
    }
  }
  element.append(...children.filter((child) => child !== null && child !== undefined));
  return element;
}

/** What a field for a name has, of which the browser knows nothing. */
export const plainText = { type: "text", autocomplete: "off", spellcheck: "false" };

/** A button with a text, or with an element. */
export function button(text, act, attributes = {}) {
  return el("button", { type: "button", ...attributes, onclick: act }, text);
}

/** A form whose submission does this and nothing else. */
export function form(attributes, act, ...children) {
  const submitted = (event) => {
    event.preventDefault();
    act();
  };
  return el("form", { ...attributes, onsubmit: submitted }, ...children);
}

/** A link that opens in a tab of its own, which learns nothing of this one. */
export function newTab(address, text) {
  return el("a", { href: address, target: "_blank", rel: "noopener noreferrer" }, text);
}

/** A label with its field behind it. */
export function labelled(text, field, hint = null) {
  const id = field.id || newId();
  field.id = id;
  const parts = [el("label", { for: id }, text), field];
  if (hint !== null) {
    const note = el("p", { class: "hint", id: newId() }, hint);
    field.setAttribute("aria-describedby", note.id);
    parts.push(note);
  }
  return el("div", { class: "field" }, ...parts);
}

let ids = 0;

/** A name for an element that no other one has. */
export function newId() {
  ids += 1;
  return `id-${ids}`;
}
