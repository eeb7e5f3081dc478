// Elements made by name, attributes and children. Text goes in as text and never as markup, whatever a file has in it.

const SVG_SPACE = 'http://www.w3.org/2000/svg';

/** @typedef {Record<string, string | number | boolean>} Attributes */

/**
 * An attribute that is false is left out, and one that is true stands without a value.
 * @param {Element} node @param {Attributes} attributes
 */
export function setAttributes(node, attributes) {
    for (const [name, value] of Object.entries(attributes)) {
        if (value === false) {
            node.removeAttribute(name);
        } else {
            node.setAttribute(name, value === true ? '' : String(value));
        }
    }
}

/**
 * @template {keyof HTMLElementTagNameMap} T
 * @param {T} tag @param {Attributes} attributes @param {(Node | string)[]} children
 * @returns {HTMLElementTagNameMap[T]}
 */
export function element(tag, attributes = {}, ...children) {
    const node = document.createElement(tag);
    setAttributes(node, attributes);
    node.append(...children);
    return node;
}

/**
 * One of a drawing.
 * @template {keyof SVGElementTagNameMap} T
 * @param {T} tag @param {Attributes} attributes @param {(Node | string)[]} children
 * @returns {SVGElementTagNameMap[T]}
 */
export function drawn(tag, attributes = {}, ...children) {
    const node = /** @type {SVGElementTagNameMap[T]} */ (document.createElementNS(SVG_SPACE, tag));
    setAttributes(node, attributes);
    node.append(...children);
    return node;
}

/**
 * The one element of this name that the page begins with.
 * @param {string} id @returns {HTMLElement}
 */
export function byId(id) {
    const node = document.getElementById(id);
    if (node === null) {
        throw new Error(`the page has no element ${id}`);
    }
    return node;
}
