// A drawing in layers that are drawn again in place: what stays the same is not touched, so that a drag costs little.

import { drawn } from '../dom.js';

/**
 * What one element of a layer has: text where it is one, and attributes.
 * @typedef {{words?: string, [attribute: string]: string | number | undefined}} Mark
 */

/**
 * Makes the layer's elements those of the marks, in their order.
 * @param {SVGGElement} layer @param {'path' | 'text'} tag @param {Mark[]} marks
 */
export function fillLayer(layer, tag, marks) {
    while (layer.childElementCount > marks.length) {
        layer.lastElementChild?.remove();
    }
    while (layer.childElementCount < marks.length) {
        layer.append(drawn(tag));
    }
    let node = layer.firstElementChild;
    for (const { words, ...attributes } of marks) {
        if (node !== null) {
            markElement(node, words, attributes);
            node = node.nextElementSibling;
        }
    }
}

/** @param {Element} node @param {string | undefined} words @param {Record<string, string | number | undefined>} attributes */
function markElement(node, words, attributes) {
    for (const [name, value] of Object.entries(attributes)) {
        if (node.getAttribute(name) !== String(value)) {
            node.setAttribute(name, String(value));
        }
    }
    if (words !== undefined && node.textContent !== words) {
        node.textContent = words;
    }
}
