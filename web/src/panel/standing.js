// Whether the floor is clear and can be barred, and every broken limit with its places, all together.

import { element } from '../dom.js';
import { brokenLimits, CLEAR_SENTENCE } from '../say/limits.js';
import { sayPlace } from '../say/places.js';
import { sayUnbarred } from '../say/refusals.js';

/** @typedef {import('../judge.js').Judged} Judged */
/** @typedef {import('../judge.js').Place} Place */
/** @typedef {import('../say/words.js').Words} Words */
/** @typedef {{limit: number, sentence: string, places: Place[]}} BrokenLimit */

/** More places than these of one limit are not written out; the plan marks every one. */
const MOST_SAID_PLACES = 8;

/** So many lines of places leave room for the sentence of every limit. */
const MOST_OPEN_PLACES = 8;

const BROKEN_WORDS = 'not clear: moments stand only on a floor that is clear';

export class StandingView {
    /**
     * @param {HTMLElement} standing @param {HTMLElement} unbarred @param {HTMLElement} list @param {Words} words
     * @param {(places: Place[]) => void} point shows places in the plan
     */
    constructor(standing, unbarred, list, words, point) {
        this.standing = standing;
        this.unbarred = unbarred;
        this.list = list;
        this.words = words;
        this.point = point;
        /**
         * What the designer has opened or closed herself, by limit.
         * @type {Map<number, boolean>}
         */
        this.chosen = new Map();
    }

    /** @param {Judged} judged */
    show(judged) {
        this.standing.dataset.verdict = String(judged.verdict);
        this.standing.textContent = judged.verdict === 0 ? CLEAR_SENTENCE : BROKEN_WORDS;
        const { refusal } = judged.schedule;
        this.unbarred.textContent = judged.verdict === 0 && refusal !== 0 ? sayUnbarred(this.words, refusal) : '';
        const broken = brokenLimits(this.words, judged);
        const lines = broken.reduce((sum, { places }) => sum + Math.min(places.length, MOST_SAID_PLACES), 0);
        this.list.replaceChildren(...broken.map((limit) => this.limitItem(judged, limit, lines <= MOST_OPEN_PLACES)));
    }

    /** @param {Judged} judged @param {BrokenLimit} broken @param {boolean} open */
    limitItem(judged, { limit, sentence, places }, open) {
        const said = places.slice(0, MOST_SAID_PLACES).map((place) => this.placeItem(judged, place));
        const more = places.length - said.length;
        const rest = more === 0 ? [] : [element('li', { class: 'more' }, `and ${more} more, marked in the plan`)];
        const summary = element('summary', {}, element('span', {}, sentence), element('small', {}, counted(places.length)));
        const details = element('details', { open: this.chosen.get(limit) ?? open }, summary, element('ul', {}, ...said, ...rest));
        summary.addEventListener('click', () => this.chosen.set(limit, !details.open));
        this.pointWhile(summary, places);
        return element('li', { 'data-limit': limit }, details);
    }

    /** @param {Judged} judged @param {Place} place */
    placeItem(judged, place) {
        const { limit, way, i, j } = place;
        const named = { class: 'place', tabindex: 0, 'data-limit': limit, 'data-way': way, 'data-i': i, 'data-j': j };
        const item = element('li', named, sayPlace(judged, place));
        this.pointWhile(item, [place]);
        return item;
    }

    /**
     * Pointing at it, or coming to it with the keyboard, shows it in the plan.
     * @param {HTMLElement} node @param {Place[]} places
     */
    pointWhile(node, places) {
        for (const event of ['pointerenter', 'focus']) {
            node.addEventListener(event, () => this.point(places));
        }
        for (const event of ['pointerleave', 'blur']) {
            node.addEventListener(event, () => this.point([]));
        }
    }
}

/** @param {number} places */
function counted(places) {
    return places === 1 ? '1 place' : `${places} places`;
}
