// The page: the desk, and every view of what lies on it, shown anew after each step.

import { byId, element } from './dom.js';
import { withRecords } from './floor.js';
import { FrameView } from './moments/view.js';
import { StandingView } from './panel/standing.js';
import { leaveField } from './panel/fields.js';
import { isThere, keyOfPicked, pickedFields } from './panel/picked.js';
import { wholeFields } from './panel/whole.js';
import { holdLines } from './plan/drag.js';
import { neighbourOf, pickedUnder } from './plan/pick.js';
import { PlanView } from './plan/plan.js';
import { sayWhy } from './say/culprits.js';
import { SheetView } from './sheet/view.js';

/** @typedef {import('./desk.js').Desk} Desk */
/** @typedef {import('./floor.js').Way} Way */
/** @typedef {import('./judge.js').Place} Place */
/** @typedef {import('./judge.js').Refused} Refused */
/** @typedef {import('./panel/fields.js').Field} Field */
/** @typedef {import('./panel/fields.js').Hand} Hand */
/** @typedef {import('./panel/picked.js').Picked} Picked */
/** @typedef {import('./say/words.js').Words} Words */

const LEGEND = 'In each panel its least thickness in mm, and beside each span its bay and its length in mm. '
    + 'A column off its lines is drawn to the east and north.';
const CROWDED = 'Some numbers have no room here: make the plan larger, or point at what they belong to.';

export class App {
    /** @param {Desk} desk @param {Words} words */
    constructor(desk, words) {
        this.desk = desk;
        this.words = words;
        /** @type {Picked} */
        this.picked = { sort: 'line', way: 'x', number: 0 };
        /** @type {{way: Way, line: number}} */
        this.framed = { way: 'x', line: 0 };
        /** @type {Place[]} */
        this.pointed = [];
        const plan = /** @type {any} */ (byId('plan'));
        this.plan = new PlanView(plan, () => this.showPlan());
        this.frame = new FrameView(byId('frame'), (way, line) => this.pick({ sort: 'line', way, number: line }));
        this.sheet = new SheetView(desk, words);
        this.standing = new StandingView(byId('standing'), byId('unbarred'), byId('limits'), words, (places) => this.point(places));
        /** @type {Hand} */
        this.hand = {
            floor: () => this.desk.held.floor,
            take: (records) => this.take(records),
            reopen: (bytes) => this.reopen(bytes),
            complain: (text) => this.say(0, [text]),
        };
        this.whole = wholeFields(this.hand);
        byId('whole').append(...this.whole.map(({ node }) => node));
        /** @type {Field[]} */
        this.fields = [];
        this.fieldsOf = '';
        this.holdPlan(plan);
        desk.onChange = () => this.showChanged();
        byId('fold').addEventListener('click', () => this.fold());
    }

    /** @param {SVGSVGElement} plan */
    holdPlan(plan) {
        holdLines(plan, {
            floor: () => this.desk.held.floor,
            factor: () => this.plan.factor(),
            pick: ({ way, line }) => this.pick({ sort: 'line', way, number: line }),
            send: (records, gesture) => this.take(records, gesture),
            begin: () => {
                this.plan.steady = true;
            },
            end: () => {
                this.plan.steady = false;
                this.desk.endGesture();
                this.showPlan();
            },
        });
        plan.addEventListener('click', (event) => {
            const picked = pickedUnder(event.target);
            if (picked !== null) {
                this.pick(picked);
            }
        });
        plan.addEventListener('keydown', (event) => this.pickByKey(event));
    }

    /**
     * Enter goes on to the fields of what has the focus, the arrow keys from a panel or a column to its neighbour.
     * @param {KeyboardEvent} event
     */
    pickByKey(event) {
        const picked = pickedUnder(event.target);
        if (picked === null) {
            return;
        }
        const beside = neighbourOf(picked, event.key);
        if (event.key === 'Enter' || event.key === ' ') {
            event.preventDefault();
            this.pick(picked);
            byId('picked').querySelector('input')?.focus();
        } else if (beside !== null && isThere(this.desk.held.floor, beside)) {
            event.preventDefault();
            this.pick(beside);
            this.plan.focusPicked();
        }
    }

    /**
     * A line that is picked is the frame that is shown, too.
     * @param {Picked} picked
     */
    pick(picked) {
        leaveField();
        this.picked = picked;
        if (picked.sort === 'line') {
            this.framed = { way: picked.way, line: picked.number };
        }
        this.show();
    }

    /** @param {Uint8Array[]} records @param {object | null} gesture */
    take(records, gesture = null) {
        const refused = this.desk.take(records, gesture);
        const { bytes } = this.desk.held;
        this.tell(refused, refused === null ? bytes : withRecords(bytes, records.slice(0, refused.position + 1)));
    }

    /** @param {Uint8Array} bytes */
    reopen(bytes) {
        this.tell(this.desk.open(bytes), bytes);
    }

    /**
     * A refusal gets its number and its reason.
     * @param {Refused | null} refused @param {Uint8Array} bytes of the floor that it is about
     */
    tell(refused, bytes) {
        if (refused !== null) {
            this.say(refused.refusal, [...this.why(bytes, refused.refusal), 'The floor keeps what it had.']);
        }
    }

    /** @param {Uint8Array} bytes @param {number} refusal */
    why(bytes, refusal) {
        return sayWhy(this.desk.library, this.words, bytes, refusal);
    }

    /** @param {number} refusal 0 where there is none @param {string[]} lines */
    say(refusal, lines) {
        const message = byId('message');
        message.dataset.refusal = String(refusal);
        message.replaceChildren(...lines.map((line) => element('span', {}, line)));
    }

    /** The plan in the place of the moments too, or not. */
    fold() {
        const folds = document.body.classList.toggle('folds-frame');
        byId('fold').setAttribute('aria-pressed', String(folds));
    }

    /** A refusal stands until the floor is another. */
    showChanged() {
        this.say(0, []);
        this.show();
    }

    show() {
        const { held, name } = this.desk;
        if (!isThere(held.floor, this.picked)) {
            this.picked = { sort: 'line', way: 'x', number: 0 };
        }
        if (!isThere(held.floor, { sort: 'line', way: this.framed.way, number: this.framed.line })) {
            this.framed = { way: 'x', line: 0 };
        }
        byId('name').textContent = name;
        byId('name').title = name;
        document.title = `${name} – Slab`;
        setDisabled('redo', this.desk.future.length === 0, 'undo');
        setDisabled('undo', this.desk.past.length === 0, 'redo');
        this.standing.show(held);
        this.showFields();
        this.frame.show(held, this.framed);
        this.pointed = [];
        this.showPlan();
        this.sheet.show();
    }

    showFields() {
        const { x, y } = this.desk.held.floor.spans;
        const key = `${keyOfPicked(this.picked)} of ${x.length} by ${y.length}`;
        if (this.fieldsOf !== key) {
            this.fieldsOf = key;
            this.fields = pickedFields(this.hand, this.picked);
            byId('picked').replaceChildren(...this.fields.map(({ node }) => node));
        }
        for (const { refresh } of [...this.whole, ...this.fields]) {
            refresh(this.desk.held.floor);
        }
        const heavy = this.desk.held.places.some(({ limit }) => limit === 16);
        byId('whole').classList.toggle('overloaded', heavy);
    }

    /** @param {Place[]} places */
    point(places) {
        this.pointed = places;
        this.showPlan();
    }

    showPlan() {
        const { held } = this.desk;
        this.plan.show(held, keyOfPicked(this.picked), this.pointed);
        byId('legend').textContent = this.plan.isCrowded() ? `${LEGEND} ${CROWDED}` : LEGEND;
    }
}

/**
 * A button that has the focus when there is nothing left for it to do hands it on.
 * @param {string} id @param {boolean} disabled @param {string} next
 */
function setDisabled(id, disabled, next) {
    const button = /** @type {HTMLButtonElement} */ (byId(id));
    if (disabled && document.activeElement === button) {
        byId(next).focus();
    }
    button.disabled = disabled;
}
