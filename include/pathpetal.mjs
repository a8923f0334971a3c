// pathpetal.mjs: waves along one closed channel, over the bytes of a channel file, in a page or in node.
//
// The calls of pathpetal.h over the WebAssembly file pathpetal.wasm, with no other dependency. A channel lives in the
// bytes of its file, a Uint8Array of 28 + 68 * cells bytes, and nowhere else: nothing is kept between calls.
//
//     import { load, row, GAUGES_LENGTH, Refusal } from './pathpetal.mjs';
//     const pathpetal = await load();                     // pathpetal.wasm beside this module
//     const file = pathpetal.make({
//         cells: 8, widthMm: 500, stepMs: 20, wanted: 100,
//         depths: row([1000, 1000, 1000, 1000, 1000, 1000, 1000, 1000]),            // mm
//         heights: row([20000, 10000, 0, 0, 0, 0, 0, 0]),                           // um above still water
//         velocities: row([0, 0, 0, 0, 0, 0, 0, 0]),                                // um/s
//         dampings: row([0, 0, 0, 0, 0, 500, 2000, 8000]),                          // thousandths per second
//     });
//     const answer = pathpetal.run(file);                 // file is then the channel after its accepted steps
//     if (!answer.complete) console.log(answer.words);
//
// Gauges count the waves at marked cells. They live beside the file, in bytes of their own that are all zeros at first,
// and are fed once after each accepted step. So in the place of the run above, with one step a call:
//
//     const gauges = new Uint8Array(GAUGES_LENGTH);
//     pathpetal.placeGauge(file, gauges, 3);                                        // at cell 3, counted from 1
//     let answer = pathpetal.run(file, 1);
//     for (; answer.count === 1; answer = pathpetal.run(file, 1)) pathpetal.feedGauges(file, gauges);
//     if (!answer.complete) console.log(answer.words);
//     for (const { cell, waves, largestUm } of pathpetal.readGauges(gauges)) console.log(cell, waves, largestUm);
//
// Every call ends in the rule's result or in one numbered refusal, and a refused call leaves every byte of the
// caller's as it was. All but run throw a refusal as a Refusal, whose message names the cell or face at fault where
// there is one. run does not: the steps that it accepted before a refused one are kept in the file, so it gives an
// answer with their count, and `complete` in it is true only if all wanted steps are taken.
//
// What C could not be given either is no refusal but an error of the language: a TypeError where bytes are no
// Uint8Array, a RangeError where a count is no whole number from 0 to 2^53 - 1, or to 2^64 - 1 as a bigint.
//
// Browsers and node of 2021 or later: the file takes 64-bit numbers as BigInt, which this module hides, and copies
// memory by the engine's own instructions.

/** The bytes of gauges: `new Uint8Array(GAUGES_LENGTH)` holds none. */
export const GAUGES_LENGTH = 512;

/** Places for gauges, and the numbers that are read of each. */
const PLACES = 8;
const TOLD = 6;

/** The longest channel file and the longest row beside it, in bytes. */
const FILE_MOST = 28 + 68 * 256;
const ROW_MOST = 4 * 256;

/** Bytes in a page of WebAssembly memory. */
const PAGE = 65536;

/**
 * Where in the page that is kept for them strings are lent, and the longest that a call takes: a file, four rows and
 * gauges. Behind them are the readings of gauges, numbers of 8 bytes at a multiple of 8.
 */
const STARTS = [0, 20480, 22528, 24576, 26624, 28672];
const LONGEST = [FILE_MOST, ROW_MOST, ROW_MOST, ROW_MOST, ROW_MOST, GAUGES_LENGTH];
const READINGS = 30720;
const GAUGES = 5;

/** Node's own module of files, which a page never asks for. */
const NODE_FILES = 'node:fs/promises';

/**
 * Why a call did not do what was asked, by number: the words of pathpetal.h.
 * @type {Readonly<Record<number, string>>}
 */
export const reasons = Object.freeze({
    0: '',
    1: 'not 8 to 256 cells, or a row beside the file has not one entry for each cell',
    2: 'cell width not 10 to 5,000 mm, time step not 1 to 100 ms, steps wanted not 1 to 1,000,000, or more accepted than wanted',
    4: 'a cell has less than 1 mm of water: it fell dry, or nearly so',
    5: 'the bottom is too steep for cells this narrow: take wider cells or smooth it',
    6: 'the velocities cannot be worked out; no file is known that meets this',
    7: 'the water became faster than 20 m/s',
    8: 'the water rose or fell by more than 20 m',
    9: 'more water through a face than the file can hold',
    10: 'ten corrections did not settle: take a shorter time step or wider cells',
    11: 'all wanted steps are already taken: nothing is left to step or filter',
    12: 'the file is cut short, too long, or no channel file; or the gauges are not 512 bytes',
    13: 'not a channel file of edition 2',
    14: "the file's rows do not stand where they must; or a number of the gauges is out of its range",
    15: 'the room for the file is not exactly 28 + 68 * cells bytes, or that for the readings of gauges is not exactly 48 numbers',
    16: 'a run only: as many steps were taken as this call allowed, and the channel is not complete; call again to go on',
    20: 'eight gauges are placed already',
    21: "a gauge's cell is not in the channel",
    26: 'the time step is too long for the deepest cell: 9,810 * depth * step * step is more than 6,000,000 * width * width; take a shorter one or wider cells',
    30: 'a gauge holds 1,000,000 heights already',
    31: 'a depth is not 1 to 20,000 mm',
    32: 'a height is not within 20,000,000 um',
    33: 'a velocity is not within 20,000,000 um/s',
    34: 'a reduced velocity is not within 2,000,000,000 um/s',
    35: 'a flux is not within 10^15 um2/s',
    36: 'an acceleration is not within 10^11 um/s2',
    37: 'a poured amount is not within 1,000,000 um',
    38: 'a damping is not 0 to 10,000 thousandths per second',
});

/** The refusal whose place is a face; all others that have one name a cell. */
const FLUX = 35;

/** A call that was refused. Every byte that it was given is as it was. */
export class Refusal extends Error {
    /** @param {Answer} answer */
    constructor({ number, stage, place, count }) {
        const where = place === 0 ? '' : number === FLUX ? ` at face ${place}` : ` in cell ${place}`;
        super(`refused ${number}${where}${stage ? ` at correction ${stage}` : ''}: ${reasons[number]}`);
        this.name = 'Refusal';
        /**
         * Why: 1, 2, 4 to 15, 20, 21, 26 or 30 to 38, as in pathpetal.h.
         * @type {number}
         */
        this.number = number;
        /**
         * Where in a step: 0 for the prediction and all before it, 1 to 10 for that correction.
         * @type {number}
         */
        this.stage = stage;
        /**
         * Where in the channel: the lowest cell at fault, of 35 the lowest face, counted from 1; 0 of what has none.
         * @type {number}
         */
        this.place = place;
        /**
         * 0: what is refused accepts nothing.
         * @type {number}
         */
        this.count = count;
        /**
         * Why, in words.
         * @type {string}
         */
        this.words = reasons[number];
    }
}

/**
 * The length of a channel's file, in bytes.
 * @param {number} cells
 * @returns {number}
 */
export function fileLength(cells) {
    return 28 + 68 * cells;
}

/**
 * A row of whole numbers as bytes, 4 for each, signed and little-endian. Throws a RangeError where a value is no
 * whole number or does not fit.
 * @param {Iterable<number>} values
 * @returns {Uint8Array}
 */
export function row(values) {
    const from = Array.from(values);
    const view = new DataView(new ArrayBuffer(4 * from.length));
    from.forEach((value, j) => {
        if (value !== (value | 0))
            throw new RangeError(`entry ${j} of a row is ${value}: no whole number of 4 bytes`);
        view.setInt32(4 * j, value, true);
    });
    return new Uint8Array(view.buffer);
}

/**
 * @typedef {object} Start what a channel is made from
 * @property {number | bigint} cells 8 to 256
 * @property {number | bigint} widthMm cell width in mm, 10 to 5,000
 * @property {number | bigint} stepMs time step in ms, 1 to 100
 * @property {number | bigint} wanted steps wanted, 1 to 1,000,000
 * @property {Uint8Array} depths depth in mm, 4 bytes for each cell, as `row` makes them
 * @property {Uint8Array} heights height above still water in um, 4 bytes for each cell
 * @property {Uint8Array} velocities velocity in um/s, 4 bytes for each cell
 * @property {Uint8Array} dampings how quickly each cell slows the water down, in thousandths per second, 0 to 10,000, 4
 *     bytes for each cell; all zeros for a channel without damping
 */

/**
 * @typedef {object} Channel what a file holds
 * @property {number} cells
 * @property {number} widthMm cell width in mm
 * @property {number} stepMs time step in ms
 * @property {number} accepted steps accepted
 * @property {number} wanted steps wanted
 * @property {boolean} complete whether as many steps are accepted as are wanted
 * @property {Int32Array} depths in mm
 * @property {Int32Array} heights above still water, in um
 * @property {Int32Array} velocities in um/s
 * @property {Int32Array} dampings in thousandths per second
 */

/**
 * @typedef {object} Gauge what a gauge has counted. A crossing is a height of zero or more directly after one below
 *     zero; a wave runs from one crossing up to the next, and its height is the highest fed in it minus the lowest
 * @property {number} place which of the eight it is, 1 to 8
 * @property {number} cell where it stands, counted from 1
 * @property {number} fed how many heights it was fed
 * @property {number} crossings
 * @property {number} waves complete ones: neither what came before the first crossing nor what came since the last
 * @property {number} largestUm the largest height of a wave in um, 0 if there is none
 * @property {number} sumUm of the heights of all waves in um: over `waves` it is their mean
 */

/**
 * @typedef {object} RunAnswer what a run came to
 * @property {boolean} complete whether all wanted steps are taken: ask this, and nothing else, to call a run finished
 * @property {number} number 0 when complete, 16 when not and no step was refused, else why a step or the file was refused
 * @property {number} stage where in the refused step: 0 for the prediction and all before it, 1 to 10 for that correction
 * @property {number} place the lowest cell at fault, of 35 the lowest face, counted from 1; 0 of what has none
 * @property {number} count steps that this call accepted; the file holds them
 * @property {string} words the number in words, empty when complete
 */

/**
 * @typedef {object} Answer the parts of the one number that a call gives back
 * @property {number} number
 * @property {number} stage
 * @property {number} place
 * @property {number} count
 */

/**
 * The functions of the WebAssembly file: pointers are numbers, all else 64-bit.
 * @typedef {Record<string, (...given: (number | bigint)[]) => bigint>} Calls
 */

const names = ['rule', 'make', 'check', 'step', 'filter', 'run', 'place_gauge', 'feed_gauges', 'read_gauges'].map((name) => `pathpetal_${name}`);

/**
 * @param {number | bigint} count
 * @param {string} what
 * @returns {bigint}
 */
function whole(count, what) {
    if (typeof count === 'bigint' ? count === BigInt.asUintN(64, count) : Number.isSafeInteger(count) && count >= 0)
        return BigInt(count);
    throw new RangeError(`${what} is ${count}: no whole number from 0 to 2^53 - 1, nor a bigint to 2^64 - 1`);
}

/**
 * @param {Uint8Array} bytes
 * @param {string} what
 * @returns {Uint8Array}
 */
function checked(bytes, what) {
    if (bytes instanceof Uint8Array)
        return bytes;
    throw new TypeError(`${what} is no Uint8Array`);
}

/**
 * @param {bigint} answer
 * @returns {Answer}
 */
function parts(answer) {
    return {
        number: Number((answer >> 8n) & 255n),
        stage: Number(answer & 255n),
        place: Number((answer >> 16n) & 511n),
        count: Number(BigInt.asUintN(64, answer) >> 25n),
    };
}

/**
 * The count of an answer that is no refusal.
 * @param {Answer} answer
 * @returns {number}
 */
function accepted(answer) {
    if (answer.number !== 0)
        throw new Refusal(answer);
    return answer.count;
}

/** The calls, over a WebAssembly file that was loaded. Made by `load`. */
export class Pathpetal {
    /** @type {Calls} */
    #calls;
    /**
     * A page of the file's memory that the library does not use.
     * @type {Uint8Array}
     */
    #room;
    /**
     * Where it stands.
     * @type {number}
     */
    #at;

    /** @param {WebAssembly.Instance} instance */
    constructor(instance) {
        const { memory, ...calls } = instance.exports;
        const lacks = memory instanceof WebAssembly.Memory ? names.find((name) => typeof calls[name] !== 'function') : 'memory';
        if (lacks)
            throw new TypeError(`not the WebAssembly file of Pathpetal, or not that of this module: it has no ${lacks}`);
        this.#at = PAGE * memory.grow(1);
        this.#room = new Uint8Array(memory.buffer, this.#at, PAGE);
        this.#calls = /** @type {Calls} */ (calls);
    }

    /**
     * The rule that all calls of the WebAssembly file follow: 3. It grows whenever a call comes to leave other numbers in
     * a file for the same input, so that a page can tell what it may go on with; it has not grown by damping, for a
     * channel without it has the numbers that it had. By rule 2 a half was rounded away from zero, and not to the even
     * number. Rule 1 was that before the start ladder, the time weights of a first and a second step; its WebAssembly
     * file is not taken by this module.
     * @returns {number}
     */
    get rule() {
        return Number(this.#calls.pathpetal_rule());
    }

    /**
     * Lends bytes to the library: copies them to the room, at most one more than the longest that a call takes, since
     * what is longer is refused all the same. Gives the two arguments that stand for them.
     * @param {Uint8Array} bytes
     * @param {number} string 0 for a file, 1 to 4 for a row, GAUGES for gauges
     * @returns {[number, bigint]}
     */
    #lend(bytes, string) {
        const lent = bytes.subarray(0, LONGEST[string] + 1);
        this.#room.set(lent, STARTS[string]);
        return [this.#at + STARTS[string], BigInt(lent.length)];
    }

    /**
     * Copies lent bytes back.
     * @param {Uint8Array} bytes
     * @param {number} [string] 0 for a file, GAUGES for gauges
     */
    #take(bytes, string = 0) {
        bytes.set(this.#room.subarray(STARTS[string], STARTS[string] + bytes.length));
    }

    /**
     * Makes the file of a new channel, with no step accepted.
     * @param {Start} start
     * @param {Uint8Array} [file] room for it, of exactly its length; without it there is a new one
     * @returns {Uint8Array} the file
     * @throws {Refusal} 1, 2, 31, 32, 33, 38, 4, 26, 5, 15, 7, 9, the first that holds in this order
     */
    make(start, file) {
        const cells = whole(start.cells, 'cells');
        const counts = [cells, whole(start.widthMm, 'widthMm'), whole(start.stepMs, 'stepMs'), whole(start.wanted, 'wanted')];
        const into = file === undefined ? new Uint8Array(cells <= 256n ? fileLength(Number(cells)) : 0) : checked(file, 'file');
        accepted(parts(this.#calls.pathpetal_make(
            ...counts,
            ...this.#lend(checked(start.depths, 'depths'), 1),
            ...this.#lend(checked(start.heights, 'heights'), 2),
            ...this.#lend(checked(start.velocities, 'velocities'), 3),
            ...this.#lend(checked(start.dampings, 'dampings'), 4),
            ...this.#lend(into, 0),
        )));
        this.#take(into);
        return into;
    }

    /**
     * Whether these bytes are a channel file that every other call will take.
     * @param {Uint8Array} file
     * @returns {void}
     * @throws {Refusal} 12 (shorter than 48 bytes, whatever the edition), 13, 1, 12 (not the length for its cells), 14,
     *     2, 31, 32, 33, 34, 35, 36, 38, 4, 26, 5
     */
    check(file) {
        accepted(parts(this.#calls.pathpetal_check(...this.#lend(checked(file, 'file'), 0))));
    }

    /**
     * One step. The file becomes that of the channel after it.
     * @param {Uint8Array} file
     * @param {Uint8Array} poured an amount of water for each cell in um, within 1,000,000, 4 bytes each as `row` makes
     *     them; all zeros to pour nothing
     * @returns {number} how many corrections it took, 1 to 10
     * @throws {Refusal} as by `check`, the poured row's length with 1, and its amounts with 37, between 38 and 4; then
     *     11; then at a stage 8, 4, 7, 6, 7, 9; then 10
     */
    step(file, poured) {
        const count = accepted(parts(this.#calls.pathpetal_step(
            ...this.#lend(checked(file, 'file'), 0),
            ...this.#lend(checked(poured, 'poured'), 1),
        )));
        this.#take(file);
        return count;
    }

    /**
     * One filter pass: smooths what is only a few cells long, and moves no water in or out. The file becomes that of
     * the channel after it.
     * @param {Uint8Array} file
     * @returns {void}
     * @throws {Refusal} as by `check`; then 11; then 8, 4, 7, 6, 7, 9
     */
    filter(file) {
        accepted(parts(this.#calls.pathpetal_filter(...this.#lend(checked(file, 'file'), 0))));
        this.#take(file);
    }

    /**
     * Steps with nothing poured, until the channel is complete, a step is refused, or `most` steps were accepted by
     * this call. The file keeps every accepted step. A refusal is told by the answer and not thrown; bytes that
     * `check` refuses are told by the same number and place and stay as they are.
     * @param {Uint8Array} file
     * @param {number | bigint} [most] steps that this call may take; without it, as many as are wanted. A page that
     *     shows the channel allows a few and calls again
     * @returns {RunAnswer}
     */
    run(file, most = 1_000_000) {
        const answer = parts(this.#calls.pathpetal_run(...this.#lend(checked(file, 'file'), 0), whole(most, 'most')));
        if (answer.count > 0)
            this.#take(file);
        return { complete: answer.number === 0, ...answer, words: reasons[answer.number] };
    }

    /**
     * Places a gauge at a cell, in the first place that is empty. Two may stand at one cell.
     * @param {Uint8Array} file
     * @param {Uint8Array} gauges GAUGES_LENGTH bytes, all zeros while there is none
     * @param {number | bigint} cell counted from 1
     * @returns {number} which of the eight it is, 1 to 8
     * @throws {Refusal} as by `check`; then 12, 14, 20, 21
     */
    placeGauge(file, gauges, cell) {
        const place = accepted(parts(this.#calls.pathpetal_place_gauge(
            ...this.#lend(checked(file, 'file'), 0),
            ...this.#lend(checked(gauges, 'gauges'), GAUGES),
            whole(cell, 'cell'),
        )));
        this.#take(gauges, GAUGES);
        return place;
    }

    /**
     * Feeds each gauge the height at its cell: once after each accepted step, for what is not fed is not counted. The
     * channel stays as it is, and may be complete.
     * @param {Uint8Array} file
     * @param {Uint8Array} gauges
     * @returns {void}
     * @throws {Refusal} as by `check`; then 12, 14, 21, 30: one gauge that cannot be fed refuses it for all
     */
    feedGauges(file, gauges) {
        accepted(parts(this.#calls.pathpetal_feed_gauges(
            ...this.#lend(checked(file, 'file'), 0),
            ...this.#lend(checked(gauges, 'gauges'), GAUGES),
        )));
        this.#take(gauges, GAUGES);
    }

    /**
     * What the gauges have counted.
     * @param {Uint8Array} gauges
     * @returns {Gauge[]} the gauges that are placed, in the order of their places
     * @throws {Refusal} 12, 14
     */
    readGauges(gauges) {
        accepted(parts(this.#calls.pathpetal_read_gauges(
            ...this.#lend(checked(gauges, 'gauges'), GAUGES),
            this.#at + READINGS,
            BigInt(PLACES * TOLD),
        )));
        const view = new DataView(this.#room.buffer, this.#at + READINGS, 8 * PLACES * TOLD);
        const all = Array.from({ length: PLACES }, (_, i) => {
            // at most 2 * 10^13, so that a number holds each
            const [cell, fed, crossings, waves, largestUm, sumUm] =
                Array.from({ length: TOLD }, (_, k) => Number(view.getBigInt64(8 * (TOLD * i + k), true)));
            return { place: i + 1, cell, fed, crossings, waves, largestUm, sumUm };
        });
        return all.filter(({ cell }) => cell > 0);
    }

    /**
     * What a channel file holds, as numbers.
     * @param {Uint8Array} file
     * @returns {Channel}
     * @throws {Refusal} as by `check`
     */
    read(file) {
        this.check(file);
        const view = new DataView(file.buffer, file.byteOffset, file.byteLength);
        const count = (/** @type {number} */ i) => view.getUint32(4 * i, true);
        const cells = count(1);
        const values = (/** @type {number} */ start) =>
            Int32Array.from({ length: cells }, (_, j) => view.getInt32(start + 4 * j, true));
        return {
            cells, widthMm: count(2), stepMs: count(3), accepted: count(4), wanted: count(5), complete: count(4) === count(5),
            depths: values(52), heights: values(52 + 4 * cells), velocities: values(52 + 8 * cells),
            dampings: values(28 + 64 * cells),
        };
    }
}

/**
 * The bytes of a WebAssembly file, from wherever it is.
 * @param {BufferSource | URL | string | Response} source
 * @returns {Promise<BufferSource>}
 */
async function bytesOf(source) {
    if (source instanceof ArrayBuffer || ArrayBuffer.isView(source))
        return source;
    if (typeof Response === 'function' && source instanceof Response) {
        if (!source.ok)
            throw new Error(`${source.url}: ${source.status} ${source.statusText}`);
        return source.arrayBuffer();
    }
    if (String(source).startsWith('file:')) {
        const { readFile } = await import(NODE_FILES);
        return readFile(new URL(String(source)));
    }
    return bytesOf(await fetch(String(source)));
}

/**
 * Loads the WebAssembly file: once for a page; every call after that is at once. Each loaded library has a memory of
 * its own.
 * @param {BufferSource | URL | string | Response | Promise<Response>} [source] its bytes, where it is, or the response
 *     to a fetch of it; without it, pathpetal.wasm beside this module. In node a URL may be of a file
 * @returns {Promise<Pathpetal>}
 */
export async function load(source = new URL('pathpetal.wasm', import.meta.url)) {
    const { instance } = await WebAssembly.instantiate(await bytesOf(await source), {});
    return new Pathpetal(instance);
}
