// node module.mjs WASM HEADER: the ES module's own promises, beyond the calls that answer.mjs makes. Its last line is
// 'N passed, M failed'.
import assert from 'node:assert/strict';
import { readFileSync } from 'node:fs';
import { createServer } from 'node:http';
import { pathToFileURL } from 'node:url';
import { fileLength, GAUGES_LENGTH, load, Pathpetal, reasons, Refusal, row } from '../../include/pathpetal.mjs';

const [wasm, header] = process.argv.slice(2);
const bytes = readFileSync(wasm);
const pathpetal = await load(bytes);
let passed = 0, failed = 0;

async function test(what, body) {
    try {
        await body();
        passed++;
    } catch (error) {
        failed++;
        console.log(`${what}: ${error.stack}`);
    }
}

const names = ['rule', 'make', 'check', 'step', 'filter', 'run', 'place_gauge', 'feed_gauges', 'read_gauges'].map((name) => `pathpetal_${name}`);
const still = (cells, value) => row(Array(cells).fill(value));
const start = (cells = 8) => ({
    cells, widthMm: 500, stepMs: 20, wanted: 5,
    depths: still(cells, 1000), heights: row(Array.from({ length: cells }, (_, j) => (j === 2 ? 9000 : 0))), velocities: still(cells, 0),
    dampings: still(cells, 0),
});
const refused = (number, stage, place = 0) => (error) =>
    error instanceof Refusal && error instanceof Error && error.name === 'Refusal' && error.number === number && error.stage === stage &&
    error.place === place && error.count === 0 && error.words === reasons[number] && error.message.includes(error.words);

await test('the file exports the nine calls and its memory, and needs nothing', async () => {
    const module = await WebAssembly.compile(bytes);
    assert.deepEqual(WebAssembly.Module.exports(module).map((e) => e.name).sort(), ['memory', ...names].sort());
    assert.deepEqual(WebAssembly.Module.imports(module), []);
});

await test('the words are those of pathpetal.h', () => {
    const text = readFileSync(header, 'utf8');
    const list = text.slice(text.indexOf('enum pathpetal_reason'), text.indexOf('};'));
    const words = { 0: '' };
    for (const [, number, comment] of list.matchAll(/= (\d+),?\s*\/\*(.*?)\*\//gs))
        words[number] = comment.replace(/\s+/g, ' ').trim();
    assert.deepEqual({ ...reasons }, words);
    assert.deepEqual(Object.keys(reasons).map(Number), [0, 1, 2, 4, 5, 6, 7, 8, 9, 10, 11, 12, 13, 14, 15, 16, 20, 21, 26, 30, 31, 32, 33, 34, 35, 36, 37, 38]);
    assert.ok(Object.isFrozen(reasons));
});

await test('the rule is the one that the file follows, and that of which pathpetal.h speaks', () => {
    assert.equal(pathpetal.rule, 3);
    assert.match(readFileSync(header, 'utf8'), new RegExp(`The rule that all calls of the library that is linked follow: ${pathpetal.rule},`));
    const exports = { memory: new WebAssembly.Memory({ initial: 1 }), ...Object.fromEntries(names.map((name) => [name, () => 7n])) };
    assert.equal(new Pathpetal({ exports }).rule, 7);
});

await test('the parts of an answer come back, and a message names the cell or the face', () => {
    let answer = 0n;
    const call = () => BigInt.asIntN(64, answer); // as WebAssembly gives it
    const answering = new Pathpetal({
        exports: { memory: new WebAssembly.Memory({ initial: 1 }), ...Object.fromEntries(names.map((name) => [name, call])) },
    });
    const packed = (number, stage, place, count) => BigInt(count) * 33554432n + BigInt(place * 65536 + number * 256 + stage);
    const file = new Uint8Array(0);
    for (const number of [0, 4, 5, 16, 31, 35, 37, 38])
        for (const stage of [0, 1, 10])
            for (const place of [0, 1, 255, 256])
                for (const count of [0, 1, 999_999, 1_000_000]) {
                    answer = packed(number, stage, place, count);
                    const words = reasons[number];
                    assert.deepEqual(answering.run(new Uint8Array(1)), { complete: number === 0, number, stage, place, count, words });
                }
    for (const [number, stage, place, message] of [
        [31, 0, 40, 'refused 31 in cell 40: a depth is not 1 to 20,000 mm'],
        [35, 0, 7, 'refused 35 at face 7: a flux is not within 10^15 um2/s'],
        [37, 0, 256, 'refused 37 in cell 256: a poured amount is not within 1,000,000 um'],
        [38, 0, 8, 'refused 38 in cell 8: a damping is not 0 to 10,000 thousandths per second'],
        [4, 2, 3, 'refused 4 in cell 3 at correction 2: a cell has less than 1 mm of water: it fell dry, or nearly so'],
        [7, 10, 0, 'refused 7 at correction 10: the water became faster than 20 m/s'],
        [13, 0, 0, 'refused 13: not a channel file of edition 2'],
        [20, 0, 0, 'refused 20: eight gauges are placed already'],
        [21, 0, 0, "refused 21: a gauge's cell is not in the channel"],
        [30, 0, 0, 'refused 30: a gauge holds 1,000,000 heights already'],
    ]) {
        answer = packed(number, stage, place, 0);
        assert.throws(() => answering.check(file), refused(number, stage, place));
        assert.throws(() => answering.step(file, file), { message, place });
        for (const gauge of [() => answering.placeGauge(file, file, 1), () => answering.feedGauges(file, file), () => answering.readGauges(file)])
            assert.throws(gauge, { message, place });
    }
    for (const place of [1, 8]) {
        answer = packed(0, 0, 0, place);
        assert.equal(answering.placeGauge(file, file, 1), place);
    }
});

await test('a file that lacks a call is not that of Pathpetal', () => {
    const exports = { memory: new WebAssembly.Memory({ initial: 1 }), ...Object.fromEntries(names.map((name) => [name, () => 0n])) };
    assert.ok(new Pathpetal({ exports }));
    for (const name of Object.keys(exports))
        assert.throws(() => new Pathpetal({ exports: { ...exports, [name]: undefined } }), { name: 'TypeError', message: new RegExp(`it has no ${name}$`) });
});

await test('load takes bytes, a buffer, a URL, its text, a response and the promise of one', async () => {
    const server = createServer((request, response) => {
        response.statusCode = request.url === '/pathpetal.wasm' ? 200 : 404;
        response.end(request.url === '/pathpetal.wasm' ? bytes : '');
    });
    await new Promise((done) => server.listen(0, '127.0.0.1', done));
    const url = `http://127.0.0.1:${server.address().port}/pathpetal.wasm`;
    const same = async (source) => assert.deepEqual((await load(source)).make(start()), pathpetal.make(start()));
    try {
        await same(new Uint8Array(bytes));
        await same(new Uint8Array(bytes).buffer);
        await same(pathToFileURL(wasm));
        await same(String(pathToFileURL(wasm)));
        await same(new URL(url));
        await same(url);
        await same(await fetch(url));
        await same(fetch(url));
        await same(new Response(new Uint8Array(bytes)));
        await assert.rejects(load(`${url}.not`), /404/);
        await assert.rejects(load(new Uint8Array([0, 97, 115, 109, 1, 0, 0, 0])), TypeError);
    } finally {
        server.close();
        server.closeAllConnections();
    }
});

await test('make, read, step, run and filter', () => {
    const file = pathpetal.make(start());
    assert.equal(file.length, fileLength(8));
    assert.deepEqual({ ...pathpetal.read(file) }, {
        cells: 8, widthMm: 500, stepMs: 20, accepted: 0, wanted: 5, complete: false,
        depths: Int32Array.from(Array(8).fill(1000)), heights: Int32Array.of(0, 0, 9000, 0, 0, 0, 0, 0), velocities: new Int32Array(8),
        dampings: new Int32Array(8),
    });
    assert.equal(pathpetal.step(file, still(8, 0)), 2);
    assert.equal(pathpetal.read(file).accepted, 1);
    assert.deepEqual(pathpetal.run(file, 3), { complete: false, number: 16, stage: 0, place: 0, count: 3, words: reasons[16] });
    assert.equal(pathpetal.filter(file), undefined);
    assert.deepEqual(pathpetal.run(file), { complete: true, number: 0, stage: 0, place: 0, count: 1, words: '' });
    assert.equal(pathpetal.read(file).complete, true);
    assert.throws(() => pathpetal.step(file, still(8, 0)), refused(11, 0));
    assert.throws(() => pathpetal.filter(file), refused(11, 0));
    assert.deepEqual(pathpetal.run(file), { complete: true, number: 0, stage: 0, place: 0, count: 0, words: '' });
});

await test('the first three steps, one by one and in a run', () => {
    const slope = {
        cells: 16, widthMm: 500, stepMs: 50, wanted: 3,
        depths: still(16, 1000), heights: row(Array.from({ length: 16 }, (_, j) => 16000 - 1000 * j)), velocities: still(16, 0),
        dampings: still(16, 0),
    };
    const file = pathpetal.make(slope), ran = pathpetal.make(slope);
    for (const first of [15971, 15884, 15742]) {
        assert.equal(pathpetal.step(file, still(16, 0)), 1);
        assert.equal(pathpetal.read(file).heights[0], first);
    }
    assert.equal(pathpetal.run(ran).count, 3);
    assert.deepEqual(ran, file);
});

await test('a half goes to the even number: a filter pass of 128 in cell 8', () => {
    for (const sign of [1, -1]) {
        const heights = row(Array.from({ length: 16 }, (_, j) => (j === 7 ? sign * 128 : 0)));
        const file = pathpetal.make({ ...start(16), heights });
        pathpetal.filter(file);
        const due = [0, 0, 0, 0, 4, -14, 28, 92, 28, -14, 4, 0, 0, 0, 0, 0].map((n) => (n === 0 ? 0 : sign * n));
        assert.deepEqual([...pathpetal.read(file).heights], due);
    }
});

// bytes with one number changed, and a start with one cell of a row changed
const changed = (bytes, at, value, big = false) => {
    const view = new DataView(bytes.buffer, bytes.byteOffset);
    big ? view.setBigInt64(at, BigInt(value), true) : view.setInt32(at, value, true);
    return bytes;
};
const with_row = (name, cell, value) => ({ ...start(), [name]: changed(start()[name].slice(), 4 * (cell - 1), value) });

await test('what is refused for a value names its cell or face', () => {
    assert.throws(() => pathpetal.make(with_row('depths', 6, 0)), refused(31, 0, 6));
    assert.throws(() => pathpetal.make(with_row('heights', 8, 20_000_001)), refused(32, 0, 8));
    assert.throws(() => pathpetal.make(with_row('velocities', 1, -20_000_001)), refused(33, 0, 1));
    assert.throws(() => pathpetal.make(with_row('heights', 5, -999_001)), refused(4, 0, 5));
    assert.throws(() => pathpetal.make({ ...with_row('depths', 6, 0), heights: still(8, 20_000_001) }), refused(31, 0, 6));
    assert.throws(() => pathpetal.step(pathpetal.make(start()), row([0, 0, 0, 0, 0, 0, 0, -1_000_001])), refused(37, 0, 8));
    const flux = 52 + 16 * 8, acceleration = 28 + 40 * 8;
    for (const [at, value, number, place] of [[flux + 8 * 6, 10n ** 15n + 1n, 35, 7], [flux + 8 * 8, -(10n ** 15n) - 1n, 35, 2], [acceleration + 8 * 23, 10n ** 11n + 1n, 36, 8]]) {
        const file = changed(pathpetal.make(start()), at, value, true), before = file.slice();
        for (const call of [() => pathpetal.check(file), () => pathpetal.read(file), () => pathpetal.filter(file)])
            assert.throws(call, refused(number, 0, place));
        assert.deepEqual(pathpetal.run(file), { complete: false, number, stage: 0, place, count: 0, words: reasons[number] });
        assert.deepEqual(file, before);
    }
    // 1 mm of water, and more than that flows out of cells 3 and 6
    const dry = pathpetal.make({ ...start(), widthMm: 1000, stepMs: 1, depths: still(8, 2), heights: row([0, 0, -1000, 0, 0, -1000, 0, 0]) });
    for (let level = 0; level < 3; level++)
        for (const face of [3, 6])
            changed(dry, flux + 8 * (7 * level + face - 1), 10 ** 9, true);
    assert.throws(() => pathpetal.step(dry, still(8, 0)), refused(4, 0, 3));
    assert.deepEqual(pathpetal.run(dry), { complete: false, number: 4, stage: 0, place: 3, count: 0, words: reasons[4] });
});

// the newest accelerations of a file of 8 cells
const accelerations = (file) => Array.from({ length: 8 }, (_, j) => Number(new DataView(file.buffer, file.byteOffset).getBigInt64(28 + 40 * 8 + 8 * j, true)));

await test('what the damping takes from F is rounded by itself, a half to the even number', () => {
    const slope = { ...start(), widthMm: 1000, heights: row([12, 24, 36, 48, 60, 72, 84, 96]) };
    for (const [velocity, damping, taken] of [[1, 0, 0], [1, 500, 0], [3, 500, 2], [-1, 500, 0], [-3, 500, -2], [1, 501, 1], [1, 10_000, 10],
        [20_000_000, 10_000, 200_000_000], [-20_000_000, 10_000, -200_000_000]]) {
        const file = pathpetal.make({ ...slope, velocities: still(8, velocity), dampings: still(8, damping) });
        assert.deepEqual(accelerations(file).slice(2, 6), Array(4).fill(-118 - taken));
    }
    const alone = { ...start(), widthMm: 1000, heights: row([0, 0, 1, 0, 0, 0, 0, 0]), velocities: row([0, 0, 0, 3, 0, 0, 0, 0]) };
    assert.equal(accelerations(pathpetal.make({ ...alone, dampings: still(8, 150) }))[3], 7); // 6.54 and 0.45
});

await test('damping slows the water down, and no call changes it', () => {
    const dampings = row([0, 0, 0, 0, 0, 500, 2000, 10_000]), bare = pathpetal.make({ ...start(), wanted: 500 });
    const reeds = pathpetal.make({ ...start(), wanted: 500, dampings });
    for (const file of [bare, reeds]) {
        pathpetal.step(file, still(8, 0));
        pathpetal.filter(file);
        assert.equal(pathpetal.run(file).complete, true);
        assert.equal(pathpetal.read(file).heights.reduce((sum, um) => sum + um), 9000);
    }
    assert.deepEqual([...pathpetal.read(bare).dampings], Array(8).fill(0));
    assert.deepEqual([...pathpetal.read(reeds).dampings], [0, 0, 0, 0, 0, 500, 2000, 10_000]);
    const fastest = (file) => Math.max(...pathpetal.read(file).velocities.map(Math.abs));
    assert.ok(fastest(reeds) < fastest(bare) / 2);
});

await test('a damping out of its range is refused by every call that takes a channel, with its lowest cell', () => {
    const gauges = new Uint8Array(GAUGES_LENGTH), end = 28 + 64 * 8;
    for (const damping of [0, 10_000])
        pathpetal.check(pathpetal.make(with_row('dampings', 5, damping)));
    for (const damping of [-1, 10_001, -(2 ** 31), 2 ** 31 - 1])
        for (const cell of [1, 5, 8]) {
            assert.throws(() => pathpetal.make(with_row('dampings', cell, damping)), refused(38, 0, cell));
            assert.throws(() => pathpetal.make({ ...with_row('dampings', cell, damping), heights: still(8, -999_001) }), refused(38, 0, cell)); // before 4
            assert.throws(() => pathpetal.make({ ...with_row('velocities', 7, 20_000_001), dampings: still(8, damping) }), refused(33, 0, 7));
            const file = changed(changed(pathpetal.make(start()), end + 4 * 7, -1), end + 4 * (cell - 1), damping), before = file.slice();
            for (const call of [() => pathpetal.check(file), () => pathpetal.read(file), () => pathpetal.step(file, still(8, 1_000_001)), () => pathpetal.filter(file),
                () => pathpetal.placeGauge(file, gauges, 1), () => pathpetal.feedGauges(file, gauges)])
                assert.throws(call, refused(38, 0, cell));
            assert.deepEqual(pathpetal.run(file), { complete: false, number: 38, stage: 0, place: cell, count: 0, words: reasons[38] });
            assert.deepEqual(file, before);
        }
    assert.deepEqual(gauges, new Uint8Array(GAUGES_LENGTH));
});

await test('the file is of edition 2: its length, its edition and its first bytes', () => {
    assert.deepEqual([8, 9, 256].map(fileLength), [572, 640, 17_436]);
    const file = pathpetal.make(start()), every = (bytes) =>
        [() => pathpetal.check(bytes), () => pathpetal.step(bytes, still(8, 0)), () => pathpetal.filter(bytes), () => pathpetal.feedGauges(bytes, new Uint8Array(GAUGES_LENGTH))];
    assert.deepEqual([...new Uint32Array(file.slice(0, 52).buffer)], [2, 8, 500, 20, 0, 5, 52, 84, 116, 148, 180, 348, 540]);
    const early = Uint8Array.of(...file.subarray(0, 48), ...file.subarray(52, 540)); // edition 1: no last offset, no dampings
    for (let i = 6; i < 12; i++)
        changed(early, 4 * i, [48, 80, 112, 144, 176, 344][i - 6]);
    early[0] = 1;
    assert.equal(early.length, 536);
    for (const [bytes, number] of [
        [early, 13], [changed(early.slice(), 0, 2), 12], [changed(file.slice(), 0, 1), 13], [changed(file.slice(), 48, 544), 14], [changed(file.slice(), 44, 344), 14],
        [file.slice(0, 571), 12], [Uint8Array.of(...file, 0), 12], [file.slice(0, 47), 12], [file.slice(0, 50), 12], [changed(file.slice(0, 50), 4, 7), 1],
        [changed(file.slice(0, 47), 4, 7), 12], [changed(file.slice(0, 50), 0, 1), 13],
    ])
        for (const call of every(bytes))
            assert.throws(call, refused(number, 0));
});

await test('the rows of the longest channel come to the library whole, each in its own place', () => {
    const ramp = (from) => row(Array.from({ length: 256 }, (_, j) => from + j));
    const rows = { depths: ramp(1000), heights: ramp(-500), velocities: ramp(200), dampings: ramp(9744) };
    const file = pathpetal.make({ ...start(256), widthMm: 5000, ...rows }), { depths, heights, velocities, dampings } = pathpetal.read(file);
    for (const [told, given] of [[depths, rows.depths], [heights, rows.heights], [velocities, rows.velocities], [dampings, rows.dampings]])
        assert.deepEqual(new Uint8Array(told.buffer), given);
    assert.throws(() => pathpetal.make({ ...start(256), widthMm: 5000, ...rows, dampings: ramp(9746) }), refused(38, 0, 256));
});

await test('a time step that is too long for the deepest cell is refused by every call that takes a channel', () => {
    const flat = (widthMm, stepMs, ...depths) => ({ ...start(), widthMm, stepMs, depths: row(depths), heights: still(8, 0) });
    const of = (depth, cell, other) => Array.from({ length: 8 }, (_, j) => (j === cell ? other : depth));
    const file = pathpetal.make(flat(20, 22, ...of(500))), gauges = new Uint8Array(GAUGES_LENGTH);
    assert.throws(() => pathpetal.make(flat(20, 23, ...of(500))), refused(26, 0));
    assert.throws(() => pathpetal.make(flat(19, 22, ...of(500))), refused(26, 0));
    assert.equal(pathpetal.make(flat(327, 100, ...of(6540))).length, fileLength(8)); // equal products
    for (const cell of [0, 3, 7])
        assert.throws(() => pathpetal.make(flat(327, 100, ...of(6540, cell, 6541))), refused(26, 0));
    assert.throws(() => pathpetal.make(flat(20, 23, ...of(500, 4, 100))), refused(26, 0)); // before 5, of cell 5
    assert.throws(() => pathpetal.make(flat(20, 20, ...of(500, 4, 100))), refused(5, 0, 5));
    assert.throws(() => pathpetal.make({ ...flat(20, 23, ...of(500)), heights: still(8, -499_001) }), refused(4, 0, 1));
    file[12] = 23;
    const before = file.slice();
    for (const call of [() => pathpetal.check(file), () => pathpetal.read(file), () => pathpetal.step(file, still(8, 0)), () => pathpetal.filter(file),
        () => pathpetal.placeGauge(file, gauges, 1), () => pathpetal.feedGauges(file, gauges)])
        assert.throws(call, refused(26, 0));
    assert.throws(() => pathpetal.step(file, still(8, 1_000_001)), refused(37, 0, 1));
    assert.deepEqual(pathpetal.run(file), { complete: false, number: 26, stage: 0, place: 0, count: 0, words: reasons[26] });
    assert.deepEqual(file, before);
    assert.deepEqual(gauges, new Uint8Array(GAUGES_LENGTH));
});

// a file of start() whose cell has a height, and gauges fed one height after another at a cell
const height = (file, cell, um) => new DataView(file.buffer, file.byteOffset).setInt32(52 + 4 * 8 + 4 * (cell - 1), um, true);
const feed = (file, gauges, cell, heights) => {
    for (const um of heights) {
        height(file, cell, um);
        pathpetal.feedGauges(file, gauges);
    }
};

await test('gauges are placed, fed and read', () => {
    const file = pathpetal.make(start()), gauges = new Uint8Array(GAUGES_LENGTH);
    assert.equal(GAUGES_LENGTH, 512);
    assert.deepEqual(pathpetal.readGauges(gauges), []);
    assert.equal(pathpetal.feedGauges(file, gauges), undefined);
    assert.deepEqual(gauges, new Uint8Array(512));
    assert.equal(pathpetal.placeGauge(file, gauges, 3), 1);
    assert.deepEqual(pathpetal.readGauges(gauges), [{ place: 1, cell: 3, fed: 0, crossings: 0, waves: 0, largestUm: 0, sumUm: 0 }]);
    feed(file, gauges, 3, [-1, 0, 5, -3]);
    assert.equal(pathpetal.placeGauge(file, gauges, 3n), 2);
    feed(file, gauges, 3, [-1, 2, 7, -2, 0, 3]);
    assert.equal(pathpetal.placeGauge(file, gauges, 8), 3);
    assert.deepEqual(pathpetal.readGauges(gauges), [
        { place: 1, cell: 3, fed: 10, crossings: 3, waves: 2, largestUm: 9, sumUm: 17 },
        { place: 2, cell: 3, fed: 6, crossings: 2, waves: 1, largestUm: 9, sumUm: 9 },
        { place: 3, cell: 8, fed: 0, crossings: 0, waves: 0, largestUm: 0, sumUm: 0 },
    ]);
    gauges.fill(0, 64, 128);
    assert.deepEqual(pathpetal.readGauges(gauges).map(({ place, cell }) => [place, cell]), [[1, 3], [3, 8]]);
    assert.equal(pathpetal.placeGauge(file, gauges, 1), 2);
});

await test('gauges beside a run, as the page of the module says', () => {
    const file = pathpetal.make(start()), gauges = new Uint8Array(GAUGES_LENGTH);
    pathpetal.placeGauge(file, gauges, 3);
    while (pathpetal.run(file, 1).count === 1)
        pathpetal.feedGauges(file, gauges);
    assert.equal(pathpetal.read(file).complete, true);
    assert.equal(pathpetal.readGauges(gauges)[0].fed, 5);
    const before = file.slice();
    pathpetal.feedGauges(file, gauges);
    assert.deepEqual(file, before);
    assert.equal(pathpetal.readGauges(gauges)[0].fed, 6);
});

await test('the largest sum of a gauge is read exactly', () => {
    const gauges = new Uint8Array(GAUGES_LENGTH), view = new DataView(gauges.buffer);
    [256, 1_000_000, 20_000_000, 500_000, 20_000_000, -19_999_000, 39_999_000, 19_999_460_001_000].forEach((n, i) => view.setBigInt64(448 + 8 * i, BigInt(n), true));
    assert.deepEqual(pathpetal.readGauges(gauges),
        [{ place: 8, cell: 256, fed: 1_000_000, crossings: 500_000, waves: 499_999, largestUm: 39_999_000, sumUm: 19_999_460_001_000 }]);
});

await test('what gauges are refused for, with every byte as it was', () => {
    const file = pathpetal.make(start()), gauges = new Uint8Array(GAUGES_LENGTH);
    const unchanged = (number, ...calls) => {
        const was = [file.slice(), gauges.slice()];
        for (const call of calls)
            assert.throws(call, refused(number, 0));
        assert.deepEqual([file, gauges], was);
    };
    for (const cell of [0, 9, 257, 2 ** 32 + 1, 2n ** 64n - 1n])
        unchanged(21, () => pathpetal.placeGauge(file, gauges, cell));
    for (const wrong of [new Uint8Array(0), new Uint8Array(511), new Uint8Array(513), new Uint8Array(3_000_000)])
        unchanged(12, () => pathpetal.placeGauge(file, wrong, 1), () => pathpetal.feedGauges(file, wrong), () => pathpetal.readGauges(wrong));
    for (let place = 1; place <= 8; place++)
        assert.equal(pathpetal.placeGauge(file, gauges, place), place);
    unchanged(20, () => pathpetal.placeGauge(file, gauges, 1), () => pathpetal.placeGauge(file, gauges, 9));
    const numbers = new DataView(gauges.buffer);
    numbers.setBigInt64(8, 1_000_000n, true);
    unchanged(30, () => pathpetal.feedGauges(file, gauges));
    numbers.setBigInt64(64 * 7, 9n, true);
    unchanged(21, () => pathpetal.feedGauges(file, gauges));
    numbers.setBigInt64(64 * 7, 257n, true);
    unchanged(14, () => pathpetal.placeGauge(file, gauges, 1), () => pathpetal.feedGauges(file, gauges), () => pathpetal.readGauges(gauges));
    file[16] = 200;
    unchanged(2, () => pathpetal.placeGauge(file, gauges, 1), () => pathpetal.feedGauges(file, gauges));
});

await test('gauges of a view into a larger buffer', () => {
    const whole = new Uint8Array(3 + GAUGES_LENGTH + 5).fill(7), gauges = whole.subarray(3, 3 + GAUGES_LENGTH).fill(0);
    const file = pathpetal.make(start());
    pathpetal.placeGauge(file, gauges, 3);
    feed(file, gauges, 3, [-1, 4, -2, 3]);
    assert.deepEqual(pathpetal.readGauges(gauges), [{ place: 1, cell: 3, fed: 4, crossings: 2, waves: 1, largestUm: 6, sumUm: 6 }]);
    assert.deepEqual([...whole.subarray(0, 3), ...whole.subarray(3 + GAUGES_LENGTH)], Array(8).fill(7));
});

await test('bytes of a view into a larger buffer', () => {
    const whole = new Uint8Array(3 + fileLength(9) + 5).fill(7), file = whole.subarray(3, 3 + fileLength(9));
    assert.equal(pathpetal.make(start(9), file), file);
    assert.equal(pathpetal.step(file, still(9, 0)), pathpetal.step(pathpetal.make(start(9)), still(9, 0)));
    assert.deepEqual([...whole.subarray(0, 3), ...whole.subarray(3 + fileLength(9))], Array(8).fill(7));
});

await test('a refused call leaves every byte', () => {
    const file = pathpetal.make(start());
    file[16] = 200;
    const before = file.slice();
    for (const call of [() => pathpetal.check(file), () => pathpetal.read(file), () => pathpetal.step(file, still(8, 0)), () => pathpetal.filter(file)])
        assert.throws(call, refused(2, 0));
    assert.deepEqual(pathpetal.run(file), { complete: false, number: 2, stage: 0, place: 0, count: 0, words: reasons[2] });
    assert.throws(() => pathpetal.make({ ...start(), wanted: 0 }, file), refused(2, 0));
    assert.throws(() => pathpetal.make(start(), file.subarray(1)), refused(15, 0));
    assert.deepEqual(file, before);
});

await test('strings far longer than any that a call takes', () => {
    const long = new Uint8Array(3_000_000);
    long.set(pathpetal.make(start(256)));
    assert.throws(() => pathpetal.check(long), refused(12, 0));
    assert.throws(() => pathpetal.step(long, still(256, 0)), refused(12, 0));
    assert.throws(() => pathpetal.step(long.slice(0, fileLength(256)), long), refused(1, 0));
    for (const name of ['depths', 'heights', 'velocities', 'dampings'])
        for (const wrong of [long, long.subarray(0, 1025), long.subarray(0, 1023), new Uint8Array(0)])
            assert.throws(() => pathpetal.make({ ...start(256), [name]: wrong }), refused(1, 0));
    assert.throws(() => pathpetal.make(start(256), long), refused(15, 0));
    assert.throws(() => pathpetal.check(new Uint8Array(0)), refused(12, 0));
});

await test('counts of any size are refused by their number', () => {
    for (const cells of [0, 7, 257, 2 ** 32 + 8, 2n ** 64n - 1n])
        assert.throws(() => pathpetal.make({ ...start(), cells }), refused(1, 0));
    for (const count of ['widthMm', 'stepMs', 'wanted'])
        for (const value of [0, 2 ** 53 - 1, 2n ** 64n - 1n])
            assert.throws(() => pathpetal.make({ ...start(), [count]: value }), refused(2, 0));
});

await test('what C could not be given is an error of the language', () => {
    const file = pathpetal.make(start()), gauges = new Uint8Array(GAUGES_LENGTH);
    for (const cells of [-1, 8.5, NaN, Infinity, '8', undefined, -1n, 2n ** 64n])
        assert.throws(() => pathpetal.make({ ...start(), cells }), RangeError);
    for (const most of [-1, 0.5, NaN, 2n ** 64n])
        assert.throws(() => pathpetal.run(file, most), RangeError);
    for (const no of [null, undefined, [1, 2], new Int32Array(143), file.buffer, 'file'])
        for (const call of [() => pathpetal.check(no), () => pathpetal.step(no, still(8, 0)), () => pathpetal.step(file, no), () => pathpetal.filter(no), () => pathpetal.run(no),
            () => pathpetal.make({ ...start(), heights: no }), () => pathpetal.make({ ...start(), dampings: no }), () => pathpetal.placeGauge(no, gauges, 1), () => pathpetal.placeGauge(file, no, 1),
            () => pathpetal.feedGauges(no, gauges), () => pathpetal.feedGauges(file, no), () => pathpetal.readGauges(no)])
            assert.throws(call, TypeError);
    for (const cell of [-1, 0.5, NaN, '1', undefined, 2n ** 64n])
        assert.throws(() => pathpetal.placeGauge(file, gauges, cell), RangeError);
    for (const value of [0.5, NaN, 2 ** 31, -(2 ** 31) - 1, '1'])
        assert.throws(() => row([0, value]), RangeError);
    assert.deepEqual([...row([-(2 ** 31), 2 ** 31 - 1, -1])], [0, 0, 0, 128, 255, 255, 255, 127, 255, 255, 255, 255]);
});

await test('two loaded libraries and many calls keep nothing between them', async () => {
    const other = await load(bytes), a = pathpetal.make(start(64)), b = other.make(start(64));
    for (let i = 0; i < 5; i++) {
        pathpetal.step(a, still(64, 10));
        pathpetal.check(pathpetal.make(start(200)));
        other.step(b, still(64, 10));
    }
    assert.deepEqual(a, b);
});

console.log(`${passed} passed, ${failed} failed`);
process.exitCode = failed === 0 ? 0 : 1;
