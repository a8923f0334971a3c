// node answer.mjs WASM CALLS ANSWERS: does each call of the file CALLS by include/pathpetal.mjs over the WebAssembly
// file WASM, and writes what it left to the file ANSWERS. The records are those of record.h. The module always has room
// for as many numbers as are read of gauges: where a call has other room, the file's own function is called here.
import { closeSync, openSync, readFileSync, writeSync } from 'node:fs';
import { load, Refusal } from '../../include/pathpetal.mjs';

const [wasm, calls, answers] = process.argv.slice(2);
const pathpetal = await load(readFileSync(wasm));
const { instance: { exports: bare } } = await WebAssembly.instantiate(readFileSync(wasm), {});
const room = 65536 * bare.memory.grow(1);
const from = readFileSync(calls);
const to = openSync(answers, 'w');
const AROUND = 64, MARK = 0xA5;

let at = 0;
const number = (bytes) => {
    const n = bytes === 8 ? from.readBigUInt64LE(at) : from.readUIntLE(at, bytes);
    at += bytes;
    return n;
};

// A string with marked bytes on both sides, and whether those, or with `all` the string too, are as they were.
function string() {
    const length = number(4);
    const place = new Uint8Array(AROUND + length + AROUND).fill(MARK);
    const before = from.subarray(at, at += length);
    place.set(before, AROUND);
    const bytes = place.subarray(AROUND, AROUND + length);
    const marked = (part) => part.every((byte) => byte === MARK);
    const kept = (all) => marked(place.subarray(0, AROUND)) && marked(place.subarray(AROUND + length)) &&
        (!all || Buffer.compare(before, bytes) === 0);
    return { bytes, kept };
}

const done = (count = 0) => ({ number: 0, stage: 0, place: 0, count });

const does = [
    (n, file, [depths, heights, velocities, dampings]) => {
        const start = { cells: n[0], widthMm: n[1], stepMs: n[2], wanted: n[3], depths, heights, velocities, dampings };
        const made = pathpetal.make(start, file);
        if (made !== file)
            throw new Error('make gave other bytes than it was lent');
        return done();
    },
    (n, file, [poured]) => done(pathpetal.step(file, poured)),
    (n, file) => (pathpetal.filter(file), done()),
    (n, file) => (pathpetal.check(file), done()),
    (n, file) => pathpetal.run(file, n[0]),
    (n, file, [gauges]) => done(pathpetal.placeGauge(file, gauges, n[0])),
    (n, file, [gauges]) => (pathpetal.feedGauges(file, gauges), done()),
    (n, file, [gauges, readings]) => {
        if (readings.length !== 8 * 48)
            return read_into(gauges, readings);
        const view = new DataView(readings.buffer, readings.byteOffset);
        const told = pathpetal.readGauges(gauges);
        readings.fill(0);
        for (const { place, cell, fed, crossings, waves, largestUm, sumUm } of told)
            [cell, fed, crossings, waves, largestUm, sumUm].forEach((value, k) => view.setBigInt64(48 * (place - 1) + 8 * k, BigInt(value), true));
        return done();
    },
];
const changed = [0, 0, 0, 0, 0, 1, 1, 2]; // the string that a call may change: the file, or one of the rows

// The file's own function, with room for any number of readings.
function read_into(gauges, readings) {
    const memory = new Uint8Array(bare.memory.buffer), at = room + 32768;
    memory.set(gauges, room);
    memory.set(readings, at);
    const answer = BigInt.asUintN(64, bare.pathpetal_read_gauges(room, BigInt(gauges.length), at, BigInt(readings.length / 8)));
    readings.set(memory.subarray(at, at + readings.length));
    return { number: Number(answer >> 8n & 255n), stage: Number(answer & 255n), place: Number(answer >> 16n & 511n), count: Number(answer >> 25n) };
}

function answer(kind, n, file, rows) {
    try {
        return does[kind](n, file, rows);
    } catch (refusal) {
        if (refusal instanceof Refusal)
            return refusal;
        throw refusal;
    }
}

while (at < from.length) {
    const kind = number(1);
    number(1);
    const n = [number(8), number(8), number(8), number(8)];
    const strings = [string(), string(), string(), string(), string()], [file, ...rows] = strings;
    const told = answer(kind, n, file.bytes, rows.map((row) => row.bytes));
    const left = strings[changed[kind]].bytes;
    const out = Buffer.alloc(13 + left.length);
    out.writeBigUInt64LE(BigInt(told.count) * 33554432n + BigInt(told.place * 65536 + told.number * 256 + told.stage));
    out.writeUInt32LE(left.length, 8);
    out.set(left, 12);
    out[out.length - 1] = strings.every((string, i) => string.kept(i !== changed[kind])) ? 1 : 0;
    writeSync(to, out);
}
closeSync(to);
