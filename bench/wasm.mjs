// node wasm.mjs times WASM TIMES FOLDER: the WebAssembly file on the channels that bench/archive.c wrote to FOLDER, and
// one table of its times beside those in the file TIMES.
// node wasm.mjs stack WASM BYTES: the bytes of stack that each call uses at 256 cells, of the BYTES that the file has.
import { readFileSync } from 'node:fs';
import { load, row } from '../include/pathpetal.mjs';

const ROUNDS = 15;
const [what, wasm, ...rest] = process.argv.slice(2);

function seconds(work) {
    const start = performance.now();
    work();
    return (performance.now() - start) / 1000;
}

// The best of some rounds of the same steps on the same file, which must end as the archive's did.
function best(pathpetal, call, steps, before, after) {
    let least = Infinity;
    for (let round = 0; round < ROUNDS; round++) {
        const file = new Uint8Array(before), nothing = new Uint8Array((file.length - 28) / 17);
        const took = seconds(() => {
            if (call === 'run')
                pathpetal.run(file, steps);
            else
                for (let i = 0; i < steps; i++)
                    pathpetal.step(file, nothing);
        });
        if (Buffer.compare(file, after) !== 0)
            throw new Error('the WebAssembly file and the archive differ');
        least = Math.min(least, took);
    }
    return least;
}

async function times(list, folder) {
    const pathpetal = await load(readFileSync(wasm));
    const name = process.arch === 'arm64' ? 'Arm archive' : 'x86-64 archive';
    const column = (text) => text.padStart(27), both = 'steps/s'.padStart(12) + 'ns/cell·stage'.padStart(15);
    const names = [name, 'second program', 'WebAssembly in node'].map(column).join('');
    console.log(`                      ${names}    ratio to second program`);
    console.log(`    N  damping  call  ${both.repeat(3)}    archive  WebAssembly  stages/step`);
    for (const line of readFileSync(list, 'utf8').trim().split('\n')) {
        const [cells, damping, call, ...numbers] = line.split(' ');
        const [steps, stages, archive, second] = numbers.map(Number);
        const [before, after] = ['before', 'after'].map((when) => readFileSync(`${folder}/${cells}-${damping}.${when}`));
        const took = [archive, second, best(pathpetal, call, steps, before, after)];
        const shown = took.map((s) => (steps / s).toFixed(0).padStart(12) + (1e9 * s / (stages * cells)).toFixed(1).padStart(15));
        console.log(`${cells.padStart(5)}  ${damping.padStart(7)}  ${call.padEnd(6)}${shown.join('')}` +
            `${(took[0] / took[1]).toFixed(2).padStart(11)}${(took[2] / took[1]).toFixed(2).padStart(13)}` +
            `${(stages / steps).toFixed(2).padStart(13)}`);
    }
}

// The stack stands first in memory and grows down: it is painted before a call, and what is still painted after it was
// not used.
async function stack(bytes) {
    const { instance } = await WebAssembly.instantiate(readFileSync(wasm), {});
    const { memory, ...calls } = instance.exports;
    const at = 65536 * memory.grow(1), room = new Uint8Array(memory.buffer), painted = room.subarray(0, bytes);
    const cells = 256, length = 28 + 68 * cells, lent = (place, size) => [at + place, BigInt(size)];
    const file = lent(0, length), heights = lent(20480, 4 * cells), depths = lent(24576, 4 * cells);
    room.set(row(Array(cells).fill(1000)), at + 24576);
    const make = () => calls.pathpetal_make(256n, 500n, 20n, 9n, ...depths, ...heights, ...heights, ...heights, ...file);
    const work = {
        make, check: () => calls.pathpetal_check(...file), step: () => calls.pathpetal_step(...file, ...heights),
        filter: () => calls.pathpetal_filter(...file), run: () => calls.pathpetal_run(...file, 3n),
    };
    const used = Object.entries(work).map(([name, call]) => {
        make();
        painted.fill(0xA5);
        const number = Number(call() >> 8n) % 256;
        if (number !== 0 && number !== 16)
            throw new Error(`${name} is refused ${number}`);
        return `${name} ${bytes - painted.findIndex((byte) => byte !== 0xA5)}`;
    });
    console.log(`wasm32 ${used.join(' ')}`);
}

await (what === 'times' ? times(...rest) : stack(Number(rest[0])));
