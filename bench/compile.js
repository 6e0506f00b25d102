// Compiles a text lazily, five times, and prints how fast: compile.js TEXT.
const fs = require("fs");
const vm = require("vm");
const text = fs.readFileSync(process.argv[2], "utf8");
const rates = [];
for (let k = 0; k < 5; k++) {
    // Another first line each time, since node keeps what it compiled.
    const source = "// " + k + "\n" + text;
    const start = process.hrtime.bigint();
    new vm.Script(source);
    rates.push(Math.round(text.length * 1000 / Number(process.hrtime.bigint() - start)));
}
console.log("node compiles lazily: " + rates.join(", ") + " MB/s");
