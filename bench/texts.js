// Compiles each body as a script (`script`), or reads it as JSON (`json`): texts.js WHAT FILE. The file has
// bodies, each after its length in a line. What begins a script and doesn't end one is read all the same.
const { readFileSync } = require('fs');
const { Script } = require('vm');

const [what, file] = process.argv.slice(2);
const bytes = readFileSync(file);
let wrong = 0;
for (let at = 0; at < bytes.length; ) {
  const line = bytes.indexOf(10, at);
  const start = line + 1;
  const end = start + Number(bytes.toString('latin1', at, line));
  const text = bytes.toString('utf8', start, end);
  try {
    if (what === 'script') new Script(text);
    else JSON.parse(text);
  } catch (error) {
    wrong++;
  }
  at = end;
}
