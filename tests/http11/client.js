// Asks for messages to be rewritten by Node's clients as they are. Usage: client.js PORT
const http = require('http');
const port = Number(process.argv[2]);

function message(id, number) {
  const out = [0, 0, 0, 0, id];
  let n = number * 2;
  while (n > 127) { out.push((n & 127) | 128); n = Math.floor(n / 128); }
  out.push(n);
  return Buffer.from(out);
}

// By `http`, with its agent: content in chunks, since no length is set.
function ask(number) {
  return new Promise((resolve, reject) => {
    const request = http.request({ port, method: 'POST', path: '/transcode/2', agent }, (answer) => {
      const pieces = [];
      answer.on('data', (piece) => pieces.push(piece));
      answer.on('end', () => resolve({ reused: request.reusedSocket, status: answer.statusCode, body: Buffer.concat(pieces) }));
    });
    request.on('error', reject);
    request.write(message(1, number).subarray(0, 3));
    request.end(message(1, number).subarray(3));
  });
}

const agent = new http.Agent({ keepAlive: true, maxSockets: 4 });
(async () => {
  let reused = 0;
  for (let number = 0; number < 200; number++) {
    const answer = await ask(number);
    if (answer.status !== 200 || !answer.body.equals(message(2, number))) console.log('problem', number, answer.status);
    if (answer.reused) reused++;
  }
  for (let number = 0; number < 100; number++) {
    const answer = await fetch(`http://127.0.0.1:${port}/transcode/2`, { method: 'POST', body: message(1, number) });
    const body = Buffer.from(await answer.arrayBuffer());
    if (answer.status !== 200 || !body.equals(message(2, number))) console.log('problem by fetch', number, answer.status);
  }
  console.log('reused', reused);
  process.exit(0);
})();
