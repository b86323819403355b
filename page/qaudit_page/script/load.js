'use strict';
// Unpacks what draws the page, and runs it. The policy of the page has the hashes of these texts, and it runs no others.

async function inflated(id) {
  const block = document.getElementById(id), raw = atob(block.textContent);
  block.textContent = '';
  const bytes = new Uint8Array(raw.length);
  for (let i = 0; i < raw.length; i++) bytes[i] = raw.charCodeAt(i);
  const stream = new Blob([bytes]).stream().pipeThrough(new DecompressionStream('deflate'));
  return new Response(stream).text();
}

async function load() {
  if (typeof DecompressionStream === 'undefined')
    throw new Error('this browser is too old and cannot unpack them');
  for (const id of ['library', 'diagrams']) {
    const script = document.createElement('script');
    script.textContent = await inflated(id);
    document.body.append(script);
  }
}

load().catch(error => {
  const trouble = document.getElementById('trouble');
  trouble.textContent = `The diagrams could not be drawn: ${error.message}.`;
  trouble.hidden = false;
});
