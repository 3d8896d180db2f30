// How the page has its modules: as base64 of raw deflate.

/** The bytes of a module, out of its text in the page. */
export async function unpacked(text) {
  const packed = Uint8Array.from(atob(text.trim()), (it) => it.charCodeAt(0));
  const stream = new Blob([packed]).stream().pipeThrough(new DecompressionStream("deflate-raw"));
  return new Response(stream).arrayBuffer();
}
