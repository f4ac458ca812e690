// A link that holds everything: the texts, compressed, in its fragment.

const squeezed = async (bytes, by) => new Uint8Array(await new Response(new Blob([bytes]).stream().pipeThrough(by)).arrayBuffer());

/** What a fragment says of these values. */
export async function packed(state) {
  const bytes = await squeezed(new TextEncoder().encode(JSON.stringify(state)), new CompressionStream('deflate-raw'));
  let text = '';
  for (const byte of bytes) text += String.fromCharCode(byte);
  return btoa(text).replaceAll('+', '-').replaceAll('/', '_').replaceAll('=', '');
}

/** The values that a fragment says, or nothing where it says none. */
export async function unpacked(fragment) {
  try {
    const bytes = Uint8Array.from(atob(fragment.replaceAll('-', '+').replaceAll('_', '/')), c => c.charCodeAt(0));
    return JSON.parse(new TextDecoder().decode(await squeezed(bytes, new DecompressionStream('deflate-raw'))));
  } catch {
    return null;
  }
}
