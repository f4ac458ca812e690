// What is looked for on a page by scripts that run in it: names of what can be used, contrast of what is read.

/** The controls that have no name, as a screen reader is told it. */
export const nameless = `[...document.querySelectorAll('button, input, select, textarea, summary, progress')].filter(it => it.offsetParent
  && !(it.labels?.length || it.getAttribute('aria-label') || it.textContent.trim())).map(it => it.outerHTML.slice(0, 80))`;

/** The texts whose contrast is below 4.5 to 1. */
export const faint = `(() => {
  const parts = text => text.match(/[\\d.]+/g).map(Number);
  const light = ([r, g, b]) => [r, g, b].map(it => it / 255).map(it => (it <= 0.03928 ? it / 12.92 : ((it + 0.055) / 1.055) ** 2.4)).reduce((sum, it, i) => sum + it * [0.2126, 0.7152, 0.0722][i], 0);
  const behind = it => { for (; it; it = it.parentElement) { const c = parts(getComputedStyle(it).backgroundColor); if (c.length < 4 || c[3] === 1) return c; } return [255, 255, 255]; };
  const found = [];
  for (const it of document.querySelectorAll('body *')) {
    if (!it.offsetParent || ![...it.childNodes].some(node => node.nodeType === 3 && node.textContent.trim())) continue;
    const [a, b] = [light(parts(getComputedStyle(it).color)), light(behind(it))].sort((x, y) => y - x), ratio = (a + 0.05) / (b + 0.05);
    if (ratio < 4.5) found.push(it.tagName + ' ' + ratio.toFixed(1) + ' ' + it.textContent.slice(0, 40));
  }
  return found;
})()`;

/** How much wider the page is than the screen. */
export const overhang = 'document.documentElement.scrollWidth - innerWidth';
