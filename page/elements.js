// Elements of the page, found and made.

export const $ = id => document.getElementById(id);

/** A new element with these properties or attributes, and what stands in it. */
export function made(name, attributes = {}, ...children) {
  const element = document.createElement(name);
  for (const [key, value] of Object.entries(attributes)) key in element ? (element[key] = value) : element.setAttribute(key, value);
  element.append(...children);
  return element;
}

/** A button of this text. */
export const button = (text, onclick, className = '') => made('button', { type: 'button', textContent: text, onclick, className });

/** What a command told, if it told something. */
export const told = answer => (answer?.told ? [made('p', { className: 'told', textContent: answer.told })] : []);
