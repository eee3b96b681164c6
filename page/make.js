// Small helpers over the document. Whatever was typed by somebody comes in as a text node, never as HTML.

/** An element with its properties, and children that are elements or texts. */
export function make(tag, properties = {}, ...children) {
  const element = document.createElement(tag);
  for (const [name, value] of Object.entries(properties)) {
    if (name.startsWith('on')) element.addEventListener(name.slice(2), value);
    else if (name === 'class') element.className = value;
    else if (name in element && typeof value !== 'string') element[name] = value;
    else element.setAttribute(name, value);
  }
  element.append(...children.filter((child) => child !== null && child !== undefined && child !== false));
  return element;
}

/** @returns {any} the element with this id, whatever kind it is of */
export function byId(id) {
  return document.getElementById(id);
}

/** @returns {any} the element that has the keys */
export function focused() {
  return document.activeElement;
}

/** Sets a text only where it is another, so that nothing is read aloud twice. */
export function setText(element, text) {
  if (element.textContent !== text) element.textContent = text;
}

/** Makes `wanted` the children of a list, and leaves those in their place that stand in it already: who presses one of
 * them meanwhile still presses it. */
export function arrange(list, wanted) {
  const kept = new Set(wanted);
  for (const child of [...list.children]) {
    if (!kept.has(child)) child.remove();
  }
  wanted.forEach((child, place) => {
    if (list.children[place] !== child) list.insertBefore(child, list.children[place] || null);
  });
}

/** Says a text to who listens, once the texts before it were heard. */
export function say(text) {
  const says = byId('says');
  says.append(make('p', {}, text));
  while (says.childElementCount > 4) says.firstElementChild.remove();
}

export function read(store, key) {
  try {
    return store().getItem(key);
  } catch (refused) {
    return null;
  }
}

export function write(store, key, value) {
  try {
    if (value === null) store().removeItem(key);
    else store().setItem(key, value);
    return true;
  } catch (refused) {
    return false;
  }
}

/** Copies a text; false where the browser forbids it. */
export async function copy(text) {
  try {
    await navigator.clipboard.writeText(text);
    return true;
  } catch (refused) {
    const area = make('textarea', { class: 'unseen', readOnly: true });
    area.value = text;
    (document.querySelector('dialog[open]') || document.body).append(area);       // (else a dialog keeps it from the keys)
    area.select();
    const done = document.execCommand('copy');
    area.remove();
    return done;
  }
}

export function save(name, type, text) {
  const link = make('a', { download: name });
  link.href = URL.createObjectURL(new Blob([text], { type }));
  document.body.append(link);
  link.click();
  link.remove();
  setTimeout(() => URL.revokeObjectURL(link.href), 10000);
}
