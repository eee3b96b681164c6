// The page's words in the language that was chosen. English stands where it is said, as t`Game ${number}`; each other
// language has a table of its own, words-LANGUAGE.js, by the English text with {0}, {1} .. for what is put in, and
// {0:form|form|..} for a word that goes by the number {0}. No table is loaded but that of the language chosen.

import { read } from './make.js';

export const LANGUAGES = {
  en: 'English', de: 'Deutsch', es: 'Español', fr: 'Français', it: 'Italiano', nl: 'Nederlands', pl: 'Polski',
  pt: 'Português',
};
const SAID_BY = ['aria-label', 'title', 'placeholder'];

export const language = [read(() => localStorage, 'language'), ...navigator.languages]
  .map((one) => (one || '').split('-')[0]).find((one) => one in LANGUAGES) || 'en';
// (a table that does not come leaves the page in English)
const { WORDS: TABLE } = language === 'en' ? { WORDS: {} }
  : await import(`./words-${language}.js`).catch(() => ({ WORDS: {} }));
const FORMS = ['one', 'few', 'many', 'other'], PLURAL = new Intl.PluralRules(language);

/** Of a word's forms, as `minuta|minuty|minut`, the one that goes with this number: one, few, and any other number, as
 * far as the language tells them apart. */
function formOf(forms, number) {
  const words = forms.split('|');
  return words[Math.min(FORMS.indexOf(PLURAL.select(number)), words.length - 1)];
}

/** A text in the language that was chosen. A line's end within it is a space. */
export function t(texts, ...given) {
  const key = texts.reduce((before, text, place) => `${before}{${place - 1}}${text}`).replace(/\s*\n\s*/g, ' ');
  return (TABLE[key] || key).replace(/\{(\d)(?::([^}]*))?\}/g, (_, place, forms) => (forms
    ? formOf(forms, Number(given[place])) : given[place]));
}

/** The words that stand in the document itself. */
function translate(root) {
  const walker = document.createTreeWalker(root, NodeFilter.SHOW_TEXT);
  while (walker.nextNode()) {
    const node = walker.currentNode, text = node.nodeValue.trim().replace(/\s+/g, ' ');
    if (TABLE[text]) node.nodeValue = node.nodeValue.replace(/\S[^]*\S|\S/, TABLE[text]);
  }
  for (const element of root.querySelectorAll('*')) {
    for (const name of SAID_BY) {
      const text = element.getAttribute(name);
      if (text && TABLE[text]) element.setAttribute(name, TABLE[text]);
    }
    if (element instanceof HTMLTemplateElement) translate(element.content);
  }
}

document.documentElement.lang = language;
if (language !== 'en') translate(document.body);
