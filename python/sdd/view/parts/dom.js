"use strict";
// The little that is needed to make elements. Text of a run enters the page by textContent alone.

function byId(id) { return document.getElementById(id); }

function element(tag, style = "", text) {
  const made = document.createElement(tag);
  if (style) made.className = style;
  if (text !== undefined) made.textContent = text;
  return made;
}

function shape(tag, places, text) {
  const made = document.createElementNS("http://www.w3.org/2000/svg", tag);
  for (const [name, value] of Object.entries(places)) made.setAttribute(name, value);
  if (text !== undefined) made.textContent = text;
  return made;
}

function button(text, style, act) {
  const made = element("button", style, text);
  made.onclick = act;
  return made;
}

function getOrMake(map, key, make) {
  if (!map.has(key)) map.set(key, make());
  return map.get(key);
}

function colourOf(name) { return getComputedStyle(document.body).getPropertyValue(name); }
