"""The script of all pages: tables that sort and filter, commands that are copied, and the words of a map by the pointer
and the keyboard. A page is whole without it.

The script has no `<` and no `&`, so that it is the same text in HTML and in XML. The policy of a page lets its browser
run this script and no other, and fetch nothing.
"""

from __future__ import annotations

import base64
import hashlib

SCRIPT = """
"use strict";
function make(tag, text, style) {
  const made = document.createElement(tag);
  made.textContent = text;
  made.className = style;
  return made;
}

// Tables: each header is a button that sorts (up, down, as at first), and a field filters the rows by a word.
const textOf = (row, at) => row.cells[at].textContent.trim();
const numberOf = text => Number(text.replace(/,/g, "").split(/ |:/)[0]);
function compared(one, other, sign) {
  if (one === "" || other === "") return (one === "") - (other === "");
  const difference = numberOf(one) - numberOf(other);
  return sign * (Number.isNaN(difference) ? one.localeCompare(other, "en", {numeric: true}) : difference);
}
function sortable(table) {
  const body = table.tBodies[0], rows = [...body.rows], heads = [...table.tHead.rows[0].cells];
  heads.forEach((head, at) => {
    const button = make("button", head.textContent, "");
    head.replaceChildren(button);
    button.addEventListener("click", () => {
      const before = head.getAttribute("aria-sort");
      const order = before === null ? "ascending" : before === "ascending" ? "descending" : null;
      heads.forEach(each => each.removeAttribute("aria-sort"));
      if (order) head.setAttribute("aria-sort", order);
      const sign = order === "ascending" ? 1 : -1;
      const sorted = order ? [...rows].sort((a, b) => compared(textOf(a, at), textOf(b, at), sign)) : rows;
      body.append(...sorted);
    });
  });
  if (4 > rows.length) return;
  const tools = make("div", "", "tools"), field = make("input", "", ""), shown = make("output", "", "");
  field.type = "search";
  field.placeholder = "Filter by a word";
  field.setAttribute("aria-label", "Filter: " + table.caption.textContent);
  field.addEventListener("input", () => {
    const word = field.value.toLowerCase();
    for (const row of rows) row.hidden = !row.textContent.toLowerCase().includes(word);
    shown.textContent = word ? rows.filter(row => !row.hidden).length + " of " + rows.length + " rows" : "";
  });
  tools.append(field, shown);
  table.parentNode.before(tools);
}
for (const table of document.querySelectorAll("table:not(.steps)")) if (table.tHead) sortable(table);

// Commands: a button copies each, or selects it where a page may not copy.
for (const command of document.querySelectorAll("code.command")) {
  const button = make("button", "Copy", "copy");
  button.setAttribute("aria-label", "Copy: " + command.textContent);
  button.addEventListener("click", async () => {
    getSelection().selectAllChildren(command);
    try {
      await navigator.clipboard.writeText(command.textContent);
    } catch (refused) {
      if (!document.execCommand("copy")) return;
    }
    button.textContent = "Copied";
  });
  command.after(button);
}

// Maps: the words of an area appear below the map, for the pointer and for the arrow keys.
for (const map of document.querySelectorAll("svg.map")) {
  const lines = new Map();
  for (const title of map.querySelectorAll("[data-row] title")) {
    const key = title.closest("[data-row]").dataset.row;
    lines.set(key, [...(lines.get(key) || []), title.parentNode]);
  }
  const left = shape => shape.getBoundingClientRect().left;
  const rows = [...lines.values()].map(line => line.sort((a, b) => left(a) - left(b)));
  if (rows.length === 0) continue;
  const tip = make("output", "Point at an area, or press Tab and the arrow keys, for its words.", "tip");
  let row = 0, at = -1;
  const show = shape => {
    map.querySelectorAll(".at").forEach(old => old.classList.remove("at"));
    if (shape) shape.classList.add("at");
    if (shape) tip.textContent = shape.querySelector("title").textContent;
  };
  map.setAttribute("tabindex", "0");
  map.setAttribute("role", "application");
  map.setAttribute("aria-label", map.querySelector("title").textContent + ". The arrow keys go from area to area.");
  map.addEventListener("keydown", event => {
    const step = {ArrowRight: 1, ArrowLeft: -1}[event.key] || 0, down = {ArrowDown: 1, ArrowUp: -1}[event.key] || 0;
    if (step === 0) if (down === 0) return;
    event.preventDefault();
    const middle = 0 > at ? 0 : left(rows[row][at]);
    if (at >= 0) row = Math.min(Math.max(row + down, 0), rows.length - 1);
    const line = rows[row], near = line.findLastIndex(shape => middle >= left(shape));
    at = down ? Math.max(near, 0) : Math.min(Math.max(at + step, 0), line.length - 1);
    show(line[at]);
  });
  map.addEventListener("mouseover", event => {
    const shape = event.target.closest("rect, path");
    if (shape) if (shape.querySelector("title")) show(shape);
  });
  map.addEventListener("mouseleave", () => show(null));
  map.addEventListener("blur", () => show(null));
  (map.closest(".scroll") || map).after(tip);
}
"""
POLICY = (
    "default-src 'none'; style-src 'unsafe-inline'; base-uri 'none'; form-action 'none'; "
    f"script-src 'sha256-{base64.b64encode(hashlib.sha256(SCRIPT.encode('utf-8')).digest()).decode('ascii')}'"
)
