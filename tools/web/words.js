// Words, names and tables, of which all that is told is made.
"use strict";

/** Text of the page in which all that was put in is escaped, but for other texts of this kind. */
class Markup {
  constructor(text) { this.text = text; }
}
const ESCAPES = { "&": "&amp;", "<": "&lt;", ">": "&gt;", '"': "&quot;", "'": "&#39;" };
function escaped(value) {
  if (value instanceof Markup) return value.text;
  if (Array.isArray(value)) return value.map(escaped).join("");
  if (value === null || value === undefined) return "";
  return String(value).replace(/[&<>"']/g, letter => ESCAPES[letter]);
}
const markup = (parts, ...values) => new Markup(parts.map((part, i) => part + escaped(values[i])).join(""));
const joined = (items, between) => items.map((item, i) => (i ? [between, item] : item)).flat();

const FIELDS = {
  root: "root's identifier", ext: "external path cost", regional: "regional root", int: "internal path cost",
  bridge: "designated bridge", port: "designated port", receiver: "own port's identifier",
};
const MOST_NAMES = 12, MOST_OF_ROOT = 4, MOST_PORTS = 8, MOST_ISLANDS = 6, MOST_FOUND = 40;
const DASH = "–";

const speedText = speed => {
  const [unit, size] = speed >= 1e6 ? ["Gb/s", 1e6] : speed >= 1e3 ? ["Mb/s", 1e3] : ["kb/s", 1];
  return `${Number((speed / size).toFixed(2))} ${unit}`;
};
const counted = (count, one, more = `${one}s`) => `${count} ${count === 1 ? one : more}`;
const treeName = tree => (tree === CIST ? "CIST (0)" : `MST ${tree}`);
const ENTITIES = { lan: "LAN", bridge: "switch", risk: "all of the risk" };
const entityName = ({ what, name }) => `${ENTITIES[what]} ${name}`;
/** A link that the keyboard reaches, to what data-NAME says. */
const jump = (name, value, text = value) => markup`<a class="jump" role="link" tabindex="0" data-${name}="${value}">${text}</a>`;
/** The interface that a port of the shown network is, where the script says it: its own name, and that of the bundle that it is of. */
let interfaces = new Map();
/** What stands in a port's sign, and how it is named in a sentence. */
const signText = port => interfaces.get(port)?.at(-1) ?? numberOf(port);
const portName = port => (interfaces.has(port) ? `${bridgeOf(port)} ${signText(port)}` : port);
const portJump = port => jump("port", port, portName(port));
const lanJump = lan => jump("lan", lan);
const roleTag = (role, text = role) => (role ? markup`<span class="role ${role}">${text}</span>` : DASH);
const minor = text => markup`<span class="minor">${text}</span>`;
const line = text => markup`<div>${text}</div>`;
/** A list without spaces, which may be broken behind its commas. */
const listed = text => joined(text.split(","), markup`,<wbr>`);
/** The beginning of a text that is longer than so many letters. */
const shortened = (text, most) => (text.length > most ? `${text.slice(0, most - 2)}…` : text);

/** Parts of switches that came apart, each but the largest with its names; the largest one by its number where it has many. */
function partsTold(parts) {
  const lists = parts.map(part => part.split(",").sort(byNumbers)), largest = Math.max(...lists.map(list => list.length));
  const isShort = list => list.length <= MOST_NAMES;
  const told = list => (isShort(list) ? list.join(", ") : list.length === largest ? `${list.length} others` : some(list, MOST_NAMES).flat().join(""));
  return joined(lists.map(told), markup` <b class="warning">|</b> `);
}

/** A table, of which a head that begins with `#` is one of numbers. Rows are texts, or cells; those with data are reached by the keyboard. */
function table(heads, rows) {
  const isNumber = heads.map(head => head.startsWith("#"));
  const cells = (tag, values) => values.map((value, i) =>
    new Markup(`<${tag}${isNumber[i] ? ' class="number"' : ""}>${escaped(value)}</${tag}>`));
  const row = it => (it instanceof Markup ? it : it.cells ? rowOf(it, cells("td", it.cells)) : markup`<tr>${cells("td", it)}</tr>`);
  const role = rows.some(it => it.cells) ? markup` role="grid"` : "";
  return markup`<table${role}><tr>${cells("th", heads.map(head => head.replace("#", "")))}</tr>${rows.map(row)}</table>`;
}
/** A row that a click or Enter goes by: `data` tells where to. */
function rowOf({ data, isSelected }, cells) {
  const told = Object.entries(data).map(([key, value]) => markup` data-${key}="${value}"`);
  return markup`<tr class="row${isSelected ? " selected" : ""}" tabindex="0" aria-selected="${Boolean(isSelected)}"${told}>${cells}</tr>`;
}

/** The new roots that a failure makes: in which tree, of which switches, and which one was their root before. */
function newRoots(network, failure) {
  return failure.roots.map(([tree, before, root, names]) => {
    const bridges = names.split(",").sort(byNumbers), all = network.rootsIn(tree, failure).reduce((sum, it) => sum + it.bridges.length, 0);
    const whose = bridges.length === all && all > 1 ? `all ${all} switches` : some(bridges, MOST_OF_ROOT).flat().join("");
    return { tree, before, root, whose };
  });
}

/** Some of a list, and how many more there are. */
function some(items, most) {
  const left = items.length - most;
  return [joined(items.slice(0, most), ", "), left > 0 ? ` and ${left} more` : ""];
}
