"use strict";
// Constants, and values as texts.
const NEW_SLOTS = 65536, CELLS = 81920, DAY = 86400;
const TABLES = ["new", "tried"], SIDE = { new: 32, tried: 16 };
// Where the slots of each table begin and end among all slots.
const FIRST = { new: 0, tried: NEW_SLOTS }, END = { new: NEW_SLOTS, tried: CELLS };
// By their numbers in the engine.
const NETWORKS = ["not publicly routable", "ipv4", "ipv6", "onion", "i2p", "cjdns", "internal"];
const SERVICES = {
  0: "NETWORK",
  2: "BLOOM",
  3: "WITNESS",
  6: "COMPACT_FILTERS",
  10: "NETWORK_LIMITED",
  11: "P2P_V2"
};
const $ = id => document.getElementById(id);
const numberFormat = new Intl.NumberFormat("en-US");
const number = n => numberFormat.format(n);
const percent = (part, whole) => whole ? (100 * part / whole).toFixed(1) + " %" : "none";
const shareText = share => (100 * share).toFixed(4) + " %";
const escape = text => String(text).replace(/[&<>"]/g, c => `&#${c.charCodeAt(0)};`);
const fileName = path => path.split("/").pop();
// The last time in seconds that is a date (ECMA-262, "Time Values and Time Range").
const MAX_DATE = 8.64e12;

// A time in seconds since 1970 as a date; as a number if no date is so late.
function when(time) {
  if (time > MAX_DATE) return String(time);
  return new Date(1000 * time).toISOString().slice(0, 16).replace("T", " ") + " UTC";
}

// A length of time in words.
function lengthText(seconds) {
  if (seconds < 5400) return `${Math.round(seconds / 60)} min`;
  if (seconds < 2 * DAY) return `${Math.round(seconds / 3600)} hours`;
  return `${Math.round(seconds / DAY)} days`;
}

// The services of a peer by their names.
function servicesText(bits) {
  const names = [];
  for (let i = 0n; i < 64n; i++)
    if (bits >> i & 1n) names.push(SERVICES[i] || `bit ${i}`);
  return bits + (names.length ? ` (${names.join(", ")})` : "");
}

// The texts that are made of the elements of a list, one after another.
const joined = (list, textOf) => list.map(textOf).join("");

// Cells of a table: the head of a row, a number, and a text.
const headCell = text => `<th scope="row">${escape(text)}</th>`;
const numberCell = value => `<td>${escape(typeof value === "number" ? number(value) : value)}</td>`;
const textCell = value => `<td class="text">${escape(value)}</td>`;

const status = (text, isQuiet) => {
  $("status").textContent = text;
  $("status").classList.toggle("quiet", !!isQuiet);
};

// What the page is doing: `busy`, `drawn` once tables are to be seen, `ready`, or `error`.
const setState = state => {
  document.documentElement.dataset.state = state;
};

function fail(text) {
  $("error").textContent = text;
  $("error").hidden = false;
  status("");
  setState("error");
}
