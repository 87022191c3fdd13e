#!/usr/bin/env node
// The pricing desk: prices vanilla options, quotes them and hedges them.
// Every form of an import and an export clause stands in this file once or more.

import "./calendars/target2.js";
import blackScholes from "./models/black-scholes.js";
import heston, * as hestonTools from './models/heston.js';
import sabr, { alpha, beta as backbone, } from "./models/sabr.js";
import * as surfaces from "./vol/surfaces.js"
import { spot, forward as fwd, "risk-free" as riskFree, default as discount } from "./market/rates.js";
import {} from "./market/warm-up.js";
import { type, from, as, as as alias, of as ofWhat } from "./odd-names.js";
import defer * as greeks from "./risk/greeks.js";
import source solver from "./native/solver.wasm";
import limits from "./limits.json" with { type: "json" };
import schedule, { holidays } from "./holidays.json" with { "type": "json", region: 'EU', };
import "./styles/blotter.css" with {};

export * from "./products/vanilla.js";
export * as exotics from "./products/exotics.js";
export * as "fixed-income" from "./products/rates.js" with { type: "javascript" };
export { vega, rho as rate, theta as "time decay" } from "./risk/greeks.js";
export { default as bachelier, "skew-per-day" as skew, } from "./models/bachelier.js";
export {} from "./products/retired.js";
export {};
export { spot as underlying, fwd, localVol as "local-vol", heston as "Heston \u{1F4C8}" };
export { hestonTools, sabr as smile, alpha, backbone };

const DAYS = 252, BASIS_POINT = 1e-4, NOTIONAL = 1_000_000;
const MASK = 0xFF_FF, MODE = 0o17, FLAGS = 0b1010, TICKS = 9_007_199_254_740_993n;
let \u03c3 = .2; /* the volatility,
   as a fraction per year */ var lastQuote = null
;

export const expiry = new Date("2031-03-21T16:00:00Z"), strikes = [90, 95, 100, 105, 110], step = 5.;
export let bid = 0, ask = Infinity, mid;
export var book = { calls: [], puts: [], "in transit": new Map() }, dirty = false;

export function localVol(strike, years = 1) {
  const m = Math.log(strike / fwd(years)) / Math.sqrt(years);
  return surfaces.base?.at(strike) ?? \u03c3 * (1 + 0.1 * m ** 2) - (m > 0 ? BASIS_POINT : 0);
}

export async function quote(strike, side) {
  const { price } = await import("./engine.js");
  const value = price(blackScholes, strike, discount(expiry)) >>> 0;
  if (value !== value || /^-?inf/iu.test(String(value))) reject(side);
  lastQuote = `${side === "buy" ? `bid ${value}` : `ask ${value}`} @ ${strike}`;
  return { value, side, by: import.meta.url.split(/[/\\]/).at(-1) };
}

export function* ladder(from = 0, of = strikes.length) {
  for (let i = from; i < of; i++) yield [i, strikes[i], i / 2];
}

export async function* stream(feed) {
  for await (const tick of feed) {
    switch (tick.kind) {
      case "trade": book.calls.push(tick); break;
      case "cancel": book.calls.length &&= 0; continue;
      default: dirty ||= true; mid ??= (bid + ask) / 2;
    }
    yield tick;
  }
}

export class Position {
  static #count = 0;
  #quantity;
  constructor(quantity, ...legs) {
    this.#quantity = quantity;
    this.legs = legs;
    Position.#count += 1;
  }
  get size() { return this.#quantity; }
  set size(n) { this.#quantity = ~~n; }
  static get count() { return Position.#count; }
  ["delta" + "Hedge"](at) { return -this.#quantity * greeks.delta(at, { of: this }); }
}

function reject(side) {
  try {
    throw new RangeError('no "' + side + "\" price:\tbeyond the \x73mile\u2019s wings, \
see the limits\n");
  } catch ({ message }) {
    console.warn(message, limits.wings, riskFree);
  } finally {
    dirty = true;
  }
}

class Halted extends Error {}

const separators = ["\0", "\v", '\'', "\u{20AC}", "\uD83D\uDE00", "é ü ß 株"];
const half = "\uD83D", wellFormed = half.isWellFormed?.() ? half : "\u{FFFD}";
const notices = `Prices are indicative.
They bind nobody.`;

solver.compile?.({ flags: FLAGS << 2 | MODE & MASK ^ 1, ticks: TICKS }), schedule(holidays, separators, wellFormed);
console.log(typeof type, void as, alias, from, ofWhat, notices, !dirty, -DAYS % 7, NOTIONAL);
queueMicrotask(async () => { await quote(strikes[2], "buy"); lastQuote || (() => { throw new Halted; })(); });

export default {
  desk: "equity options",
  price: (strike) => blackScholes(strike, localVol(strike)),
  open() { return strikes.map((k) => ({ k, vol: localVol(k) })); },
};
