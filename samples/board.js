// The desk's front door: gathers what other modules offer and names the default.
export { quote, ladder as rungs, desk as default } from "./desk.js"
export * as smile from './smile.js'
import { delta } from "./smile.js"
export { delta as "Δ", delta as \u0069f }
