// The rule files that are inside of the page.
import { tilingNamed } from "./catalogue.js";
import { byId } from "./page.js";

let files = null;

/** The rule file of a tiling of the menu, and the name by which the rule is built in, if it is. */
export function ruleOf(name) {
  files ??= JSON.parse(byId("rules").textContent);
  return { file: files[name], builtIn: tilingNamed(name).rule };
}
