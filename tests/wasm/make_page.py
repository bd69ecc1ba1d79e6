#!/usr/bin/env python3
"""Writes a page that runs the comparisons of harness.mjs in a browser, with all that they need inside:

  tests/wasm/make_page.py WASM CALLS RANDOM_WASM ROUNDS FILE.. > PAGE

The page's <pre> has the digest of the answers, the report of the random calls, the browser's name, and at last `END`;
or `FAILED` and why. ROUNDS may be 0."""
import base64
import os
import sys

HERE = os.path.dirname(os.path.abspath(__file__))
PAGE = """<!doctype html><meta charset="utf-8"><title>tiling.wasm</title><pre></pre><script type="module">
{harness}
const bytesOf = (text) => Uint8Array.from(atob(text), (letter) => letter.charCodeAt(0));
const pre = document.querySelector("pre"), say = (line) => (pre.textContent += line + "\\n");
const [wasm, calls, random, ...files] = [{data}].map(bytesOf);
try {{
  const begin = performance.now();
  const answers = joined(answersOf(await instanceOf(wasm), callsOf(calls)));
  say(`answers ${{await digestOf(answers)}}`);
  if ({rounds}) say((await randomReport(await instanceOf(wasm), random, files, {rounds})).trim());
  say(`${{navigator.userAgent}}, ${{Math.round((performance.now() - begin) / 1000)}} s`);
  say("END");
}} catch (fault) {{
  say(`FAILED ${{fault.stack}}`);
}}
</script>
"""


def encoded(path: str) -> str:
    with open(path, "rb") as file:
        return '"' + base64.b64encode(file.read()).decode() + '"'


def main():
    wasm, calls, random, rounds, *files = sys.argv[1:]
    with open(os.path.join(HERE, "harness.mjs"), encoding="utf-8") as file:
        harness = file.read().replace("export ", "")
    data = ",".join(encoded(path) for path in (wasm, calls, random, *files))
    sys.stdout.write(PAGE.format(harness=harness, data=data, rounds=int(rounds)))


main()
