"""axe-core, which looks at the accessibility of pages, as Chromium's own tools have it. Node unpacks it."""
import functools
import pathlib
from typing import Any

from script import expect, output_of

# WCAG 2.2 at its levels A and AA, and what axe holds for good practice.
TAGS = ["wcag2a", "wcag2aa", "wcag21a", "wcag21aa", "wcag22aa", "best-practice"]
RUN = """const [tags, done] = arguments;
axe.run(document, {runOnly: tags, rules: {"target-size": {enabled: true}}, resultTypes: ["violations"]}).then(
  ({violations, passes}) =>
  done([passes.length, violations.map(({id, nodes}) =>
    `${id} (${nodes.length}): ${nodes[0].html.slice(0, 200)}: ${nodes[0].failureSummary}`)]));"""


@functools.cache
def source() -> str:
    return output_of(["node", pathlib.Path(__file__).with_name("axe_of_chromium.mjs")])


def violations(driver: Any) -> list[str]:
    """What axe finds wrong in the page as it stands."""
    if not driver.execute_script("return 'axe' in window"):
        driver.execute_script(source())
    passes, found = driver.execute_async_script(RUN, TAGS)
    expect(passes > 5, f"only {passes} rules of axe had something to look at")
    return found
