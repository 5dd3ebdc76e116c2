"""How the desk looks: what Chromium's accessibility tree says of each page, what axe finds in it, contrast, focus,
widths, dark and print; and how soon it shows what is found among 100,000 keys."""
import pathlib

from axe import violations
from browser import as_seen
from day import day, register, second
from parts import Desk, Keys, Reader
from registers import UNSET, write_register
from script import expect
from selenium.webdriver.common.action_chains import ActionChains
from tables import chosen

WIDTHS = (320, 380, 800, 1200)
NAMED = {"button", "link", "textbox", "searchbox", "combobox", "checkbox", "spinbutton", "img", "image", "progressbar",
         "Date", "DateTime", "InputTime", "navigation", "table", "form", "dialog"}
LANDMARKS = {"banner", "main", "navigation", "status", "heading", "contentinfo"}
# Texts whose contrast with what they stand on is below 4.5 to 1, by what Chromium computes.
FAINT = """
const parts = (colour) => colour.match(/[0-9.]+/g).map(Number);
const light = (colour) => {
  const [r, g, b] = parts(colour).slice(0, 3).map((part) => part / 255)
    .map((part) => (part <= 0.04045 ? part / 12.92 : ((part + 0.055) / 1.055) ** 2.4));
  return 0.2126 * r + 0.7152 * g + 0.0722 * b;
};
const ground = (place) => {
  for (let one = place; one; one = one.parentElement) {
    const colour = getComputedStyle(one).backgroundColor, alpha = parts(colour)[3] ?? 1;
    if (alpha === 1) return colour;
  }
  return "rgb(255, 255, 255)";
};
const faint = [];
for (const place of document.querySelectorAll("body *")) {
  const isText = [...place.childNodes].some((child) => child.nodeType === 3 && child.textContent.trim() !== "");
  if (!isText && !["INPUT", "SELECT"].includes(place.tagName)) continue;
  if (!place.checkVisibility() || place.closest(".skip, svg")) continue;
  const one = light(getComputedStyle(place).color), other = light(ground(place));
  const ratio = (Math.max(one, other) + 0.05) / (Math.min(one, other) + 0.05);
  if (ratio < 4.5) faint.push([place.tagName, place.className, place.textContent.slice(0, 40), ratio.toFixed(2)]);
}
return faint;
"""
# Gives each part that one acts on its turn by its place, and puts the focus before the first.
TURNS = """
const all = [...document.querySelectorAll("a[href], button, input, select, summary, textarea")]
  .filter((place) => place.checkVisibility() && !place.disabled);
const body = document.body;
document.activeElement.blur();
window.getSelection().removeAllRanges();
body.setAttribute("tabindex", "-1");
body.focus();
body.removeAttribute("tabindex");
return all.map((place, turn) => { place.dataset.turn = turn; return place.outerHTML.slice(0, 80); });
"""
# The turn of the part with the focus, its outline, and whether it is on the screen.
MET = """
const at = document.activeElement, style = getComputedStyle(at), box = at.getBoundingClientRect();
return [at.dataset.turn ?? null, style.outlineStyle + style.outlineWidth,
  box.bottom > 0 && box.top < innerHeight && box.right > 0 && box.left < innerWidth];
"""


def named(reader: Reader, page: str) -> int:
    """Each part that one acts on or is told of has a name, and the page its landmarks; how many parts there are."""
    tree = reader.driver.execute_cdp_cmd("Accessibility.getFullAXTree", {})["nodes"]
    nodes = [node for node in tree if not node.get("ignored")]
    roles = [node.get("role", {}).get("value", "") for node in nodes]
    for role, node in zip(roles, nodes):
        expect(role not in NAMED or node.get("name", {}).get("value", "").strip(), f"{page}: no name: {node}")
    expect(LANDMARKS <= set(roles), f"{page} has no {LANDMARKS - set(roles)}")
    expect(len(reader.find("h1")) == 1 and reader.execute("return document.documentElement.lang") == "en",
           f"{page}: its heading")
    return len(roles)


def focused(reader: Reader, page: str) -> None:
    """Each part that one acts on is reached by Tab, in the order in which it stands, and is seen to have the focus."""
    places, came = reader.execute(TURNS), list[int]()
    for _ in range(5 * len(places) + 9):
        ActionChains(reader.driver).send_keys(Keys.TAB).perform()
        turn, ring, is_on_screen = reader.execute(MET)
        if turn is None:
            if came:
                break
            continue
        expect(is_on_screen and not ring.startswith("none") and not ring.endswith(" 0px"),
               f"{page}: no focus is seen at {places[int(turn)]}: {ring}, on the screen: {is_on_screen}")
        # The parts of a date have the focus one after the other.
        if came[-1:] != [int(turn)]:
            came.append(int(turn))
        if came[-1] == len(places) - 1:
            break
    expect(came == list(range(len(places))), f"{page}: Tab goes {came}, of {len(places)} parts: {places}")


def axe_finds_nothing(reader: Reader, page: str) -> None:
    """axe finds nothing in the page as it stands: light, dark and narrow."""
    looks: list[tuple[int, dict[str, bool]]] = [(1200, {}), (1200, {"dark": True}), (320, {})]
    for width, how in looks:
        as_seen(reader.driver, width, **how)
        found = violations(reader.driver)
        expect(not found, f"{page} at {width} {[*how]}: axe finds {found}")
    as_seen(reader.driver, 1000)


def looked_at(reader: Reader, page: str) -> int:
    """Looks at the page as it stands at each width, light and dark and printed; how many parts it has."""
    as_seen(reader.driver, 1000)
    parts = named(reader, page)
    focused(reader, page)
    hows: list[dict[str, bool]] = [{}, {"dark": True}, {"printed": True}]
    for width in WIDTHS:
        for how in hows:
            as_seen(reader.driver, width, **how)
            faint = reader.execute(FAINT)
            expect(not faint, f"{page} at {width} {[*how]}: faint are {faint[:5]}")
            wide = reader.execute("return document.scrollingElement.scrollWidth - window.innerWidth")
            expect(wide <= 0, f"{page} at {width} {[*how]}: it is {wide} pixels wider than the screen")
    axe_finds_nothing(reader, page)
    return parts


def waiting(ann: Reader, bob: Reader, cat: Reader) -> None:
    """bob has keys to approve, one with an approval and one with none, and a key of his own to destroy."""
    keys = {}
    for owner, part, approving in ((ann, "begun", [cat]), (ann, "guarded", list[Reader]()),
                                   (bob, "destroyable", [ann, cat])):
        purpose = f"wrapping keys of the vault in site A, that were replaced, {part}"
        key = keys[part] = register(owner, "key-wrapping", owner.user, purpose)
        owner.adds(key, *(reader.user for reader in (ann, bob, cat) if reader is not owner))
        for reader in approving:
            reader.key(key).does(f"approve {key}")
    bob.with_list("waits")
    for part, key in keys.items():
        expect(bob.find(f"section.{part} a[href='#key/{key}']"), f"key {key} is not under {part}: {bob.text()}")


def answered(ann: Reader) -> None:
    """The table that was chosen is sent, with a refusal among its rows, and a row that is of another form is not."""
    ann.open("table").seen("input[aria-label='send row 2']").click()
    ann.press("Send 2 rows")
    ann.says("2 of 2 rows answered: 1 accepted, 1 refused", patience=60)
    sorts = [row.get_attribute("class") for row in ann.find("table.rows tbody tr")]
    expect(sorts == ["refused", "wrong", "accepted"], f"the rows are {sorts}")
    ann.said.append((ann.user, None, f"register authentication ann {second(day(-9))} - - partners"))
    ann.seen("a.button", lambda link: link.text == "Take back 2 rows not registered")


def all_pages(ann: Reader, bob: Reader, cat: Reader, folder: pathlib.Path) -> str:
    """Looks at each page, and at those that come of what others did, or did not."""
    key = register(ann, "key-wrapping", "ann", "a key that is looked at", day(-9))
    chosen(ann, folder, f"authentication,ann,{day(-9)}Z,,,partners",
           "authentication,ann,2027-01-01T00:00:00Z,2026-01-01T00:00:00Z,,in another order",
           "Master,ann,,,,no such type")
    parts = 0
    for page in ("find", f"key/{key}", f"next/{key}", "waits", "due", "mine", "register", "table", "periods", "leaver",
                 "help"):
        ann.anew(page)
        if page.startswith("key/"):
            ann.says("As the register told it")
            # All forms at once, which a reader has one by one.
            ann.execute("document.querySelectorAll('details').forEach((one) => {"
                        "one.removeAttribute('name'); one.open = true; })")
        parts += looked_at(ann, page)
    answered(ann)
    parts += looked_at(ann, "table that is answered")
    ann.press("Put the table away")
    waiting(ann, bob, cat)
    parts += looked_at(bob, "waits with entries")
    ann.key(key).desk.line.todo = ["503"] * 1000
    ann.submit("set-quorum", [("Approvals needed", "3")])
    ann.says("Not answered yet", "#kept")
    parts += looked_at(ann, "not answered yet")
    ann.desk.line.todo = []
    ann.execute("document.querySelector('#kept button')?.click()")
    ann.accepted(f"set-quorum {key} 3")
    return f"{parts} parts of fourteen pages have their names and roles, at {len(WIDTHS)} widths, light, dark and printed"


# ---- many keys

# How many, and how much longer all of them may take than a tenth: what takes as long for each key takes no longer. And
# the most milliseconds of some.
KEYS, TIMES, MOST = 100_000, 10, {"the first view": 1000, "a key's history": 500}
# Gives the milliseconds until what a text finds stands on the page, and how many keys that are.
LETTER = """const [box, text, done] = arguments, begun = performance.now();
box.value = text;
box.dispatchEvent(new Event("input", {bubbles: true}));
requestAnimationFrame(() => setTimeout(() =>
  done([performance.now() - begun, parseInt(document.querySelector(".count").textContent)])));"""


# Gives the milliseconds until the history of a key stands on its page.
HISTORY = """const [key, done] = arguments, begun = performance.now();
new MutationObserver((_, one) => {
  if (document.querySelectorAll("section.history tbody tr").length < 5) return;
  one.disconnect();
  done(performance.now() - begun);
}).observe(document.getElementById("main"), {childList: true, subtree: true});
location.hash = `key/${key}`;"""


def large_list(desk: Desk, file: pathlib.Path, count: int) -> None:
    """The list of a register of so many keys stands in the place of the desk's, with files of history as list.py makes
    them. Each key has two custodians, an approval and five requests, and every tenth is for tapes. keyreg serves its
    own register."""
    begun, numbers = second("2025-01-01T00:00:00"), range(1, count + 1)
    custodians = [(n, f"officer-{n % 30 + more}") for n in numbers for more in (0, 30)]
    write_register(file, begun, count, custodian=custodians, approval=custodians[::2], keys=(
        (n, 1, f"team-{n % 200}", f"volume {n} of hall {n % 97}, {'disks' if n % 10 else 'tapes'}", 2, begun, begun,
         begun + n % 700 * 86400, begun + (n % 700 + 400) * 86400, UNSET, UNSET, UNSET) for n in numbers),
        request=((f"team-{n % 200}", n * 5 + m, f"set {n} = = {begun + (n % 700 + 400 - m) * 86400}" if m
                  else f"register data-encryption team-{n % 200} {begun} {begun + n % 700 * 86400} - volume {n}",
                  n, 2, begun) for n in numbers for m in range(5)))
    desk.make_list(file, rows=500)


def delays(reader: Reader, key: int, count: int) -> dict[str, float]:
    """The milliseconds until the first view of so many keys stands, those of the slowest of four letters, and those of
    a key's history. The best of three pages counts: other work of the machine takes its time too."""
    views, letters, histories = list[float](), list[float](), list[float]()
    for _ in range(3):
        reader.anew("find").reload(forgets=True)
        reader.says(f"{count} of {count} keys", patience=60)
        views.append(reader.execute("return performance.getEntriesByName('shown')[0].startTime"))
        box = reader.seen("input[type='search']")
        shown = [reader.driver.execute_async_script(LETTER, box, "tapes"[:length]) for length in range(2, 6)]
        expect(shown[-1][1] == count // 10, f"of {count} keys {shown[-1][1]} are shown as those for tapes")
        letters.append(max(milliseconds for milliseconds, _ in shown))
        histories.append(reader.driver.execute_async_script(HISTORY, key))
    return {"the first view": min(views), "a letter": min(letters), "a key's history": min(histories)}


def many_keys(reader: Reader, folder: pathlib.Path) -> str:
    """What a list of 100,000 keys takes, beside one of a tenth."""
    taken, key = [], register(reader, "master", reader.user, "a key among many")
    for count in (KEYS // 10, KEYS):
        large_list(reader.desk, folder / f"{count}.keyreg", count)
        taken.append(delays(reader, key, count))
    few, many = taken
    for name, most in MOST.items():
        expect(many[name] <= most, f"{name}: {KEYS} keys took {many[name]} ms")
    for name, milliseconds in many.items():
        expect(milliseconds <= TIMES * few[name], f"{name}: {KEYS} keys took {many} ms, and a tenth of them {few}")
    reader.with_list()
    return f"of {KEYS} keys there stood after " + ", ".join(f"{many[name]:.0f} ms {name}" for name in many)
