// What timeline_tried.py asks of a page in the browser.

// All elements of the page, and those of each key's row, with their attributes and texts.
function elements() {
  const all = (place) => [...place.querySelectorAll('*')].map((one) => ({tag: one.localName, text: one.textContent,
    ...Object.fromEntries([...one.attributes].map((its) => [its.name, its.value]))}));
  return [all(document), [...document.querySelectorAll('tr.key')].map((row) => ({...row.dataset, parts: all(row)}))];
}

// What a person can see and reach of the page, in at most so many rows, if not in all.
function view(most) {
  const seen = element => element.getClientRects().length > 0;
  const box = element => element.getBoundingClientRect();
  const rows = [...document.querySelectorAll('tr.key')], until = most || rows.length;
  document.body.style.display = 'none';
  document.body.getBoundingClientRect();
  document.body.style.display = '';
  const begun = performance.now();
  const found = {width: innerWidth, wider: document.documentElement.scrollWidth - innerWidth};
  found.laid = performance.getEntriesByType('navigation')[0].loadEventEnd + performance.now() - begun;
  const heads = [...document.querySelectorAll('th')].filter(seen);
  found.heads = heads.map(head => head.getAttribute('aria-label') || head.textContent);
  found.above = heads.map(head => Math.round(box(head).left));
  found.below = rows.length ? [...rows[0].cells].filter(seen).map(cell => Math.round(box(cell).left)) : [];
  found.over = rows.filter(row => [...row.cells].filter(seen).some((cell, place, cells) => {
    const next = cells[place + 1], hides = getComputedStyle(cell).overflowX === 'hidden';
    return !hides || next && box(next).top < box(cell).bottom - 2 && box(next).left < box(cell).right - 1;
  })).map(row => row.dataset.number);
  const pages = document.querySelector('.pages');
  const middles = [...pages.children].map(one => (box(one).top + box(one).bottom) / 2);
  found.lines = 1 + Math.floor((Math.max(...middles) - Math.min(...middles)) / 10);
  found.pages = [...pages.children].map(one => one.textContent);
  found.live = document.getElementById('count').getAttribute('role');
  found.paper = getComputedStyle(document.body).backgroundColor;
  found.reached = rows.slice(0, until).map(row => {
    const button = row.querySelector('button');
    button.focus();
    const is_reached = document.activeElement === button && button.tabIndex === 0;
    button.click();
    const more = row.nextElementSibling;
    const is_open = more !== null && more.className === 'more' && seen(more)
      && button.getAttribute('aria-expanded') === 'true';
    const texts = is_open ? [...more.querySelectorAll('dd')].map(one => one.textContent) : [];
    button.click();
    return [is_reached && is_open && !row.nextElementSibling?.classList.contains('more'), texts];
  });
  return found;
}
