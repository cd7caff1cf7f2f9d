// Search over names, paths and comments, folding of words in place, and filters of tables. FOUND is in found.js; WORDS
// in words.js, which is only loaded if a word is unfolded.
(() => {
  const make = (name, more) => Object.assign(document.createElement(name), more);
  document.documentElement.classList.add("js");

  // an exact name comes first, then one in another case, then names and paths that end with the text, in the order of
  // the crates, then names that begin with it or contain it, the shortest first, and then what else is told
  const rank = (name, low, more, text, lower) => name === text ? 0 : low === lower ? 1
    : low.split(/[.: ]+/).pop() === lower || more.split(" ").some(it => it.endsWith(`::${lower}`)) ? 2
    : low.startsWith(lower) ? 3 : low.includes(lower) ? 4 : more.includes(lower) ? 5 : 9;
  const box = make("input", { type: "search", id: "search", placeholder: "Search  ( / )", ariaLabel: "Search" });
  const list = make("ul", { id: "found", hidden: true });
  box.addEventListener("input", () => {
    const text = box.value.trim(), lower = text.toLowerCase();
    const hits = FOUND.map(row => [rank(row[0], row[0].toLowerCase(), `${row[1]} ${row[3]}`.toLowerCase(), text, lower),
      row]).filter(it => it[0] < 9);
    hits.sort((a, b) => a[0] - b[0] || (a[0] > 2) * (a[1][0].length - b[1][0].length));
    list.replaceChildren(...hits.slice(0, 40).map(([, [name, what, href]]) => {
      const link = make("a", { href });
      link.append(make("code", { textContent: name }), " ", make("small", { textContent: what }));
      const row = make("li");
      row.append(link);
      return row;
    }));
    if (text && !hits.length) list.append(make("li", { textContent: "nothing has this name" }));
    list.hidden = !text;
  });
  const links = () => [...list.querySelectorAll("a")];
  document.addEventListener("keydown", event => {
    const at = links().indexOf(document.activeElement), step = { ArrowDown: 1, ArrowUp: -1 }[event.key];
    if (event.key === "/" && !/INPUT/.test(document.activeElement.tagName)) box.focus();
    else if (event.key === "Escape") list.hidden = true;
    else if (event.key === "Enter" && document.activeElement === box && links()[0]) links()[0].click();
    else if (step && !list.hidden) (links()[at + step] || box).focus();
    else return;
    event.preventDefault();
  });
  list.addEventListener("click", () => { list.hidden = true; });
  document.querySelector("header").append(box, list);

  // a word unfolds below the line that it stands in
  const fold = word => {
    if (word.unfolded) {
      word.unfolded.remove();
      word.unfolded = null;
    } else {
      const told = WORDS[decodeURIComponent(word.hash.slice(1))];
      word.unfolded = make("div", { className: "unfolded", innerHTML: told });
      word.closest(".l").after(word.unfolded);
    }
    word.setAttribute("aria-expanded", Boolean(word.unfolded));
  };
  document.addEventListener("click", event => {
    const word = event.target.closest("a.w");
    if (!word || event.ctrlKey || event.metaKey || event.shiftKey) return;
    event.preventDefault();
    if (typeof WORDS !== "undefined") fold(word);
    else document.head.append(make("script", { src: "words.js", onload: () => fold(word) }));
  });

  for (const table of document.querySelectorAll("table.rows")) {
    const filter = make("input", { type: "search", id: "filter", placeholder: "Filter rows", ariaLabel: "Filter rows" });
    const rows = [...table.tBodies[0].rows].map(row => [row, row.textContent.toLowerCase()]);
    filter.addEventListener("input", () => {
      const parts = filter.value.toLowerCase().split(/\s+/);
      for (const [row, text] of rows) row.hidden = !parts.every(part => text.includes(part));
    });
    table.before(filter);
  }

  // what a link leads to is open
  const open = () => {
    const aim = document.getElementById(decodeURIComponent(location.hash.slice(1)));
    for (let fold = aim; fold; fold = fold.parentElement) if (fold.tagName === "DETAILS") fold.open = true;
    if (aim) aim.scrollIntoView();
  };
  addEventListener("hashchange", open);
  open();
})();
