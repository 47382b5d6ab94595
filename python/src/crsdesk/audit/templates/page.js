"use strict";
(() => {
  // How many items are unfolded to show a match, and how many have their matches marked.
  const MOST = 100;
  const words = document.getElementById("words");
  const shown = document.getElementById("shown");
  const chunks = Array.from(document.querySelectorAll(".chunk"), (chunk) => [chunk, Array.from(chunk.querySelectorAll(".item"))]);
  const total = chunks.reduce((sum, [, items]) => sum + items.length, 0);
  // A section and a group in it tell how many of their items are shown.
  const counts = Array.from(document.querySelectorAll(".count"), (label) => {
    const owner = label.closest("details.group") || label.closest("section");
    return [label, label.textContent, owner, chunks.filter(([chunk]) => owner.contains(chunk))];
  });
  // A refused text is found by its cause too, which stands above it.
  const cause_of = (item) => item.closest(".cause")?.querySelector("b");
  const text_of = (item) => `${item.textContent} ${cause_of(item)?.textContent || ""}`.toLowerCase();
  const opened = new Set();
  let texts = null;
  const filter = () => {
    texts = texts || new Map(chunks.flatMap(([, items]) => items.map((item) => [item, text_of(item)])));
    const asked = words.value.toLowerCase().split(/\s+/).filter(Boolean);
    const found = [];
    for (const [chunk, items] of chunks) {
      const fitting = items.filter((item) => asked.every((word) => texts.get(item).includes(word)));
      chunk.hidden = fitting.length === 0;
      found.push(...fitting);
      if (chunk.hidden) continue;
      const fits = new Set(fitting);
      for (const item of items) if (item.hidden === fits.has(item)) item.hidden = !item.hidden;
    }
    document.body.classList.toggle("filtered", asked.length > 0);
    for (const [label, before, owner, its] of counts) {
      const all = its.reduce((sum, [, items]) => sum + items.length, 0);
      const fit = its.reduce((sum, [chunk, items]) => sum + (chunk.hidden ? 0 : items.filter((item) => !item.hidden).length), 0);
      label.textContent = asked.length ? `${fit} of ${all}` : before;
      owner.classList.toggle("empty", fit === 0);
    }
    unfold(asked.length ? found : [], asked);
    mark(found.slice(0, MOST), asked);
    shown.textContent = asked.length ? `${found.length} of ${total} shown` : "";
  };
  // What is folded around a match is opened, and folded again where the filter no longer has one there.
  const unfold = (found, asked) => {
    const wanted = new Set(found.map((item) => item.closest("details.group")));
    for (const item of found.length <= MOST ? found : []) {
      const folded = item.matches("details") && item.firstElementChild.textContent.toLowerCase();
      if (folded && !asked.every((word) => folded.includes(word))) wanted.add(item);
    }
    for (const it of opened) if (!wanted.has(it) && opened.delete(it)) it.open = false;
    for (const it of wanted) if (it && !it.open) opened.add(it) && (it.open = true);
  };
  // Marks the matches, and brings the first one into the window.
  const mark = (items, asked) => {
    if (!window.Highlight) return;
    const ranges = [];
    const places = new Set(items.flatMap((item) => [cause_of(item) || item, item]));
    for (const place of asked.length ? places : []) {
      const walk = document.createTreeWalker(place, NodeFilter.SHOW_TEXT);
      while (walk.nextNode()) {
        const text = walk.currentNode.data.toLowerCase();
        for (const word of asked) {
          for (let at = text.indexOf(word); at >= 0 && at + word.length <= walk.currentNode.length; at = text.indexOf(word, at + word.length)) {
            const range = new Range();
            range.setStart(walk.currentNode, at);
            range.setEnd(walk.currentNode, at + word.length);
            ranges.push(range);
          }
        }
      }
    }
    CSS.highlights.set("hit", new Highlight(...ranges));
    const first = ranges.map((it) => it.getBoundingClientRect()).find((it) => it.height > 0);
    const begin = document.getElementById("filter").getBoundingClientRect().bottom;
    if (first && (first.top < begin || first.bottom > innerHeight)) scrollBy(0, first.top - begin - 40);
  };
  const open = () => {
    const target = location.hash && document.getElementById(location.hash.slice(1));
    if (target && target.matches("details")) {
      target.hidden = target.closest(".chunk").hidden = false;
      target.open = true;
      target.scrollIntoView();
    }
  };
  words.addEventListener("input", filter);
  document.getElementById("filter").addEventListener("submit", (event) => event.preventDefault());
  document.getElementById("filter").hidden = false;
  addEventListener("hashchange", open);
  const unfolds = document.getElementById("unfold");
  unfolds.addEventListener("click", () => {
    const isOpen = unfolds.textContent === "Fold all";
    document.querySelectorAll("details").forEach((it) => { it.open = !isOpen; });
    unfolds.textContent = isOpen ? "Unfold all" : "Fold all";
  });
  open();
})();
