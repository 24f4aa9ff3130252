// Adds the arrow keys, opens the page with its first section alone, and says where a picture goes on to the right.
// Without it the page is complete.
(function () {
  "use strict";
  var sections = Array.prototype.slice.call(document.querySelectorAll("main > section"));
  var links = document.querySelectorAll("nav a");
  var first = "#" + sections[0].id;
  var shown = -1;
  var height = 0;

  function hash() {
    return location.hash || first;
  }

  function chosen() {
    return sections.findIndex(function (section) { return "#" + section.id === hash(); });
  }

  // From one event to another the page keeps its height, so that the two can be compared.
  function changed() {
    var next = chosen();
    if (shown >= 0 && next >= 0) window.scrollTo(0, height);
    shown = next;
    links.forEach(mark);
  }

  function mark(link) {
    if (link.getAttribute("href") !== hash()) {
      link.removeAttribute("aria-current");
      return;
    }
    link.setAttribute("aria-current", "true");
    var list = link.closest("ol");
    var place = link.closest("li");
    list.scrollTop = place.offsetTop - list.clientHeight / 2;
    list.scrollLeft = place.offsetLeft - list.clientWidth / 2;
  }

  function isWide(box) {
    return box.scrollWidth > box.clientWidth;
  }

  // The hint of a picture stands before it. All are measured before one is shown, which would move the others.
  function hint(entries) {
    var wide = entries.map(function (entry) { return isWide(entry.target); });
    entries.forEach(function (entry, nth) { entry.target.previousElementSibling.hidden = !wide[nth]; });
  }

  // A picture that is wider than the screen keeps its arrow keys.
  function scrolls(target) {
    var box = target.closest && target.closest(".scroll");
    return box && isWide(box);
  }

  function step(key) {
    height = window.scrollY;
    if (key.altKey || key.ctrlKey || key.metaKey || key.shiftKey || scrolls(key.target)) return;
    var by = { ArrowLeft: -1, ArrowRight: 1 }[key.key];
    var next = sections[Math.max(chosen(), 0) + by];
    if (!next) return;
    key.preventDefault();
    location.hash = next.id;
  }

  document.addEventListener("keydown", step);
  document.addEventListener("click", function () { height = window.scrollY; });
  window.addEventListener("hashchange", changed);
  document.querySelectorAll(".keys").forEach(function (hint) { hint.hidden = false; });
  document.querySelector("main").classList.add("first");
  shown = chosen();
  links.forEach(mark);

  // A picture gets its size when its section is chosen or the window changes.
  var watcher = new ResizeObserver(hint);
  document.querySelectorAll("figure.scroll").forEach(function (picture) { watcher.observe(picture); });
})();
