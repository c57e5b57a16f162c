(function () {
  "use strict";
  var root = document.documentElement;
  var find = document.getElementById("find");
  var hits = document.getElementById("hits");
  var list = hits.firstElementChild;
  var nav = document.querySelector("nav");
  var chosen = 0; // the hit that Enter opens

  // Without a script all pages are shown one below the other.
  root.classList.add("js");

  function all(selector, use) {
    document.querySelectorAll(selector).forEach(use);
  }

  // ---- light and dark

  try {
    var kept = localStorage.getItem("theme");
    if (kept) root.dataset.theme = kept;
  } catch (error) {}

  document.getElementById("theme").onclick = function () {
    var dark = root.dataset.theme
      ? root.dataset.theme === "dark"
      : matchMedia("(prefers-color-scheme: dark)").matches;
    root.dataset.theme = dark ? "light" : "dark";
    try {
      localStorage.setItem("theme", root.dataset.theme);
    } catch (error) {}
  };

  // ---- pages

  document.getElementById("menu").onclick = function () {
    nav.classList.toggle("open");
  };

  // Shows the page of the entry that the address names.
  function go() {
    var id = decodeURIComponent(location.hash.slice(1)) || "index";
    var target = document.getElementById(id);
    if (!target) {
      id = "index";
      target = document.getElementById(id);
    }
    var page = target.closest(".page");
    all(".page", function (it) {
      it.classList.toggle("on", it === page);
    });
    all("nav a", function (it) {
      it.classList.toggle("on", it.hash === "#" + page.id || it.hash === "#" + id);
    });
    var outer = target.closest("article");
    while (outer && outer.parentNode.closest("article")) outer = outer.parentNode.closest("article");
    all("nav .sub", function (it) {
      it.classList.toggle("on", !!outer && it.dataset.of === outer.id);
    });
    all("nav .items", function (it) {
      it.classList.toggle("on", it.dataset.page === page.id);
    });
    nav.classList.remove("open");
    hits.hidden = true;
    if (target === page) scrollTo(0, 0);
    else target.scrollIntoView();
    document.title = (target === page ? page.dataset.title : id.replace(/^[a-z]+\./, "")) + " - daggy";
  }

  addEventListener("hashchange", go);
  go();

  // ---- search: an item is [title, full name, id, sentence, kind, rank]

  function score(item, query) {
    var name = item[0].toLowerCase();
    var full = item[1].toLowerCase();
    if (name === query) return 100 - item[5];
    if (full === query) return 99;
    var longer = name.length * 0.1 + item[5];
    if (name.indexOf(query) === 0) return 80 - longer;
    if (name.indexOf("_" + query) >= 0) return 60 - longer;
    if (name.indexOf(query) >= 0) return 50 - longer;
    if (full.indexOf(query) >= 0) return 40;
    var words = query.split(/[\s:._]+/).filter(Boolean);
    var text = full + " " + item[3].toLowerCase() + " " + item[4].toLowerCase();
    var found = words.every(function (word) {
      return text.indexOf(word) >= 0;
    });
    return words.length && found ? 20 - item[5] : 0;
  }

  function escaped(text) {
    return text.replace(/&/g, "&amp;").replace(/</g, "&lt;");
  }

  function shown(item) {
    var sentence = escaped(item[3]).replace(/`([^`]*)`/g, "<code>$1</code>");
    return '<a href="#' + item[2] + '"><code>' + escaped(item[1]) + "</code> <span class=tag>" + item[4] + "</span>" +
      "<span class=what>" + sentence + "</span></a>";
  }

  function choose(at) {
    var links = list.querySelectorAll("a");
    if (!links.length) return;
    if (links[chosen]) links[chosen].classList.remove("on");
    chosen = (at + links.length) % links.length;
    links[chosen].classList.add("on");
    links[chosen].scrollIntoView({ block: "nearest" });
  }

  function search() {
    var query = find.value.trim().toLowerCase();
    hits.hidden = !query;
    if (!query) return;
    var found = ITEMS.map(function (item) {
      return [score(item, query), item];
    }).filter(function (it) {
      return it[0] > 0;
    }).sort(function (a, b) {
      return b[0] - a[0];
    }).slice(0, 60);
    list.innerHTML = found.map(function (it) {
      return shown(it[1]);
    }).join("") || "<p>No item has this name.</p>";
    hits.scrollTop = 0;
    choose(0);
  }

  function open(hash) {
    hits.hidden = true;
    find.blur();
    if (location.hash === hash) go();
    else location.hash = hash;
  }

  find.oninput = search;
  find.onfocus = search;
  list.onclick = function (event) {
    var link = event.target.closest("a");
    if (!link) return;
    event.preventDefault();
    open(link.hash);
  };

  addEventListener("keydown", function (event) {
    if (event.target !== find) {
      var plain = !event.ctrlKey && !event.metaKey && !event.altKey;
      if (plain && (event.key === "/" || event.key === "s")) {
        event.preventDefault();
        find.focus();
        find.select();
      }
      return;
    }
    if (event.key === "Escape") {
      find.value = "";
      hits.hidden = true;
      find.blur();
    } else if (event.key === "ArrowDown" || event.key === "ArrowUp") {
      event.preventDefault();
      choose(chosen + (event.key === "ArrowDown" ? 1 : -1));
    } else if (event.key === "Enter") {
      var link = list.querySelectorAll("a")[chosen];
      if (link) open(link.hash);
    }
  });
})();
