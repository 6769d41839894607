// Exercises: hides the table, a column of it or the polynomial, says of each answer whether it is right, and shows the way.
(() => {
  const find = (selector, from = document) => from.querySelector(selector);
  const all = (selector, from = document) => Array.from(from.querySelectorAll(selector));
  const grid = find("#table .grid");
  if (!grid) return;
  const root = document.documentElement;
  const box = document.createElement("div"), bar = document.createElement("p"), told = document.createElement("div");
  let asked = [], column = -1;

  const value = (text) => (text === "\u00b7" || text === "" ? 0 : Number(text.replace("\u2212", "-").replace("*", "")));
  const signed = (number) => String(number).replace("-", "\u2212");
  const heads = () => all("thead th", grid).slice(1, -1).map((it) => it.textContent);

  function button(text, act) {
    const made = document.createElement("button");
    made.type = "button";
    made.textContent = text;
    made.addEventListener("click", act);
    bar.append(made);
  }

  // Puts an empty field in the place of each of these cells.
  function hide(cells, words) {
    end();
    forget();
    root.classList.add("quiz");
    asked = cells.map((cell) => {
      const row = find("th", cell.parentNode).textContent, at = heads()[cell.cellIndex - 1];
      const field = document.createElement("input"), html = cell.innerHTML;
      field.size = 2;
      field.inputMode = "numeric";
      field.setAttribute("aria-label", at === undefined ? `row ${row}` : `j ${row}, i ${at}`);
      const name = find("a", cell)?.getAttribute("href").slice(1);
      const entry = { cell, html, field, row, at, name, right: value(cell.textContent.trim()) };
      cell.replaceChildren(field);
      return entry;
    });
    told.innerHTML = `<p>${words} A number for each field; 0 may stay empty.</p>`;
    find("input", grid).focus();
  }

  // What is chosen is told no longer, since it may be what is asked.
  function forget() {
    if (!location.hash) return;
    history.pushState(null, "", location.pathname + location.search);
    window.dispatchEvent(new Event("hashchange"));
  }

  function end() {
    asked.forEach(({ cell, html }) => (cell.innerHTML = html));
    asked = [];
    all(".right, .wrong", grid).forEach((cell) => cell.classList.remove("right", "wrong"));
    root.classList.remove("quiz");
    told.replaceChildren();
  }

  function check() {
    asked.forEach(({ cell, field, right }) => {
      const isRight = value(field.value.trim()) === right;
      cell.classList.toggle("right", isRight);
      cell.classList.toggle("wrong", !isRight);
      field.setAttribute("aria-invalid", String(!isRight));
    });
    const good = asked.filter(({ cell }) => cell.classList.contains("right")).length;
    const last = good === asked.length ? "All are right." : "Those that are not right are marked.";
    told.innerHTML = `<p>${good} of ${asked.length} right. ${last}</p>`;
  }

  // Why a number is what it is: generators and ranks of a cell, or the sum of a row with signs.
  function wayOf({ row, at, name, right }) {
    if (at === undefined) {
      const cells = all("tbody tr", grid).find((it) => find("th", it).textContent === row).cells;
      const terms = heads().map((i, number) => [value(i), value(cells[number + 1].textContent.trim())]).filter(([, count]) => count);
      const sum = terms.map(([i, count]) => `${i % 2 ? "\u2212" : "+"} ${count}`).join(" ").replace(/^\+ /, "");
      return `row ${row}: ${sum || 0} = ${signed(right)}, a dimension at an odd i taken away`;
    }
    const cell = document.getElementById(name), last = find(".ranks tbody tr td:last-child", cell);
    const sum = last ? `generators less both ranks: ${last.textContent}` : all(".brief", cell).pop().textContent;
    return `<a href="#${name}">j = ${row}, i = ${at}</a>: ${sum}`;
  }

  function show() {
    check();
    const ways = asked.filter(({ cell }) => cell.classList.contains("wrong"));
    end();
    const list = ways.map((it) => `<li>${wayOf(it)}</li>`).join("");
    ways.forEach(({ cell }) => cell.classList.add("wrong"));
    told.innerHTML = list ? `<p>The way:</p><ul>${list}</ul>` : "<p>All are right.</p>";
  }

  function hideColumn() {
    const degrees = heads();
    for (let tried = 0; tried < degrees.length; tried++) {
      column = (column + 1) % degrees.length;
      const cells = all("tbody tr", grid).map((row) => row.cells[column + 1]).filter((cell) => find("a", cell));
      if (cells.length) return hide(cells, `What stands in the column ${degrees[column]}?`);
    }
  }

  box.id = "quiz";
  box.className = "screen";
  box.setAttribute("role", "group");
  box.setAttribute("aria-label", "exercises");
  bar.className = "steps";
  const label = document.createElement("span");
  label.textContent = "Exercises: hide";
  bar.append(label);
  button("the table", () => {
    end();
    hide(all("tbody td", grid).filter((cell) => find("a", cell)), "Which dimensions stand here?");
  });
  button("a column", () => {
    end();
    hideColumn();
  });
  button("the polynomial", () => {
    end();
    hide(all("tbody .sum", grid), "Which coefficient has each power of q in the Jones polynomial?");
  });
  ["check", "show the way", "end"].forEach((text, number) => button(text, [check, show, end][number]));
  all("button", bar).slice(3).forEach((it) => it.classList.add("at-work"));
  told.setAttribute("role", "status");
  box.append(bar, told);
  find("#table").append(box);
  box.addEventListener("keydown", (event) => event.key === "Enter" && event.target.tagName === "INPUT" && check());
  grid.addEventListener("keydown", (event) => event.key === "Enter" && event.target.tagName === "INPUT" && check());
})();
