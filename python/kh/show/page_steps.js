// Shows the scan one step at a time, forward and back, by buttons and by the arrow keys.
(() => {
  const scans = Array.from(document.querySelectorAll(".scans"));
  const bar = document.createElement("p");
  bar.className = "steps screen";

  function button(text, label, act) {
    const made = document.createElement("button");
    made.type = "button";
    made.textContent = text;
    made.setAttribute("aria-label", label);
    made.addEventListener("click", act);
    bar.append(made);
    return made;
  }

  if (!scans.length) return;
  let scan = scans[0], at = 0;
  const back = button("\u2190 back", "the step before", () => go(at - 1));
  const forward = button("forward \u2192", "the next step", () => go(at + 1));
  const told = document.createElement("span");
  told.setAttribute("role", "status");
  bar.append(told);
  if (scans.length > 1) {
    scans.forEach((it) => button(`over ${it.dataset.field}`, `the scan over ${it.dataset.field} elements`, () => {
      scan = it;
      go(0);
    }));
  }

  function go(to) {
    const steps = Array.from(scan.querySelectorAll("li"));
    at = Math.max(0, Math.min(steps.length - 1, to));
    scans.forEach((it) => it.classList.toggle("off", it !== scan));
    steps.forEach((step, number) => step.classList.toggle("now", number === at));
    told.textContent = ` step ${at + 1} of ${steps.length} `;
    const focused = document.activeElement;
    back.disabled = at === 0;
    forward.disabled = at === steps.length - 1;
    // (a button that is switched off would lose the keys)
    if (focused === forward && forward.disabled) back.focus();
    if (focused === back && back.disabled) forward.focus();
  }

  scans[0].before(bar);
  bar.closest("section").addEventListener("keydown", (event) => {
    if (event.key === "ArrowRight") go(at + 1);
    else if (event.key === "ArrowLeft") go(at - 1);
    else return;
    event.preventDefault();
  });
  go(0);
})();
