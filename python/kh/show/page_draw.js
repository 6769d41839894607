// A knot is drawn with the mouse, a pen or a finger: closed curves, whose crossings a click turns over. Its code goes into the field.
(() => {
  const form = document.querySelector("form.codes"), field = document.querySelector("#text");
  if (!form) return;
  const SVG = "http://www.w3.org/2000/svg", WIDTH = 480, HEIGHT = 360, MOST = 20;
  // The least way of the mouse that counts, and how far around a crossing the strand above is drawn over the one below.
  const STEP = 5, OVER = 10;
  const curves = [], flipped = new Map();
  let drawn = null;

  const box = document.createElement("details");
  box.id = "sketch";
  box.className = "screen";
  box.innerHTML = `<summary>Draw a knot with the mouse</summary><p class="note">Draw a closed curve in one go; it closes where you let go.
    A second curve makes a link. Click a crossing, or press Enter on it, to exchange over and under. The code above is that of the drawing,
    and can be typed as well.</p>`;
  const canvas = document.createElementNS(SVG, "svg");
  canvas.setAttribute("viewBox", `0 0 ${WIDTH} ${HEIGHT}`);
  canvas.setAttribute("class", "sketch");
  canvas.setAttribute("role", "group");
  canvas.setAttribute("aria-label", "where a knot is drawn");
  const bar = document.createElement("p"), told = document.createElement("span");
  told.setAttribute("role", "status");
  bar.className = "steps";

  function element(name, attributes, parent = canvas) {
    const made = document.createElementNS(SVG, name);
    for (const key in attributes) made.setAttribute(key, attributes[key]);
    parent.append(made);
    return made;
  }

  // Where two sides meet: how far along each of them, or nothing.
  function meeting([a, b], [c, d]) {
    const [ux, uy, vx, vy, wx, wy] = [b[0] - a[0], b[1] - a[1], d[0] - c[0], d[1] - c[1], c[0] - a[0], c[1] - a[1]];
    const size = ux * vy - uy * vx;
    if (!size) return null;
    const s = (wx * vy - wy * vx) / size, t = (wx * uy - wy * ux) / size;
    return s >= 0 && s < 1 && t >= 0 && t < 1 ? [s, t] : null;
  }

  const sidesOf = (points) => points.map((point, at) => [point, points[(at + 1) % points.length]]);

  // All crossings: the two passes of each, by their curve and the place along it, and its place on the page.
  function crossingsOf() {
    const sides = curves.flatMap((points, curve) => sidesOf(points).map((side, at) => ({ curve, at, side, count: points.length })));
    const found = [];
    sides.forEach((one, number) => sides.slice(number + 1).forEach((other) => {
      const apart = other.at - one.at;
      if (one.curve === other.curve && (apart === 1 || apart === one.count - 1)) return;
      const met = meeting(one.side, other.side);
      if (!met) return;
      const way = ({ side: [[x, y], [far, deep]] }) => [far - x, deep - y];
      const [[x, y], [far, deep]] = one.side, place = [x + met[0] * (far - x), y + met[0] * (deep - y)];
      const pass = (it, part) => ({ curve: it.curve, at: it.at + part, way: way(it) });
      const name = place.map((it) => Math.round(it / 8)).join(" ");
      found.push({ place, passes: [pass(one, met[0]), pass(other, met[1])], name });
    }));
    return found;
  }

  // Along the curves over and under come in turn, where no click has changed that.
  function walked(crossings) {
    const passes = curves.map((_, curve) => crossings
      .flatMap((crossing, number) => crossing.passes.map((pass, side) => ({ ...pass, number, side })))
      .filter((pass) => pass.curve === curve).sort((one, other) => one.at - other.at));
    passes.forEach((them) => them.forEach(({ number, side }, at) => {
      const crossing = crossings[number];
      if (crossing.over === undefined) crossing.over = at % 2 ? 1 - side : side;
    }));
    crossings.forEach((crossing) => {
      if (flipped.get(crossing.name)) crossing.over = 1 - crossing.over;
    });
    return passes;
  }

  // The planar diagram: arcs are numbered along the curves; each crossing has its four, counterclockwise from the one that comes in below.
  function codeOf(crossings, passes) {
    const ends = crossings.map(() => [null, null]);
    let arc = 0, loops = 0;
    passes.forEach((them) => {
      loops += them.length ? 0 : 1;
      them.forEach(({ number, side }, at) => (ends[number][side] = [arc + (at ? at : them.length), arc + at + 1]));
      arc += them.length;
    });
    const items = crossings.map(({ over, passes: [one, other] }, number) => {
      const [under, above] = over ? [one, other] : [other, one], [below, high] = over ? ends[number] : ends[number].slice().reverse();
      const isPositive = under.way[0] * above.way[1] - under.way[1] * above.way[0] > 0;
      return `X[${[below[0], high[isPositive ? 1 : 0], below[1], high[isPositive ? 0 : 1]].join(", ")}]`;
    });
    for (let number = 1; number <= loops; number++) items.push(`Loop[${arc + number}]`);
    return `PD[${items.join(", ")}]`;
  }

  const pathOf = (points, closed) => `M${points.map((it) => it.map((one) => one.toFixed(1)).join(" ")).join("L")}${closed ? "Z" : ""}`;

  function drawCrossing(crossing, number) {
    const { place: [x, y], passes, over } = crossing, [far, deep] = passes[over].way, length = Math.hypot(far, deep);
    const part = pathOf([[x - (OVER * far) / length, y - (OVER * deep) / length], [x + (OVER * far) / length, y + (OVER * deep) / length]]);
    element("path", { class: "below", d: part });
    element("path", { class: "strand", d: part });
    const button = element("circle", { class: "turn", cx: x, cy: y, r: 12, role: "button", tabindex: 0,
      "aria-label": `crossing ${number + 1}: exchange over and under` });
    const turn = () => {
      flipped.set(crossing.name, !flipped.get(crossing.name));
      show();
      canvas.querySelectorAll(".turn")[number].focus();
    };
    button.addEventListener("click", turn);
    button.addEventListener("keydown", (event) => {
      if (event.key !== "Enter" && event.key !== " ") return;
      event.preventDefault();
      turn();
    });
  }

  function show() {
    canvas.replaceChildren();
    curves.forEach((points) => element("path", { class: "strand", d: pathOf(points, true) }));
    const crossings = crossingsOf(), passes = walked(crossings);
    if (crossings.length <= MOST) crossings.forEach(drawCrossing);
    const many = `${crossings.length} crossing${crossings.length === 1 ? "" : "s"}`;
    told.textContent = crossings.length > MOST ? `${many}; a diagram has ${MOST} at most` : curves.length ? many : "";
    if (curves.length && crossings.length <= MOST) field.value = codeOf(crossings, passes);
  }

  function placeOf(event) {
    const edges = canvas.getBoundingClientRect();
    return [((event.clientX - edges.left) * WIDTH) / edges.width, ((event.clientY - edges.top) * HEIGHT) / edges.height];
  }

  canvas.addEventListener("pointerdown", (event) => {
    if (event.target.closest(".turn")) return;
    event.preventDefault();
    canvas.setPointerCapture(event.pointerId);
    drawn = [placeOf(event)];
  });
  canvas.addEventListener("pointermove", (event) => {
    if (!drawn) return;
    const place = placeOf(event), last = drawn[drawn.length - 1];
    if (Math.hypot(place[0] - last[0], place[1] - last[1]) < STEP) return;
    drawn.push(place);
    canvas.querySelector(".now")?.remove();
    element("path", { class: "strand now", d: pathOf(drawn) });
  });
  canvas.addEventListener("pointerup", () => {
    if (!drawn) return;
    if (drawn.length > 5) curves.push(drawn);
    drawn = null;
    show();
  });

  function button(text, act) {
    const made = document.createElement("button");
    made.type = "button";
    made.textContent = text;
    made.addEventListener("click", act);
    bar.append(made);
  }

  button("take the last curve away", () => {
    curves.pop();
    show();
  });
  button("clear", () => {
    curves.length = 0;
    flipped.clear();
    show();
  });
  bar.append(told);
  box.append(canvas, bar);
  form.after(box);
})();
