"use strict";
(() => {
  const data = JSON.parse(document.getElementById("data").textContent);
  const by = (id) => document.getElementById(id);
  const number = (value) => value.toLocaleString("en-US");
  const share = (value, of) => (of ? ((100 * value) / of).toFixed(2) : "0.00") + " %";
  const state = { scale: "counts", rule: null, subscriber: null };
  const charts = {};
  const kinds = [...Object.keys(data.outcomes).filter((it) => it !== "drop"), "drop", ...Object.keys(data.rules)];
  const dropped = data.outcomes.drop || 0;

  const narrow = matchMedia("(max-width: 600px)");
  const style = (name) => getComputedStyle(document.documentElement).getPropertyValue(name).trim();
  // one colour for a kind everywhere: hues that are far apart in the order of the kinds
  const colour = (kind) => `hsl(${Math.round(kinds.indexOf(kind) * 137.508 + 210) % 360} 62% ${style("--light")})`;

  function element(name, text, attributes) {
    const made = document.createElement(name);
    if (text !== undefined && text !== null) made.textContent = text;
    for (const [key, value] of Object.entries(attributes || {})) made.setAttribute(key, value);
    return made;
  }

  const swatch = (kind) => element("span", null, { class: "swatch", style: `background:${colour(kind)}`, "aria-hidden": "true" });

  // a table whose columns sort by their headings; a cell is text, a number, or { shown, value, choose, kind }
  function fill(id, caption, columns, rows, sortable = true) {
    const table = by(id);
    table.replaceChildren(element("caption", caption));
    const head = table.createTHead().insertRow();
    const body = table.createTBody();
    columns.forEach((title, at) => {
      const th = element("th", sortable ? null : title, { scope: "col", ...(rows.length && rows[0][at].text ? { class: "left" } : {}) });
      if (sortable) {
        const button = element("button", title, { type: "button" });
        button.addEventListener("click", () => {
          const down = th.getAttribute("aria-sort") !== "descending";
          for (const other of head.cells) other.removeAttribute("aria-sort");
          th.setAttribute("aria-sort", down ? "descending" : "ascending");
          const value = (row) => { const it = row[at]; return it !== null && typeof it === "object" ? it.value : it; };
          const order = [...rows].sort((a, b) => (value(a) < value(b) ? -1 : value(a) > value(b) ? 1 : 0));
          draw(down ? order.reverse() : order);
        });
        th.append(button);
      }
      head.append(th);
    });
    function draw(order) {
      body.replaceChildren(...order.map((row) => {
        const tr = element("tr");
        row.forEach((cell) => {
          const it = cell !== null && typeof cell === "object" ? cell : { shown: typeof cell === "number" ? number(cell) : cell };
          const td = element("td", it.choose ? null : it.shown, it.text ? { class: "text" } : {});
          if (it.choose) {
            const button = element("button", it.shown, { type: "button", "aria-pressed": String(it.chosen) });
            button.addEventListener("click", it.choose);
            td.append(button);
            if (it.chosen) tr.setAttribute("aria-current", "true");
          }
          if (it.kind) {
            const box = element("span", null, { class: "kind" });
            box.append(swatch(it.kind), ...td.childNodes);
            td.replaceChildren(box);
          }
          tr.append(td);
        });
        return tr;
      }));
    }
    draw(rows);
  }

  function head() {
    by("title").textContent = data.title;
    for (const [name, value] of data.facts) by("facts").append(element("dt", name), element("dd", value));
  }

  function choose(what, name) {
    const was = state[what];
    state.rule = state.subscriber = null;
    state[what] = was === name ? null : name;
    show();
    // the tables are new: give the focus back to the button that had it
    const buttons = [...by(what === "rule" ? "t-rules" : "t-subscribers").querySelectorAll("td button")];
    buttons.find((it) => it.textContent === name)?.focus({ preventScroll: true });
  }

  const chosenSubscriber = () => data.subscribers.find((it) => it.name === state.subscriber);

  // the rules that are shown, with their drops: of all, of the chosen rule, or of the chosen subscriber
  function rulesShown() {
    const of = chosenSubscriber();
    const names = of ? Object.keys(of.rules) : state.rule ? [state.rule] : Object.keys(data.rules);
    return names.map((name) => [name, of ? of.rules[name] : data.rules[name].packets]).sort((a, b) => b[1] - a[1]);
  }

  function tables() {
    const outcomes = Object.entries(data.outcomes);
    fill("t-outcomes", `${number(data.records)} records`, ["Outcome", "Records", "Share"],
      outcomes.map(([name, count]) => [{ shown: name, value: name, kind: name }, count, { shown: share(count, data.records), value: count }]));
    const bytes = data.has_bytes && !state.subscriber;
    fill("t-rules", state.subscriber ? `Drops of ${state.subscriber}` : `${number(dropped)} records were dropped`,
      ["Rule", "Drops", "Share", ...(bytes ? ["Bytes"] : []), "First record"],
      rulesShown().map(([name, count]) => [
        { shown: name, value: name, kind: name, choose: () => choose("rule", name), chosen: state.rule === name },
        count, { shown: share(count, data.records), value: count }, ...(bytes ? [data.rules[name].bytes] : []), data.rules[name].first,
      ]));
    const its = data.subscribers
      .map((it) => [it, state.rule ? it.rules[state.rule] || 0 : it.total])
      .filter(([it, count]) => count > 0 && (!state.subscriber || it.name === state.subscriber))
      .sort((a, b) => b[1] - a[1]);
    by("s-subscribers").hidden = !data.subscribers.length;
    fill("t-subscribers", state.rule ? `Drops by ${state.rule}` : "Drops by all rules", ["Subscriber", "Drops", "By rule"], its.map(([it, count]) => [
      { shown: it.name, value: it.name, choose: () => choose("subscriber", it.name), chosen: state.subscriber === it.name },
      count,
      { shown: Object.entries(it.rules).map(([rule, drops]) => `${rule} ${number(drops)}`).join(", "), value: count, text: true },
    ]));
    by("subscribers-note").textContent = data.note;
    by("meaning").replaceChildren(...rulesShown().flatMap(([name]) => {
      const it = data.meaning[name];
      if (!it) return [];
      const title = element("h3", name);
      title.prepend(swatch(name));
      return [title, element("p", `${it.meaning} (${it.source}) What to do: ${it.action[0].toLowerCase()}${it.action.slice(1)}`), ...it.commands.map((line) => element("pre", line))];
    }));
  }

  function statics() {
    fill("t-tables", "Records by the table in force", ["Table", "Records", "Share", "Line of VERSIONS"],
      data.tables.map((it) => [it.name, it.records, { shown: share(it.records, data.records), value: it.records }, { shown: it.line, value: it.line, text: true }]));
    by("course").addEventListener("toggle", () => {
      const its = kinds.filter((it) => it !== "drop");
      fill("t-course", `Records in each step of ${data.course.step}`, [data.course.axis, ...its],
        data.course.parts.map((part, at) => [data.course.places[at], ...its.map((it) => part[it] || 0)]), false);
    }, { once: true });
  }

  // table changes as marked lines
  const marks = {
    id: "marks",
    afterDatasetsDraw(chart) {
      const { ctx, chartArea: area, scales } = chart;
      ctx.save();
      ctx.strokeStyle = ctx.fillStyle = style("--ink");
      ctx.font = "12px sans-serif";
      ctx.setLineDash([4, 4]);
      ctx.lineJoin = "round";
      let end = -Infinity;
      for (const it of data.came) {
        const x = scales.x.getPixelForValue(it.place);
        ctx.beginPath();
        ctx.moveTo(x, area.top);
        ctx.lineTo(x, area.bottom);
        ctx.stroke();
        const label = `table ${it.table}`;
        if (x > end) {
          const width = ctx.measureText(label).width;
          const at = Math.min(x + 4, area.right - width);
          ctx.save();
          ctx.setLineDash([]);
          ctx.strokeStyle = style("--paper");
          ctx.lineWidth = 4;
          ctx.strokeText(label, at, area.top + 12);
          ctx.fillText(label, at, area.top + 12);
          ctx.restore();
          end = x + width + 8;
        }
      }
      ctx.restore();
    },
  };

  function over(id, names, label) {
    const { parts, places, rate, axis } = data.course;
    const totals = parts.map((part) => Object.entries(part).reduce((sum, [name, count]) => sum + count, 0));
    const isLog = state.scale === "log", isShare = state.scale === "shares";
    const value = (count, at) => (isShare ? (totals[at] ? (100 * count) / totals[at] : 0) : count / rate);
    draw(id, {
      type: "line",
      data: {
        datasets: names.map((name) => ({
          label: name,
          data: parts.map((part, at) => ({ x: places[at], y: isLog && !part[name] ? null : value(part[name] || 0, at) })),
          borderColor: colour(name), backgroundColor: colour(name), fill: !isLog, borderWidth: isLog ? 2 : 1, pointRadius: isLog ? 1 : 0, stepped: true,
        })),
      },
      options: options(names, axis, isShare ? "share of records, %" : data.course.unit, isLog, !isLog, { type: "linear", min: 0, max: data.course.end }),
      plugins: [marks],
    }, `${label} over the run: ${names.map((it) => `${it} ${number(it in data.rules ? data.rules[it].packets : data.outcomes[it])}`).join(", ")}`);
  }

  function bars() {
    const its = rulesShown();
    by("c-rules").parentElement.style.height = `${Math.max(120, its.length * 26 + 70)}px`;
    const of = its.reduce((sum, it) => sum + it[1], 0);
    const isShare = state.scale === "shares";
    // a rule with few drops would not be seen next to one with many
    const isLog = state.scale === "log" || (!isShare && its.length > 1 && its[0][1] > 50 * its[its.length - 1][1]);
    const title = isShare ? "share of the drops, %" : isLog ? "drops, on a logarithmic scale" : "drops";
    const made = options([], "", "", isLog, false, {});
    made.indexAxis = "y";
    made.scales = { x: { ...made.scales.y, type: isLog ? "logarithmic" : "linear", min: isLog ? 0.5 : 0, title: { display: true, text: title, color: style("--soft") } }, y: { grid: { display: false }, ticks: { color: style("--ink"), autoSkip: false } } };
    made.plugins.legend.display = false;
    made.onClick = (_, found) => found.length && choose("rule", its[found[0].index][0]);
    draw("c-rules", {
      type: "bar",
      data: { labels: its.map((it) => it[0]), datasets: [{ data: its.map((it) => (isShare ? (100 * it[1]) / of : it[1])), backgroundColor: its.map((it) => colour(it[0])) }] },
      options: made,
    }, `Drops by rule: ${its.map((it) => `${it[0]} ${number(it[1])}`).join(", ")}`);
  }

  function options(names, x, y, isLog, isStacked, axis) {
    const ticks = { color: style("--soft"), maxRotation: 0 };
    const tens = (axis) => { if (isLog) axis.ticks = axis.ticks.filter((it) => Number.isInteger(Math.log10(it.value))); };
    const grid = { color: style("--line") };
    // on a narrow screen a long legend would take the place of the chart; the bars below name the rules with their colours too
    const legend = { display: !narrow.matches || names.length <= 6, position: "bottom", labels: { color: style("--ink"), boxWidth: 12 }, onClick: (_, it) => it.text in data.rules && choose("rule", it.text) };
    return {
      responsive: true, maintainAspectRatio: false, animation: false, interaction: { mode: "index", intersect: false },
      plugins: { legend },
      scales: {
        x: { ...axis, title: { display: Boolean(x), text: x, color: style("--soft") }, ticks, grid },
        y: { type: isLog ? "logarithmic" : "linear", stacked: isStacked, beginAtZero: true, title: { display: true, text: y, color: style("--soft") }, ticks: isLog ? { ...ticks, callback: number } : ticks, afterBuildTicks: tens, grid },
      },
    };
  }

  function draw(id, config, label) {
    if (charts[id]) charts[id].destroy();
    by(id).setAttribute("aria-label", label);
    charts[id] = new Chart(by(id), config);
  }

  function show() {
    const filter = state.rule ? `Only the rule ${state.rule}.` : state.subscriber ? `Only ${state.subscriber}: the rules are its own, the chart over the run shows these rules of all.` : "";
    by("filter").textContent = filter || "Choose a rule or a subscriber to filter the others.";
    by("all").hidden = !filter;
    for (const it of document.querySelectorAll("[data-scale]")) it.setAttribute("aria-pressed", String(it.dataset.scale === state.scale));
    tables();
    over("c-outcomes", Object.keys(data.outcomes).filter((it) => it !== "drop"), "Records forwarded and held");
    over("c-drops", rulesShown().map((it) => it[0]), "Drops by rule");
    bars();
  }

  head();
  statics();
  for (const it of document.querySelectorAll("[data-scale]")) it.addEventListener("click", () => { state.scale = it.dataset.scale; show(); });
  by("all").addEventListener("click", () => { state.rule = state.subscriber = null; show(); });
  matchMedia("(prefers-color-scheme: dark)").addEventListener("change", show);
  narrow.addEventListener("change", show);
  addEventListener("beforeprint", show);
  addEventListener("afterprint", show);
  show();
})();
