// The report that is shown: the drawing, which is made by the dashboard, and the files to download.
// `version` is that of the drawing; while `loading`, no other drawing is requested.
const shown = { key: null, version: null, loading: false };

const byId = (id) => document.getElementById(id);

// Shows a report. `isChosen`: the user has chosen it, so the focus moves to it.
async function showReport(key, isChosen) {
  const isOther = shown.key !== key;
  shown.key = key;
  byId("report").hidden = false;
  if (isOther) {
    clearReport();
  }
  if (isChosen) {
    byId("report-title").focus();
  }
  if (isOther || !shown.loading) {
    await loadReport(key);
  }
}

function clearReport() {
  shown.version = null;
  byId("report-title").textContent = titleOf(shown.key);
  byId("report-wait").textContent = "Drawing the report …";
  byId("report-note").hidden = byId("legend").hidden = true;
  byId("downloads").replaceChildren();
  byId("drawing").replaceChildren();
}

function titleOf(key) {
  const [run, , number] = key.split("-");
  return `Report of ${state.windows ? "window" : "question"} ${number}${Number(run) === state.run ? "" : ", before the server restarted"}`;
}

async function loadReport(key) {
  shown.loading = true;
  try {
    const drawing = await (await fetch(`/report/${key}`)).json();
    if (shown.key === key) {
      fillReport(drawing);
    }
  } catch {
    // The dashboard has ended: the next look at its state says so.
  } finally {
    if (shown.key === key) {
      shown.loading = false;
    }
  }
}

function fillReport(drawing) {
  byId("report-wait").textContent = drawing.refusal ?? "";
  byId("report-note").textContent = drawing.note ?? "";
  byId("report-note").hidden = !drawing.note;
  if (drawing.refusal !== undefined) {
    return;
  }
  shown.version = drawing.version;
  byId("drawing").innerHTML = drawing.html; // every text of the trace in it is escaped
  byId("legend").hidden = !document.querySelector("#drawing .badge");
  byId("legend-values").hidden = !document.querySelector("#drawing .badge.no-value");
  for (const wide of document.querySelectorAll("#drawing .scroll")) {
    wide.tabIndex = 0;
    wide.setAttribute("role", "group");
    wide.setAttribute("aria-label", "time line");
  }
  const links = [["report", "report"], ["json", "JSON"], ["sarif", "SARIF"]];
  byId("downloads").replaceChildren("Download ", ...links.filter(([kind]) => kind === "report" || drawing.is_whole).map(linkOf));
}

function linkOf([kind, words]) {
  return Object.assign(document.createElement("a"), { href: `/download/${shown.key}.${kind}`, download: "", textContent: words });
}

// Draws the shown report again if the trace has more to show, and shows the first settled report if there is none.
function followReport(questions) {
  const settled = questions.filter(isSettled);
  const wanted = settled.find((question) => keyOf(question) === asked.key);
  if (wanted) {
    asked.key = null;
    say(`Question ${wanted.number} is settled: its report is below.`);
    showReport(keyOf(wanted), false);
  } else if (shown.key === null) {
    if (settled.length) {
      showReport(keyOf(settled[settled.length - 1]), false);
    }
  } else if (!shown.loading) {
    const same = settled.find((question) => keyOf(question) === shown.key);
    if (same && same.version !== shown.version) {
      loadReport(shown.key);
    }
    byId("report-title").textContent = titleOf(shown.key);
  }
}
